//! `record FOLDER` writes the recorded lists: each as NAME.bin with the lines
//! of the replay program (NAME.txt) and those of `--octets` (NAME.octets),
//! those written by hand as listing.bin and solicited.bin, and the table
//! COVERAGE.md.

use reference::generate::list;
use reference::lists;
use reference::replay::{self, Printed, STATES};
use reference::rule::Rule;
use std::fmt::Write;
use std::{fs, io, path::Path};

/// Kind, seed and count of the lists. They were chosen by trial: between them
/// they take every rule, code and state that a short list can take, which
/// tests/recorded.rs looks at again.
#[rustfmt::skip]
const LISTS: [(&str, u64, usize); 41] = [
    ("ends", 125, 54), ("ends", 217, 60), ("full", 171, 57), ("full", 315, 45),
    ("hello", 89, 57), ("hello", 142, 56), ("hops", 183, 56), ("hops", 277, 55),
    ("kept", 272, 52), ("late", 21, 49), ("late", 36, 58), ("links", 48, 57),
    ("links", 187, 42), ("loss", 84, 54), ("malformed", 233, 45), ("malformed", 241, 58),
    ("master", 224, 56), ("mesh", 2, 54), ("missed", 209, 47), ("missed", 226, 49),
    ("negotiate", 183, 56), ("negotiate", 318, 55), ("overflow", 159, 58),
    ("overflow", 265, 56), ("own", 180, 46), ("purge", 129, 40), ("refuse", 135, 60),
    ("refuse", 340, 60), ("requests", 154, 55), ("requests", 253, 57), ("restart", 269, 42),
    ("restart", 344, 46), ("round", 91, 50), ("slave", 294, 57), ("solicit", 337, 50),
    ("storm", 253, 57), ("storm", 322, 41), ("update", 301, 53), ("wrap", 57, 46),
    ("wrap", 279, 48), ("zero", 23, 48),
];

struct Recorded {
    kind: &'static str,
    file: Vec<u8>,
    printed: Printed,
}

impl Recorded {
    fn new(kind: &'static str, file: Vec<u8>) -> Self {
        let printed = replay::run(&file);
        Recorded { kind, file, printed }
    }

    /// All that it takes, as numbers: rules, then codes, then states.
    fn takes(&self) -> Vec<usize> {
        let seen = &self.printed.seen;
        let rules =
            Rule::ALL.iter().filter(|rule| seen.rules.has(**rule)).map(|rule| *rule as usize);
        let codes = (0..32).filter(|code| seen.codes & 1 << code != 0).map(|code| 1000 + code);
        let states =
            (0..32).filter(|state| seen.states & 1 << state != 0).map(|state| 2000 + state);
        rules.chain(codes).chain(states).collect()
    }
}

/// The lists by name: the kind, and a number in it.
fn recorded() -> Vec<(String, Recorded)> {
    let mut all: Vec<(String, Recorded)> = Vec::new();
    for (kind, seed, count) in LISTS {
        let number = 1 + all.iter().filter(|(_, other)| other.kind == kind).count();
        let file = list(seed, count, kind).expect("a known kind");
        all.push((format!("{kind}-{number}"), Recorded::new(kind, file)));
    }
    for (name, events) in [("listing", lists::listing()), ("solicited", lists::solicited())] {
        let file = events.iter().flat_map(|event| event.write()).collect();
        all.push((name.to_string(), Recorded::new(name, file)));
    }
    all
}

/// The first few lists that take it, and how many more.
fn takers(lists: &[(String, Recorded)], what: usize) -> String {
    let mut names: Vec<&str> =
        lists.iter().filter(|(_, c)| c.takes().contains(&what)).map(|(n, _)| n.as_str()).collect();
    let more = format!("{} more", names.len().saturating_sub(6));
    if names.len() > 7 {
        names.truncate(6);
        names.push(&more);
    }
    names.join(", ")
}

fn table(lists: &[(String, Recorded)]) -> Result<String, std::fmt::Error> {
    let mut text = String::from("# What the recorded lists take\n\n");
    writeln!(text, "| list | events | rules | codes | states |\n|---|---|---|---|---|")?;
    for (name, recorded) in lists {
        let seen = &recorded.printed.seen;
        let codes: Vec<String> =
            (0..19).filter(|c| seen.codes & 1 << c != 0).map(|c: u32| c.to_string()).collect();
        let states: Vec<String> =
            (0..12).filter(|s| seen.states & 1 << s != 0).map(|s: u32| s.to_string()).collect();
        let (events, rules) = (recorded.printed.lines.len(), seen.rules.count());
        writeln!(
            text,
            "| {name} | {events} | {rules} | {} | {} |",
            codes.join(" "),
            states.join(" ")
        )?;
    }
    let takers = |what: usize| takers(lists, what);
    writeln!(text, "\n| state | | lists |\n|---|---|---|")?;
    for (bit, state) in STATES.iter().enumerate() {
        writeln!(text, "| {bit} | {state} | {} |", takers(2000 + bit))?;
    }
    writeln!(text, "\n| code | lists |\n|---|---|")?;
    for code in 0..19 {
        writeln!(text, "| {code} | {} |", takers(1000 + code))?;
    }
    writeln!(text, "\n| rule | clause | lists |\n|---|---|---|")?;
    for rule in Rule::ALL {
        writeln!(text, "| {rule:?} | {} | {} |", rule.words(), takers(*rule as usize))?;
    }
    Ok(text)
}

fn main() -> io::Result<()> {
    let folder = std::env::args().nth(1).unwrap_or_else(|| ".".to_string());
    let folder = Path::new(&folder);
    fs::create_dir_all(folder)?;
    let lists = recorded();
    for (name, recorded) in &lists {
        fs::write(folder.join(format!("{name}.bin")), &recorded.file)?;
        fs::write(folder.join(format!("{name}.txt")), recorded.printed.text(false))?;
        fs::write(folder.join(format!("{name}.octets")), recorded.printed.text(true))?;
    }
    let table = table(&lists).unwrap_or_default();
    print!("{table}");
    fs::write(folder.join("COVERAGE.md"), table)
}
