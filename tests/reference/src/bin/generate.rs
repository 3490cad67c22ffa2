//! `generate SEED COUNT KIND` writes a random replay file to standard
//! output; `generate kinds` prints the kinds.

use reference::generate::{kinds::KINDS, list};
use std::io::{self, Write};
use std::process::ExitCode;

fn main() -> ExitCode {
    let arguments: Vec<String> = std::env::args().skip(1).collect();
    if arguments == ["kinds"] {
        for flavour in KINDS {
            println!("{}", flavour.name);
        }
        return ExitCode::SUCCESS;
    }
    let file = match &arguments[..] {
        [seed, count, kind] => match (seed.parse(), count.parse()) {
            (Ok(seed), Ok(count)) => list(seed, count, kind),
            _ => None,
        },
        _ => None,
    };
    let Some(file) = file else {
        eprintln!("generate SEED COUNT KIND, or generate kinds");
        return ExitCode::from(2);
    };
    match io::stdout().lock().write_all(&file) {
        Ok(()) => ExitCode::SUCCESS,
        Err(_) => ExitCode::FAILURE,
    }
}
