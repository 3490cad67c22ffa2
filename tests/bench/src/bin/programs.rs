//! The replay program against the reference's, whole programs on the same files in one run: `programs OURS THEIRS`.

use reference::generate::list;
use std::fs::File;
use std::process::{Command, Stdio};
use std::time::{Duration, Instant};

const COUNT: usize = 200_000;
const RUNS: usize = 15;

fn time(program: &str, file: &std::path::Path) -> Duration {
    let input = File::open(file).expect("the list");
    let start = Instant::now();
    let status = Command::new(program).stdin(input).stdout(Stdio::null()).status().expect("the program runs");
    assert!(status.success());
    start.elapsed()
}

fn main() {
    let programs: Vec<String> = std::env::args().skip(1).collect();
    let file = std::env::temp_dir().join(format!("programs-{}.bin", std::process::id()));
    for (name, kind) in [("calm (mesh)", "mesh"), ("updates (update)", "update"), ("hostile (storm)", "storm")] {
        std::fs::write(&file, list(7, COUNT, kind).expect("a kind")).expect("the list is written");
        let mut least = [Duration::MAX; 2];
        for _ in 0..RUNS {
            for (which, program) in programs.iter().take(2).enumerate() {
                least[which] = least[which].min(time(program, &file));
            }
        }
        let [ours, theirs] = least.map(|d| d.as_secs_f64());
        println!("{name}, {COUNT} events: {:.0} ms against {:.0} ms, ratio {:.2}", ours * 1e3, theirs * 1e3, ours / theirs);
    }
    let _ = std::fs::remove_file(&file);
}
