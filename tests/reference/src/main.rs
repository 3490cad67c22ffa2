//! Reads a replay file on standard input and prints its lines; `--octets`
//! prints behind each line the octets written at that event, and the state of
//! the slot that the record's second octet names.

use reference::replay;
use std::io::{self, Read, Write};

fn main() -> io::Result<()> {
    let octets = std::env::args().any(|argument| argument == "--octets");
    let mut file = Vec::new();
    io::stdin().lock().read_to_end(&mut file)?;
    io::stdout().lock().write_all(replay::run(&file).text(octets).as_bytes())
}
