//! The work of crates/bench on a cache in Rust with the reference's rows, and the two timed against each other.
//! `bench BINARY`: the ratio of BINARY's time to ours for each kind of work, on full and half full caches.

use reference::server::{Row, ROWS, SLOTS};
use reference::wire::{CsaNumber, Id, Key, Payload};
use std::io::Write;
use std::process::{Command, Stdio};
use std::time::{Duration, Instant};

const ORIGINATOR: Id = [10, 0, 0, 1];
const COUNT: u32 = 1_000_000;
const RUNS: usize = 15;

struct Cache {
    rows: [Option<Row>; ROWS],
}

fn scrambled(x: u32) -> u32 {
    x.wrapping_mul(1664525).wrapping_add(1013904223)
}

fn key_of(n: u32) -> Key {
    Key::new(&[n as u8, 1, 2, 3, 4, 5, 6, 7]).expect("a key")
}

impl Cache {
    fn find(&self, key: &Key) -> Option<usize> {
        let is_it = |row: &Row| row.key == *key && row.originator == ORIGINATOR;
        self.rows.iter().position(|row| row.as_ref().is_some_and(is_it))
    }

    fn store(&mut self, n: u32, number: u32) -> u32 {
        let key = key_of(n);
        let number = CsaNumber(number as i32);
        let payload = Payload::new(&[9; 16]).expect("a payload");
        match self.find(&key) {
            Some(r) => {
                let row = self.rows[r].as_mut().expect("found");
                if row.number >= number {
                    return 0;
                }
                row.number = number;
                row.payload = payload;
                row.remaining = 15;
                row.waits = [true; SLOTS];
                1
            }
            None => match self.rows.iter().position(Option::is_none) {
                Some(r) => {
                    self.rows[r] = Some(Row { key, originator: ORIGINATOR, number, payload, remaining: 15, waits: [true; SLOTS] });
                    1
                }
                None => 2,
            },
        }
    }

    fn next(&self, from: u32) -> u32 {
        let from = from as usize % ROWS;
        let waits = |r: &usize| self.rows[*r].as_ref().is_some_and(|row| row.waits[0]);
        let mut count = 0;
        let mut at = from;
        for r in (from..ROWS).chain(0..from).filter(waits).take(4) {
            count += 1;
            at = (r + 1) % ROWS;
        }
        count * 64 + at as u32
    }

    fn turn(&mut self, kind: u8, rows: u32, i: u32, x: u32) -> u32 {
        let n = x / 65536;
        match kind {
            0 => self.find(&key_of(n % 96)).unwrap_or(ROWS) as u32,
            1 => self.store(n % rows, i),
            _ => self.next(n),
        }
    }
}

fn work(kind: u8, rows: u32, count: u32) -> u32 {
    let mut cache = Cache { rows: [None; ROWS] };
    for n in 0..rows {
        cache.store(n, 1);
    }
    let (mut x, mut sum) = (1, 0u32);
    for i in 0..count {
        x = scrambled(x);
        sum = sum.wrapping_mul(31).wrapping_add(cache.turn(kind, rows, i, x));
    }
    sum
}

/// The program's answer to this work, and its time.
fn run(program: &mut Command, kind: u8, rows: u8, count: u32) -> (u32, Duration) {
    let mut input = vec![kind, rows];
    input.extend(count.to_be_bytes());
    let start = Instant::now();
    let mut child = program.stdin(Stdio::piped()).stdout(Stdio::piped()).spawn().expect("the program starts");
    child.stdin.take().expect("input").write_all(&input).expect("input is read");
    let output = child.wait_with_output().expect("the program ends");
    let time = start.elapsed();
    (String::from_utf8_lossy(&output.stdout).trim().parse().expect("a number"), time)
}

/// As the other program does, for the same cost of a start.
fn serve() {
    let mut input = Vec::new();
    std::io::Read::read_to_end(&mut std::io::stdin(), &mut input).expect("input");
    let count = u32::from_be_bytes(input[2..6].try_into().expect("six octets"));
    println!("{}", work(input[0], u32::from(input[1]), count));
}

fn main() {
    let Some(theirs) = std::env::args().nth(1) else { return serve() };
    let ours = std::env::current_exe().expect("our own path");
    for (kind, name) in [(0, "find"), (1, "store"), (2, "next four")] {
        for rows in [64, 32] {
            // the least of some runs, one after the other, less the time of a run with no work
            let mut least = [[Duration::MAX; 2]; 2];
            for _ in 0..RUNS {
                for (p, path) in [theirs.as_ref(), ours.as_os_str()].into_iter().enumerate() {
                    for (w, count) in [0, COUNT].into_iter().enumerate() {
                        let (sum, time) = run(&mut Command::new(path), kind, rows, count);
                        assert_eq!(sum, work(kind, u32::from(rows), count), "{name}: both give the same answers");
                        least[p][w] = least[p][w].min(time);
                    }
                }
            }
            let [t, o] = least.map(|[start, all]| all.saturating_sub(start).as_secs_f64());
            println!("{name}, {rows} rows: {:.1} ns against {:.1} ns, ratio {:.2}", t * 1e9 / f64::from(COUNT), o * 1e9 / f64::from(COUNT), t / o);
        }
    }
}
