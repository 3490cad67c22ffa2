//! The replay program (01 'The replay program').

use crate::answer::Code;
use crate::rule::RuleSet;
use crate::server::{Alignment, HelloState, Role, Server, Settings, Status};
use crate::wire::MAX_PACKET;
use std::fmt;

/// Kind, slot, length (2), time (4), data (284).
pub const RECORD: usize = 292;
pub const DATA: usize = 284;

pub const SETTINGS: u8 = 0;
pub const UP: u8 = 1;
pub const DOWN: u8 = 2;
pub const PACKET: u8 = 3;
pub const POLL: u8 = 4;
pub const SET: u8 = 5;
pub const WITHDRAW: u8 = 6;
pub const PURGE: u8 = 7;
pub const ADD_PEER: u8 = 8;

/// One record of a replay file.
#[derive(Clone, PartialEq, Eq, Debug)]
pub struct Event {
    pub kind: u8,
    pub slot: u8,
    pub length: u16,
    pub time: u32,
    pub data: [u8; DATA],
}

impl Event {
    pub fn new(kind: u8, slot: u8, length: u16, time: u32, data: &[u8]) -> Self {
        let mut whole = [0; DATA];
        whole[..data.len()].copy_from_slice(data);
        Event { kind, slot, length, time, data: whole }
    }

    pub fn read(record: &[u8; RECORD]) -> Self {
        Event {
            kind: record[0],
            slot: record[1],
            length: u16::from_be_bytes([record[2], record[3]]),
            time: u32::from_be_bytes([record[4], record[5], record[6], record[7]]),
            data: record[8..].try_into().expect("284 octets"),
        }
    }

    pub fn write(&self) -> [u8; RECORD] {
        let mut record = [0; RECORD];
        record[0] = self.kind;
        record[1] = self.slot;
        record[2..4].copy_from_slice(&self.length.to_be_bytes());
        record[4..8].copy_from_slice(&self.time.to_be_bytes());
        record[8..].copy_from_slice(&self.data);
        record
    }

    /// A packet length over 284 is refused for it, whatever the octets.
    fn packet(&self) -> Vec<u8> {
        let mut packet = self.data.to_vec();
        packet.resize(usize::from(self.length), 0);
        packet
    }

    /// In data: ID, group numbers, interval, factor, 2 octets a number.
    fn settings(&self) -> Settings {
        let two = |at: usize| u16::from_be_bytes([self.data[at], self.data[at + 1]]);
        Settings {
            id: self.id(),
            protocol: two(4),
            group: two(6),
            interval: two(8),
            factor: two(10),
        }
    }

    fn id(&self) -> [u8; 4] {
        [self.data[0], self.data[1], self.data[2], self.data[3]]
    }

    /// In 5 to 7 slot is the key length, data a key of 16 then payload. A
    /// length over its room goes on to be refused with 17.
    fn key(&self) -> Vec<u8> {
        let mut key = self.data[..16].to_vec();
        key.resize(usize::from(self.slot), 0);
        key
    }

    fn payload(&self) -> Vec<u8> {
        let mut payload = self.data[16..].to_vec();
        payload.resize(usize::from(self.length), 0);
        payload
    }
}

/// Event number, code, octets written, rows used; and the state of the slot
/// that the record's second octet names, if it has a peer.
#[derive(Clone, PartialEq, Eq, Debug)]
pub struct Line {
    pub event: usize,
    pub code: Code,
    pub written: Vec<u8>,
    pub rows: usize,
    pub status: Option<Status>,
}

impl fmt::Display for Line {
    fn fmt(&self, f: &mut fmt::Formatter) -> fmt::Result {
        write!(f, "{} {} {} {}", self.event, self.code as u8, self.written.len(), self.rows)
    }
}

impl Line {
    /// The line, then the octets written in hexadecimal, `-` where none, then
    /// the slot's state.
    pub fn with_octets(&self) -> String {
        let mut line = format!("{self} ");
        if self.written.is_empty() {
            line.push('-');
        }
        for octet in &self.written {
            for digit in [octet >> 4, octet & 15] {
                line.push(char::from(b"0123456789abcdef"[usize::from(digit)]));
            }
        }
        match self.status {
            Some(status) => line + " " + &state(status),
            None => line + " -",
        }
    }
}

/// What a list of events has reached.
#[derive(Clone, PartialEq, Eq, Debug, Default)]
pub struct Seen {
    pub rules: RuleSet,
    pub codes: u32,
    pub states: u32,
}

/// Hello states, then alignment states with their roles: names of the bits.
pub const STATES: [&str; 12] = [
    "Hello Down",
    "Hello Waiting",
    "Hello Unidirectional",
    "Hello Bidirectional",
    "Down",
    "Negotiate",
    "Summarize, master",
    "Summarize, slave",
    "Update, master",
    "Update, slave",
    "Aligned, master",
    "Aligned, slave",
];

fn alignment_bit(alignment: Alignment) -> u32 {
    let slave = |role: Role| u32::from(role == Role::Slave);
    match alignment {
        Alignment::Down => 4,
        Alignment::Negotiate => 5,
        Alignment::Summarize(role) => 6 + slave(role),
        Alignment::Update(role) => 8 + slave(role),
        Alignment::Aligned(role) => 10 + slave(role),
    }
}

/// The Hello state from 0 (Down), the alignment state from 0 (Down), the role
/// (0 before Summarize, 1 master, 2 slave), update requests, missed.
fn state(status: Status) -> String {
    let role = |role: Role| if role == Role::Master { 1 } else { 2 };
    let (alignment, role) = match status.alignment {
        Alignment::Down => (0, 0),
        Alignment::Negotiate => (1, 0),
        Alignment::Summarize(r) => (2, role(r)),
        Alignment::Update(r) => (3, role(r)),
        Alignment::Aligned(r) => (4, role(r)),
    };
    let hello = hello_bit(status.hello);
    format!("{hello} {alignment} {role} {} {}", status.updates, status.missed)
}

fn hello_bit(state: HelloState) -> u32 {
    match state {
        HelloState::Down => 0,
        HelloState::Waiting => 1,
        HelloState::Unidirectional => 2,
        HelloState::Bidirectional => 3,
    }
}

/// The program between two records.
#[derive(Clone, Default)]
pub struct Replay {
    pub server: Option<Server>,
    pub events: usize,
    pub seen: Seen,
}

impl Replay {
    /// The line of the next event; none when the first is not accepted
    /// settings.
    pub fn event(&mut self, event: &Event) -> Option<Line> {
        let mut out = [0; MAX_PACKET];
        let (code, written) = match &mut self.server {
            None if event.kind == SETTINGS => {
                self.server = Some(Server::new(event.settings()).ok()?);
                (Code::Taken, 0)
            }
            None => return None,
            Some(server) => step(server, event, &mut out),
        };
        let server = self.server.as_ref()?;
        let (rows, status) = (server.rows_used(), server.status(event.slot).ok());
        let written = out[..written].to_vec();
        let line = Line { event: self.events, code, written, rows, status };
        self.events += 1;
        self.look(code);
        Some(line)
    }

    fn look(&mut self, code: Code) {
        self.seen.codes |= 1 << code as u32;
        let Some(server) = &self.server else { return };
        self.seen.rules.join(&server.rules);
        for slot in server.slots.iter().flatten() {
            self.seen.states |= 1 << hello_bit(slot.hello) | 1 << alignment_bit(slot.alignment);
        }
    }
}

/// One event on the server that the last one left.
fn step(server: &mut Server, event: &Event, out: &mut [u8]) -> (Code, usize) {
    let code = match event.kind {
        UP => server.link_up(event.slot, event.time),
        DOWN => server.link_down(event.slot, event.time),
        PACKET => {
            let answer = server.packet(event.slot, event.time, &event.packet(), out);
            return (answer.code, answer.written);
        }
        POLL => {
            let answer = server.poll(event.slot, event.time, out);
            return (answer.code, answer.written);
        }
        SET => server.set(&event.key(), &event.payload()),
        WITHDRAW => server.withdraw(&event.key()),
        PURGE => server.purge(&event.key()),
        ADD_PEER => server.add_peer(event.slot, event.id()),
        // Other kinds, or 0 later.
        _ => Code::Bad,
    };
    (code, 0)
}

/// What the program prints: lines, and whether `cut` follows them.
pub struct Printed {
    pub lines: Vec<Line>,
    pub cut: bool,
    pub seen: Seen,
}

impl Printed {
    pub fn text(&self, octets: bool) -> String {
        let mut text = String::new();
        for line in &self.lines {
            text += &if octets { line.with_octets() } else { line.to_string() };
            text.push('\n');
        }
        if self.cut {
            text += "cut\n";
        }
        text
    }
}

/// Empty input, a first record that isn't accepted settings, or a short
/// last record prints `cut` and ends.
pub fn run(file: &[u8]) -> Printed {
    let mut replay = Replay::default();
    let mut lines = Vec::new();
    let mut cut = file.is_empty();
    for record in file.chunks(RECORD) {
        let line = match <&[u8; RECORD]>::try_from(record) {
            Ok(record) => replay.event(&Event::read(record)),
            Err(_) => None,
        };
        match line {
            Some(line) => lines.push(line),
            None => {
                cut = true;
                break;
            }
        }
    }
    Printed { lines, cut, seen: replay.seen }
}
