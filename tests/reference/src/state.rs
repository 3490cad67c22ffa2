//! What the server keeps for each row and each slot.

use crate::wire::{CaNumber, CsaNumber, Flags, Id, Key, Payload};

pub const SLOTS: usize = 8;
pub const ROWS: usize = 64;
pub const REQUESTS: usize = 64;

#[derive(Clone, Copy, PartialEq, Eq, Debug)]
pub struct Settings {
    pub id: Id,
    pub protocol: u16,
    pub group: u16,
    pub interval: u16,
    pub factor: u16,
}

/// An entry is a key with an originator. `waits` has a mark for each slot.
#[derive(Clone, Copy, PartialEq, Eq, Debug)]
pub struct Row {
    pub key: Key,
    pub originator: Id,
    pub number: CsaNumber,
    pub payload: Payload,
    pub remaining: u16,
    pub waits: [bool; SLOTS],
}

#[derive(Clone, Copy, PartialEq, Eq, Debug)]
pub struct Request {
    pub key: Key,
    pub originator: Id,
    pub number: CsaNumber,
}

#[derive(Clone, Copy, PartialEq, Eq, Debug)]
pub enum HelloState {
    Down,
    Waiting,
    Unidirectional,
    Bidirectional,
}

#[derive(Clone, Copy, PartialEq, Eq, Debug)]
pub enum Role {
    Master,
    Slave,
}

/// The role is remembered past Summarize.
#[derive(Clone, Copy, PartialEq, Eq, Debug)]
pub enum Alignment {
    Down,
    Negotiate,
    Summarize(Role),
    Update(Role),
    Aligned(Role),
}

/// What a taken Hello records.
#[derive(Clone, Copy, PartialEq, Eq, Debug)]
pub struct Heard {
    pub time: u32,
    pub interval: u16,
    pub factor: u16,
}

#[derive(Clone, PartialEq, Eq, Debug)]
pub struct Slot {
    pub peer: Id,
    pub hello: HelloState,
    pub heard: Heard,
    /// When we last sent a Hello since link up.
    pub hello_sent: Option<u32>,
    pub alignment: Alignment,
    pub ca_number: CaNumber,
    pub requests: Vec<Request>,
    pub missed: u16,
    pub kept: Option<Vec<u8>>,
    /// The last CA taken, by number and flags (the slave's duplicate test).
    pub last_taken: Option<(CaNumber, Flags)>,
    /// The O bit of our last CA.
    pub last_o: bool,
    /// The first row that the next answer may list.
    pub next_row: usize,
    /// Times since Negotiate began, each for its own kind.
    pub ca_sent: Option<u32>,
    pub csus_sent: Option<u32>,
    pub csu_sent: Option<u32>,
    /// The row at which the next CSU Request of a poll starts to look.
    pub round: usize,
    /// CSU Requests written at polls since the slot last entered Negotiate, up
    /// to 65535 (02, L1).
    pub updates: u16,
}

/// What a slot reports (02, L1). The role is part of the alignment.
#[derive(Clone, Copy, PartialEq, Eq, Debug)]
pub struct Status {
    pub hello: HelloState,
    pub alignment: Alignment,
    pub updates: u16,
    pub missed: u16,
}

impl Slot {
    pub fn new(peer: Id) -> Self {
        Slot {
            peer,
            hello: HelloState::Down,
            heard: Heard { time: 0, interval: 0, factor: 0 },
            hello_sent: None,
            alignment: Alignment::Down,
            ca_number: CaNumber(0),
            requests: Vec::new(),
            missed: 0,
            kept: None,
            last_taken: None,
            last_o: false,
            next_row: 0,
            ca_sent: None,
            csus_sent: None,
            csu_sent: None,
            round: 0,
            updates: 0,
        }
    }
}
