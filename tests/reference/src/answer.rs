//! Answers to an event (01 'Answers to an event').

/// The table of codes, in its order.
#[derive(Clone, Copy, PartialEq, Eq, Debug)]
pub enum Code {
    Taken = 0,
    NoPeer = 1,
    EarlyTime = 2,
    ShortOut = 3,
    LinkDown = 4,
    Length = 5,
    Version = 6,
    Type = 7,
    Checksum = 8,
    Extensions = 9,
    Malformed = 10,
    Group = 11,
    Receiver = 12,
    Sender = 13,
    State = 14,
    NoFreeRow = 15,
    Spent = 16,
    Bad = 17,
    NoEntry = 18,
}

/// A packet or a poll also reports the length of what it wrote.
#[derive(Clone, Copy, PartialEq, Eq, Debug)]
pub struct Answer {
    pub code: Code,
    pub written: usize,
}

impl Answer {
    pub fn refused(code: Code) -> Self {
        Answer { code, written: 0 }
    }
}
