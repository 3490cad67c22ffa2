//! What makes a flavour of lists.

use super::act::Act;

#[derive(Clone, Copy, PartialEq, Eq)]
pub enum Numbers {
    Near,
    Ends,
}

/// Our ID against the peers'.
#[derive(Clone, Copy, PartialEq, Eq)]
pub enum Side {
    Lower,
    Higher,
    Either,
}

/// How far the made up peers are brought before the list goes its way.
#[derive(Clone, Copy, PartialEq, Eq)]
pub enum Goal {
    Nothing,
    Up,
    Negotiate,
    Summarize,
    Update,
    Aligned,
}

pub struct Flavour {
    pub name: &'static str,
    pub side: Side,
    pub goal: Goal,
    pub puppets: (usize, usize),
    pub servers: (usize, usize),
    /// Entries of our own at the start.
    pub rows: (usize, usize),
    /// Packets of four new entries (update requests, or summaries while the
    /// goal is Summarize) before the list goes its way.
    pub filled: usize,
    pub start: &'static [u32],
    pub steps: &'static [u32],
    pub our_interval: &'static [u16],
    /// HelloInterval and DeadFactor of made up peers.
    pub intervals: &'static [(u16, u16)],
    pub first_ca: &'static [u32],
    pub hops: &'static [u16],
    pub numbers: Numbers,
    /// Null records and lost packets in a hundred.
    pub nulls: usize,
    pub loss: usize,
    pub acts: &'static [(Act, usize)],
}

impl Flavour {
    /// Lists of two flavours differ under one seed.
    pub fn seed(&self) -> u64 {
        let step = |seed: u64, octet: u8| seed.wrapping_mul(257) ^ u64::from(octet);
        self.name.bytes().fold(0, step)
    }
}

/// What a flavour has if it says nothing else.
pub const BASE: Flavour = Flavour {
    name: "",
    side: Side::Either,
    goal: Goal::Aligned,
    puppets: (1, 2),
    servers: (0, 0),
    rows: (0, 3),
    filled: 0,
    start: &[0, 0, 1000],
    steps: &[0, 1, 1, 1, 2, 4, 5, 6],
    our_interval: &[10, 30, 60],
    intervals: &[(100, 10), (65535, 65535)],
    first_ca: &[0, 1, 77, 0x80000000],
    hops: &[16, 16, 16, 2, 5, 65535],
    numbers: Numbers::Near,
    nulls: 8,
    loss: 0,
    acts: &[],
};
