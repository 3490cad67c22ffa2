//! Packets, read and written (01 'Packet layouts'; RFC 2334, appendix B).

use crate::answer::Code;

mod read;
mod write;

pub use read::read;
pub use write::{fit, write};

pub const MIN_PACKET: usize = 8;
pub const MAX_PACKET: usize = 284;
pub const MAX_RECORDS: usize = 4;
pub const MAX_ADDITIONAL: usize = 8;

pub const CA: u8 = 1;
pub const CSU_REQUEST: u8 = 2;
pub const CSU_REPLY: u8 = 3;
pub const CSUS: u8 = 4;
pub const HELLO: u8 = 5;

/// IDs have exactly 4 octets (01 'Sizes').
pub type Id = [u8; 4];

/// A CA number is unsigned; one after 4294967295 comes 0.
#[derive(Clone, Copy, PartialEq, Eq, Debug)]
pub struct CaNumber(pub u32);

impl CaNumber {
    pub fn one_more(self) -> Self {
        CaNumber(self.0.wrapping_add(1))
    }
    pub fn one_less(self) -> Self {
        CaNumber(self.0.wrapping_sub(1))
    }
}

/// A CSA number is signed and compared as signed; -2147483648 is reserved.
#[derive(Clone, Copy, PartialEq, Eq, PartialOrd, Ord, Debug)]
pub struct CsaNumber(pub i32);

impl CsaNumber {
    pub const RESERVED: CsaNumber = CsaNumber(i32::MIN);
    pub const FIRST: CsaNumber = CsaNumber(-2147483647);
    pub const LAST: CsaNumber = CsaNumber(2147483646);
    pub const PURGED: CsaNumber = CsaNumber(2147483647);
}

/// At most N octets; those behind the length are 0.
#[derive(Clone, Copy, PartialEq, Eq, Debug)]
pub struct Octets<const N: usize> {
    length: usize,
    octets: [u8; N],
}

impl<const N: usize> Octets<N> {
    pub const EMPTY: Self = Octets { length: 0, octets: [0; N] };

    pub fn new(part: &[u8]) -> Option<Self> {
        let mut octets = [0; N];
        octets.get_mut(..part.len())?.copy_from_slice(part);
        Some(Octets { length: part.len(), octets })
    }
    pub fn part(&self) -> &[u8] {
        &self.octets[..self.length]
    }
    pub fn is_empty(&self) -> bool {
        self.length == 0
    }
}

pub type Key = Octets<16>;
pub type Payload = Octets<32>;

/// A summary (CSAS, payload empty) or an update record (CSA).
#[derive(Clone, Copy, PartialEq, Eq, Debug)]
pub struct Record {
    pub hops: u16,
    pub null: bool,
    pub number: CsaNumber,
    pub key: Key,
    pub originator: Id,
    pub payload: Payload,
}

impl Record {
    /// Summaries of ours have hop count 1.
    pub fn summary(key: Key, originator: Id, number: CsaNumber) -> Self {
        Record { hops: 1, null: false, number, key, originator, payload: Payload::EMPTY }
    }
}

/// CA flags from the top bit: M, I, O.
#[derive(Clone, Copy, PartialEq, Eq, Debug)]
pub struct Flags {
    pub m: bool,
    pub i: bool,
    pub o: bool,
}

#[derive(Clone, PartialEq, Eq, Debug)]
pub struct Ca {
    pub number: CaNumber,
    pub flags: Flags,
    pub records: Vec<Record>,
}

#[derive(Clone, PartialEq, Eq, Debug)]
pub struct Hello {
    pub interval: u16,
    pub factor: u16,
    pub additional: Vec<Id>,
}

#[derive(Clone, PartialEq, Eq, Debug)]
pub enum Body {
    Ca(Ca),
    CsuRequest(Vec<Record>),
    CsuReply(Vec<Record>),
    Csus(Vec<Record>),
    Hello(Hello),
}

#[derive(Clone, PartialEq, Eq, Debug)]
pub struct Message {
    pub protocol: u16,
    pub group: u16,
    pub sender: Id,
    pub receiver: Option<Id>,
    pub body: Body,
}

/// The 16-bit ones' complement sum; an odd last octet is padded with zero.
pub fn sum(packet: &[u8]) -> u16 {
    let mut sum = 0u32;
    for pair in packet.chunks(2) {
        let low = pair.get(1).copied().unwrap_or(0);
        sum += u32::from(u16::from_be_bytes([pair[0], low]));
    }
    while sum > 0xFFFF {
        sum = (sum & 0xFFFF) + (sum >> 16);
    }
    sum as u16
}

/// Codes 5 to 9, in order.
pub fn try_fixed_part(packet: &[u8]) -> Result<(), Code> {
    if packet.len() < MIN_PACKET || packet.len() > MAX_PACKET {
        return Err(Code::Length);
    }
    if usize::from(u16::from_be_bytes([packet[2], packet[3]])) != packet.len() {
        return Err(Code::Length);
    }
    if packet[0] != 1 {
        return Err(Code::Version);
    }
    if !(CA..=HELLO).contains(&packet[1]) {
        return Err(Code::Type);
    }
    if sum(packet) != 0xFFFF {
        return Err(Code::Checksum);
    }
    if packet[6..8] != [0, 0] {
        return Err(Code::Extensions);
    }
    Ok(())
}
