//! Packets made up for a slot of a server, with its state in view: the one
//! that helps the slot along, and others that are well formed.

use super::flavour::{Flavour, Numbers};
use crate::random::Random;
use crate::server::{Alignment, Role, Server, Slot};
use crate::wire::{Body, Ca, CaNumber, CsaNumber, Flags, Hello, Id, Key, Message, Payload, Record};

/// An originator that is nobody's peer.
pub const STRANGER: Id = [192, 0, 2, 9];
/// Keys 0 to POOL - 1 are used again and again, later ones once.
pub const POOL: u32 = 12;

/// Keys of all lengths, all different.
pub fn key(n: u32) -> Key {
    let length = 1 + (n as usize * 7) % 16;
    let mut octets = [0x41 + (n % 26) as u8; 16];
    if n < POOL {
        return Key::new(&octets[..length]).expect("at most 16 octets");
    }
    octets[..4].copy_from_slice(&n.to_be_bytes());
    Key::new(&octets[..length.max(4)]).expect("at most 16 octets")
}

/// Which summaries the next CA brings.
#[derive(Clone, Copy, PartialEq, Eq)]
pub enum Summaries {
    Nothing,
    Fresh(usize),
    Any,
}

pub struct Craft<'a> {
    pub server: &'a Server,
    pub slot: usize,
    pub flavour: &'a Flavour,
    pub random: &'a mut Random,
    pub fresh: &'a mut u32,
}

impl Craft<'_> {
    fn state(&self) -> &Slot {
        self.server.slots[self.slot].as_ref().expect("a peer")
    }

    pub fn message(&self, body: Body) -> Message {
        let settings = &self.server.settings;
        Message {
            protocol: settings.protocol,
            group: settings.group,
            sender: self.state().peer,
            receiver: Some(settings.id),
            body,
        }
    }

    pub fn fresh_key(&mut self) -> Key {
        *self.fresh += 1;
        key(POOL + *self.fresh)
    }

    /// A held entry, one of the slot's requests, one of the pool, or new.
    fn entry(&mut self) -> (Key, Id) {
        let held: Vec<(Key, Id)> =
            self.server.rows.iter().flatten().map(|row| (row.key, row.originator)).collect();
        let asked: Vec<(Key, Id)> =
            self.state().requests.iter().map(|r| (r.key, r.originator)).collect();
        let originators = [self.server.settings.id, self.state().peer, STRANGER];
        match self.random.below(10) {
            0..=4 if !held.is_empty() => self.random.of(&held),
            5 | 6 if !asked.is_empty() => self.random.of(&asked),
            7 => (self.fresh_key(), STRANGER),
            _ => (key(self.random.below(POOL as usize) as u32), self.random.of(&originators)),
        }
    }

    /// A number around the one held or asked for, or at an end of the range.
    fn number(&mut self, key: &Key, originator: Id) -> CsaNumber {
        let held = self.server.find(key, originator).and_then(|r| self.server.rows[r]);
        let mut asked = self.state().requests.iter();
        let asked = asked.find(|r| r.key == *key && r.originator == originator);
        let near = held.map(|row| row.number).or(asked.map(|r| r.number));
        let near = near.unwrap_or(CsaNumber(5)).0;
        let ends = [2147483645, 2147483646, 2147483647, -2147483647, -2147483646, -1, 0, 1];
        let number = match (self.flavour.numbers, self.random.below(12)) {
            (Numbers::Ends, 0..=6) => self.random.of(&ends),
            (Numbers::Near, 0) => self.random.of(&ends),
            (_, 7 | 8) => near,
            (_, 9) => near.saturating_sub(1),
            _ => near.saturating_add(1),
        };
        CsaNumber(number.max(-2147483647))
    }

    pub fn summary(&mut self) -> Record {
        let (key, originator) = self.entry();
        let number = self.number(&key, originator);
        let hops = if self.random.percent(90) { 1 } else { self.random.of(&[2, 16, 65535]) };
        Record { hops, null: false, number, key, originator, payload: Payload::EMPTY }
    }

    fn fresh_summary(&mut self) -> Record {
        let (key, number) = (self.fresh_key(), CsaNumber(self.random.between(0, 9) as i32));
        Record::summary(key, STRANGER, number)
    }

    pub fn payload(&mut self) -> Payload {
        let length = self.random.of(&[1, 1, 2, 5, 31, 32]);
        let octets: Vec<u8> = (0..length).map(|_| self.random.draw() as u8).collect();
        Payload::new(&octets).expect("at most 32 octets")
    }

    /// An update record from a summary: hop count and payload of its own.
    pub fn update_of(&mut self, summary: Record) -> Record {
        let hops = self.random.of(self.flavour.hops);
        let full = summary.number != CsaNumber::PURGED && self.random.percent(85);
        let payload = if full { self.payload() } else { Payload::EMPTY };
        Record { hops, payload, ..summary }
    }

    pub fn update(&mut self) -> Record {
        let summary = self.summary();
        if self.random.percent(self.flavour.nulls) {
            let number = self.random.of(&[summary.number, CsaNumber::FIRST]);
            return Record { null: true, number, ..summary };
        }
        self.update_of(summary)
    }

    /// 0 to 4 records, most often 1 or 2.
    pub fn some(&mut self, make: fn(&mut Self) -> Record) -> Vec<Record> {
        let count = self.random.of(&[0, 1, 1, 2, 2, 3, 4]);
        (0..count).map(|_| make(self)).collect()
    }

    /// Four new entries.
    pub fn four_fresh(&mut self) -> Vec<Record> {
        let make = |_| {
            let summary = self.fresh_summary();
            self.update_of(summary)
        };
        (0..4).map(make).collect()
    }

    /// The records that the slot's first requests ask for.
    pub fn asked(&mut self) -> Vec<Record> {
        let requests: Vec<_> = self.state().requests.iter().take(4).copied().collect();
        let make = |request: crate::server::Request| {
            self.update_of(Record::summary(request.key, request.originator, request.number))
        };
        requests.into_iter().map(make).collect()
    }

    /// Summaries of the first rows that wait for the slot.
    pub fn waiting(&mut self) -> Vec<Record> {
        let slot = self.slot;
        let rows = self.server.rows.iter().flatten().filter(|row| row.waits[slot]).take(4);
        rows.map(|row| Record::summary(row.key, row.originator, row.number)).collect()
    }

    pub fn hello(&mut self, names_us: bool) -> Message {
        let us = self.server.settings.id;
        let (interval, factor) = self.random.of(self.flavour.intervals);
        let mut additional: Vec<Id> = Vec::new();
        if self.random.percent(25) {
            let count = self.random.of(&[1, 2, 8]);
            additional = (0..count).map(|n| [10, 9, 9, n]).collect();
        }
        let in_common = names_us && (additional.is_empty() || self.random.percent(30));
        if names_us && !in_common {
            let at = self.random.below(additional.len());
            additional[at] = us;
        }
        let body = Body::Hello(Hello { interval, factor, additional });
        let receiver = match in_common {
            true => Some(us),
            false => self.random.of(&[None, Some(STRANGER)]),
        };
        Message { receiver, ..self.message(body) }
    }

    /// The CA that the slot's state waits for.
    pub fn right_ca(&mut self, summaries: Summaries, o: bool) -> Message {
        let slot = self.state();
        let master_is_us = slot.peer < self.server.settings.id;
        let number = slot.ca_number;
        let negotiate = slot.alignment == Alignment::Negotiate;
        let records: Vec<Record> = match summaries {
            Summaries::Nothing => Vec::new(),
            Summaries::Fresh(count) => (0..count).map(|_| self.fresh_summary()).collect(),
            Summaries::Any => self.some(Craft::summary),
        };
        let ca = if negotiate && !master_is_us {
            let number = CaNumber(self.random.of(self.flavour.first_ca));
            Ca { number, flags: Flags { m: true, i: true, o: true }, records: Vec::new() }
        } else if master_is_us {
            Ca { number, flags: Flags { m: false, i: false, o }, records }
        } else {
            Ca { number: number.one_more(), flags: Flags { m: true, i: false, o }, records }
        };
        self.message(Body::Ca(ca))
    }

    /// The last CA taken once more, with other records or none.
    pub fn duplicate_ca(&mut self) -> Message {
        let slot = self.state();
        let first = (slot.ca_number, Flags { m: false, i: false, o: false });
        let (number, flags) = match slot.alignment {
            Alignment::Summarize(Role::Slave) | Alignment::Update(Role::Slave) => slot.last_taken,
            Alignment::Aligned(Role::Slave) => slot.last_taken,
            Alignment::Summarize(Role::Master) => Some((slot.ca_number.one_less(), first.1)),
            _ => None,
        }
        .unwrap_or(first);
        let records = if self.random.percent(40) { self.some(Craft::summary) } else { Vec::new() };
        self.message(Body::Ca(Ca { number, flags, records }))
    }

    /// Any CA, most of its fields near the right ones.
    pub fn any_ca(&mut self) -> Message {
        let ours = self.state().ca_number;
        let ends = [CaNumber(0), CaNumber(u32::MAX)];
        let near = [ours, ours, ours.one_more(), ours.one_more(), ours.one_less()];
        let number =
            if self.random.percent(10) { self.random.of(&ends) } else { self.random.of(&near) };
        let bits = self.random.of(&[0, 0, 1, 4, 4, 5, 7, 7, 6, 3, 2]);
        let flags = Flags { m: bits & 4 != 0, i: bits & 2 != 0, o: bits & 1 != 0 };
        let records = if self.random.percent(50) { self.some(Craft::summary) } else { Vec::new() };
        self.message(Body::Ca(Ca { number, flags, records }))
    }

    /// A well formed packet of any type.
    pub fn any(&mut self) -> Message {
        match self.random.below(5) {
            0 => self.any_ca(),
            1 => {
                let records = self.some(Craft::update);
                self.message(Body::CsuRequest(records))
            }
            2 => {
                let records = self.some(Craft::summary);
                self.message(Body::CsuReply(records))
            }
            3 => {
                let records = self.some(Craft::summary);
                self.message(Body::Csus(records))
            }
            _ => {
                let names_us = self.random.percent(70);
                self.hello(names_us)
            }
        }
    }
}
