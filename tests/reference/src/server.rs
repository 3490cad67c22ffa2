//! The state and the eight events (01 'Answers to an event').

use crate::answer::{Answer, Code};
use crate::rule::{Rule, RuleSet};
pub use crate::state::*;
use crate::wire::{self, Body, CsaNumber, Id, Key, Message, Record, HELLO, MAX_PACKET};

#[derive(Clone, PartialEq, Eq, Debug)]
pub struct Server {
    pub settings: Settings,
    pub time: u32,
    pub slots: [Option<Slot>; SLOTS],
    pub rows: [Option<Row>; ROWS],
    pub rules: RuleSet,
}

impl Server {
    /// Settings: HelloInterval or DeadFactor 0 is refused, 17.
    pub fn new(settings: Settings) -> Result<Self, Code> {
        if settings.interval == 0 || settings.factor == 0 {
            return Err(Code::Bad);
        }
        Ok(Server {
            settings,
            time: 0,
            slots: Default::default(),
            rows: [None; ROWS],
            rules: RuleSet::default(),
        })
    }

    /// 1 for a slot above 7, then 17 for a slot in use, our own ID, or
    /// another slot's ID.
    pub fn add_peer(&mut self, slot: u8, peer: Id) -> Code {
        let p = usize::from(slot);
        if p >= SLOTS {
            return Code::NoPeer;
        }
        let known = self.slots.iter().flatten().any(|other| other.peer == peer);
        if self.slots[p].is_some() || peer == self.settings.id || known {
            return Code::Bad;
        }
        self.slots[p] = Some(Slot::new(peer));
        Code::Taken
    }

    /// 02, L1: the state of a slot, with its counts; 1 for a slot without
    /// peer.
    pub fn status(&self, slot: u8) -> Result<Status, Code> {
        let slot = self.slots.get(usize::from(slot)).and_then(|slot| slot.as_ref());
        let slot = slot.ok_or(Code::NoPeer)?;
        Ok(Status {
            hello: slot.hello,
            alignment: slot.alignment,
            updates: slot.updates,
            missed: slot.missed,
        })
    }

    pub fn link_up(&mut self, slot: u8, time: u32) -> Code {
        match self.try_slot_and_time(slot, time) {
            Err(code) => code,
            Ok(p) => {
                self.time = time;
                self.take_link_up(p);
                self.end_of_event();
                Code::Taken
            }
        }
    }

    pub fn link_down(&mut self, slot: u8, time: u32) -> Code {
        match self.try_slot_and_time(slot, time) {
            Err(code) => code,
            Ok(p) => {
                self.time = time;
                self.take_link_down(p);
                self.end_of_event();
                Code::Taken
            }
        }
    }

    /// A packet is tried in order 1 to 14.
    pub fn packet(&mut self, slot: u8, time: u32, packet: &[u8], out: &mut [u8]) -> Answer {
        let p = match self.try_link(slot, time, out.len()) {
            Err(code) => return Answer::refused(code),
            Ok(p) => p,
        };
        if let Err(code) = wire::try_fixed_part(packet) {
            return Answer::refused(code);
        }
        let message = match wire::read(packet) {
            Err(clause) => {
                self.rules.note(clause);
                self.malformed(p, time, packet[1]);
                return Answer::refused(Code::Malformed);
            }
            Ok(message) => message,
        };
        if let Err(code) = self.try_message(p, &message) {
            return Answer::refused(code);
        }
        self.time = time;
        let written = self.take_message(p, message);
        self.end_of_event();
        lend(written, out)
    }

    /// A poll is tried in order 1 to 4.
    pub fn poll(&mut self, slot: u8, time: u32, out: &mut [u8]) -> Answer {
        let p = match self.try_link(slot, time, out.len()) {
            Err(code) => return Answer::refused(code),
            Ok(p) => p,
        };
        self.time = time;
        let written = self.take_poll(p);
        self.end_of_event();
        lend(written, out)
    }

    /// Codes 1 and 2.
    fn try_slot_and_time(&self, slot: u8, time: u32) -> Result<usize, Code> {
        let p = usize::from(slot);
        if p >= SLOTS || self.slots[p].is_none() {
            return Err(Code::NoPeer);
        }
        if time < self.time {
            return Err(Code::EarlyTime);
        }
        Ok(p)
    }

    /// Codes 1 to 4.
    fn try_link(&self, slot: u8, time: u32, out: usize) -> Result<usize, Code> {
        let p = self.try_slot_and_time(slot, time)?;
        if out < MAX_PACKET {
            return Err(Code::ShortOut);
        }
        if self.slot(p).hello == HelloState::Down {
            return Err(Code::LinkDown);
        }
        Ok(p)
    }

    /// Codes 11 to 14.
    fn try_message(&mut self, p: usize, message: &Message) -> Result<(), Code> {
        let us = &self.settings;
        if message.protocol != us.protocol || message.group != us.group {
            return Err(Code::Group);
        }
        let is_hello = matches!(message.body, Body::Hello(_));
        if !is_hello && message.receiver != Some(us.id) {
            return Err(Code::Receiver);
        }
        if message.sender != self.slot(p).peer {
            return Err(Code::Sender);
        }
        if let Some(clause) = self.not_usable(p, &message.body) {
            self.rules.note(clause);
            return Err(Code::State);
        }
        Ok(())
    }

    /// Code 14: which clause makes the type not usable in this state.
    fn not_usable(&self, p: usize, body: &Body) -> Option<Rule> {
        let alignment = self.slot(p).alignment;
        let late = matches!(alignment, Alignment::Update(_) | Alignment::Aligned(_));
        match body {
            Body::Hello(_) => None,
            Body::Ca(ca) => self.ca_not_usable(p, ca),
            _ if late => None,
            _ => Some(Rule::OtherOutside),
        }
    }

    fn take_message(&mut self, p: usize, message: Message) -> Option<Vec<u8>> {
        match message.body {
            Body::Ca(ca) => self.take_ca(p, &ca),
            Body::CsuRequest(records) => self.take_csu_request(p, &records),
            Body::CsuReply(records) => self.take_csu_reply(p, &records),
            Body::Csus(records) => self.take_csus(p, &records),
            Body::Hello(hello) => {
                self.take_hello(p, message.receiver, &hello);
                None
            }
        }
    }

    /// A Hello refused with 10 sets the time and moves its machine to
    /// Waiting. Every other refusal changes nothing.
    fn malformed(&mut self, p: usize, time: u32, kind: u8) {
        if kind == HELLO {
            self.time = time;
            let used = self.rows_used();
            self.take_malformed_hello(p);
            self.end_of_event();
            if self.rows_used() < used {
                self.rules.note(Rule::HelloMalformedFrees);
            }
        }
    }

    /// A purged row that waits for nobody at the end of an event is freed.
    pub(crate) fn end_of_event(&mut self) {
        for row in self.rows.iter_mut() {
            let Some(held) = row else { continue };
            if held.number != CsaNumber::PURGED {
                continue;
            }
            if held.waits.contains(&true) {
                self.rules.note(Rule::PurgeWaits);
            } else {
                self.rules.note(Rule::PurgedFreed);
                *row = None;
            }
        }
    }

    pub fn rows_used(&self) -> usize {
        self.rows.iter().flatten().count()
    }

    /// The row of an entry.
    pub fn find(&self, key: &Key, originator: Id) -> Option<usize> {
        let is_it = |row: &Row| row.key == *key && row.originator == originator;
        self.rows.iter().position(|row| row.as_ref().is_some_and(is_it))
    }

    /// The slot of a peer that was tried before.
    pub(crate) fn slot(&self, p: usize) -> &Slot {
        self.slots[p].as_ref().expect("slot tried")
    }

    pub(crate) fn slot_mut(&mut self, p: usize) -> &mut Slot {
        self.slots[p].as_mut().expect("slot tried")
    }

    pub(crate) fn row(&self, r: usize) -> &Row {
        self.rows[r].as_ref().expect("row found")
    }

    pub(crate) fn row_mut(&mut self, r: usize) -> &mut Row {
        self.rows[r].as_mut().expect("row found")
    }

    /// A message of ours to the peer of a slot.
    pub(crate) fn to_peer(&self, p: usize, body: Body) -> Message {
        let Settings { id, protocol, group, .. } = self.settings;
        Message { protocol, group, sender: id, receiver: Some(self.slot(p).peer), body }
    }

    /// A row as a summary of ours: hop count 1.
    pub(crate) fn summary(&self, r: usize) -> Record {
        let row = self.row(r);
        Record::summary(row.key, row.originator, row.number)
    }
}

/// At most one packet, at the start of the out buffer.
fn lend(written: Option<Vec<u8>>, out: &mut [u8]) -> Answer {
    let octets = written.unwrap_or_default();
    out[..octets.len()].copy_from_slice(&octets);
    Answer { code: Code::Taken, written: octets.len() }
}
