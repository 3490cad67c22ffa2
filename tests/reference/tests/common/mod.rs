//! Hands for the tests: a server 10.0.0.2 and packets from its peers.
#![allow(dead_code)]

use reference::answer::{Answer, Code};
use reference::server::{Alignment, Server, Settings};
use reference::wire::*;

pub const US: Id = [10, 0, 0, 2];
pub const LOW: Id = [10, 0, 0, 1];
pub const HIGH: Id = [10, 0, 0, 3];

pub const MIO: Flags = Flags { m: true, i: true, o: true };
pub const M: Flags = Flags { m: true, i: false, o: false };
pub const MO: Flags = Flags { m: true, i: false, o: true };
pub const NONE: Flags = Flags { m: false, i: false, o: false };

pub struct Hand {
    pub server: Server,
    pub out: [u8; 300],
}

impl Hand {
    /// Slot 0 is 10.0.0.1 (we are master), slot 1 is 10.0.0.3 (slave).
    pub fn new() -> Self {
        let settings = Settings { id: US, protocol: 2, group: 7, interval: 10, factor: 3 };
        let mut server = Server::new(settings).unwrap();
        assert_eq!(server.add_peer(0, LOW), Code::Taken);
        assert_eq!(server.add_peer(1, HIGH), Code::Taken);
        assert_eq!(server.link_up(0, 0), Code::Taken);
        assert_eq!(server.link_up(1, 0), Code::Taken);
        Hand { server, out: [0xEE; 300] }
    }

    pub fn say(&mut self, slot: u8, time: u32, body: Body) -> Answer {
        let sender = [LOW, HIGH][usize::from(slot)];
        let message = Message { protocol: 2, group: 7, sender, receiver: Some(US), body };
        self.server.packet(slot, time, &write(&message), &mut self.out)
    }

    pub fn taken(&mut self, slot: u8, time: u32, body: Body) -> Option<Message> {
        let answer = self.say(slot, time, body);
        assert_eq!(answer.code, Code::Taken);
        self.written(answer)
    }

    pub fn poll(&mut self, slot: u8, time: u32) -> Option<Message> {
        let answer = self.server.poll(slot, time, &mut self.out);
        assert_eq!(answer.code, Code::Taken);
        self.written(answer)
    }

    fn written(&self, answer: Answer) -> Option<Message> {
        let packet = &self.out[..answer.written];
        if packet.is_empty() {
            return None;
        }
        assert_eq!(try_fixed_part(packet), Ok(()));
        Some(read(packet).unwrap())
    }

    pub fn hello(&mut self, slot: u8, time: u32) {
        self.taken(slot, time, hello(100, 100));
    }

    /// Brings a slot to Aligned without summaries from the peer.
    pub fn align(&mut self, slot: u8, time: u32) {
        self.hello(slot, time);
        while !matches!(self.alignment(slot), Alignment::Aligned(_)) {
            let body = match (self.alignment(slot), slot) {
                (Alignment::Negotiate, 1) => ca(40, MIO, vec![]),
                (_, 1) => ca(self.number(slot).wrapping_add(1), M, vec![]),
                _ => ca(self.number(slot), NONE, vec![]),
            };
            self.taken(slot, time, body);
        }
    }

    pub fn alignment(&self, slot: u8) -> Alignment {
        self.server.slots[usize::from(slot)].as_ref().unwrap().alignment
    }

    pub fn number(&self, slot: u8) -> u32 {
        self.server.slots[usize::from(slot)].as_ref().unwrap().ca_number.0
    }
}

pub fn hello(interval: u16, factor: u16) -> Body {
    Body::Hello(Hello { interval, factor, additional: vec![] })
}

pub fn ca(number: u32, flags: Flags, records: Vec<Record>) -> Body {
    Body::Ca(Ca { number: CaNumber(number), flags, records })
}

pub fn summary(key: &[u8], originator: Id, number: i32) -> Record {
    Record::summary(Key::new(key).unwrap(), originator, CsaNumber(number))
}

pub fn update(key: &[u8], originator: Id, number: i32, hops: u16, payload: &[u8]) -> Record {
    let payload = Payload::new(payload).unwrap();
    Record { hops, payload, ..summary(key, originator, number) }
}

pub fn records(message: Option<Message>) -> Vec<Record> {
    match message.map(|message| message.body) {
        Some(Body::Ca(ca)) => ca.records,
        Some(Body::CsuRequest(list) | Body::CsuReply(list) | Body::Csus(list)) => list,
        _ => Vec::new(),
    }
}
