//! Lists of events written by hand: the listing of 01, and what 02, L2, says
//! of answers to a CSUS.

use crate::replay::{self, Event};
use crate::wire::{self, Body, Ca, CaNumber, CsaNumber, Flags};
use crate::wire::{Hello, Id, Key, Message, Payload, Record};

const US: Id = [10, 0, 0, 2];
const PEERS: [Id; 2] = [[10, 0, 0, 1], [10, 0, 0, 3]];

/// Group numbers 2 and 7, HelloInterval 10, DeadFactor 3.
fn settings() -> Event {
    Event::new(replay::SETTINGS, 0, 0, 0, &[10, 0, 0, 2, 0, 2, 0, 7, 0, 10, 0, 3])
}

fn add_peer(slot: u8) -> Event {
    Event::new(replay::ADD_PEER, slot, 0, 0, &PEERS[usize::from(slot)])
}

fn up(slot: u8, time: u32) -> Event {
    Event::new(replay::UP, slot, 0, time, &[])
}

fn poll(slot: u8, time: u32) -> Event {
    Event::new(replay::POLL, slot, 0, time, &[])
}

/// A key and a payload of one octet each.
fn set(key: u8, payload: u8) -> Event {
    let mut data = [0; 17];
    data[0] = key;
    data[16] = payload;
    Event::new(replay::SET, 1, 1, 0, &data)
}

fn packet(slot: u8, time: u32, body: Body) -> Event {
    let sender = PEERS[usize::from(slot)];
    let message = Message { protocol: 2, group: 7, sender, receiver: Some(US), body };
    let octets = wire::write(&message);
    Event::new(replay::PACKET, slot, octets.len() as u16, time, &octets)
}

/// The listing of 01.
pub fn listing() -> Vec<Event> {
    vec![
        settings(),
        add_peer(0),
        up(0, 0),
        poll(0, 0),
        set(b'A', b'x'),
        poll(0, 0),
        Event::new(replay::WITHDRAW, 1, 0, 0, b"B"),
    ]
}

/// Both slots reach Aligned at time 1: we are master in slot 0, slave in slot
/// 1. Each peer gets its Hello.
fn aligned() -> Vec<Event> {
    let hello = || Body::Hello(Hello { interval: 100, factor: 10, additional: vec![] });
    let ca = |number, m, i, o| {
        let flags = Flags { m, i, o };
        Body::Ca(Ca { number: CaNumber(number), flags, records: vec![] })
    };
    let mut events = vec![settings()];
    for slot in 0..2 {
        events.extend([add_peer(slot), up(slot, 1), packet(slot, 1, hello()), poll(slot, 1)]);
    }
    events.extend([
        packet(0, 1, ca(1, false, false, false)),
        packet(0, 1, ca(2, false, false, false)),
        packet(1, 1, ca(40, true, true, true)),
        packet(1, 1, ca(41, true, false, false)),
    ]);
    events
}

fn summary(key: u8, originator: Id, number: i32) -> Record {
    let key = Key::new(&[key]).expect("a key of one octet");
    Record::summary(key, originator, CsaNumber(number))
}

fn reply(slot: u8, time: u32, record: Record) -> Event {
    packet(slot, time, Body::CsuReply(vec![record]))
}

fn solicit(slot: u8, time: u32, asked: &[Record]) -> Event {
    packet(slot, time, Body::Csus(asked.to_vec()))
}

/// An update record of the peer in slot 0.
fn update(time: u32, key: u8, hops: u16) -> Event {
    let payload = Payload::new(b"y").expect("a payload of one octet");
    let record = Record { hops, payload, ..summary(key, PEERS[0], 5) };
    packet(0, time, Body::CsuRequest(vec![record]))
}

/// 02, L2, in the order of its sentences.
pub fn solicited() -> Vec<Event> {
    const FIRST: i32 = -2147483647;
    const PURGED: i32 = 2147483647;
    let ours = |number| summary(b'A', US, number);
    let theirs = |key| summary(key, PEERS[0], 5);
    let mut events = aligned();
    events.extend([
        // A is known at both peers.
        set(b'A', b'x'),
        reply(0, 1, ours(FIRST)),
        reply(1, 1, ours(FIRST)),
        // A lost answer is sent again, until a reply has its number.
        solicit(1, 1, &[ours(FIRST)]),
        poll(1, 1),
        reply(1, 1, ours(FIRST + 1)),
        poll(1, 2),
        poll(0, 2),
        reply(1, 2, ours(FIRST)),
        poll(1, 3),
        // Asked twice in one packet it waits once.
        solicit(1, 3, &[ours(FIRST), ours(FIRST)]),
        poll(1, 4),
        reply(1, 4, ours(FIRST)),
        poll(1, 5),
        // Null records do not wait: a greater number, an absent entry.
        solicit(1, 5, &[ours(FIRST + 1), summary(b'Z', US, 1)]),
        poll(1, 6),
        // An entry that came from this very slot waits for it.
        update(6, b'B', 16),
        reply(1, 6, theirs(b'B')),
        solicit(0, 6, &[theirs(b'B')]),
        poll(0, 6),
        reply(0, 6, theirs(b'B')),
        poll(0, 7),
        // One with remaining 0 does not.
        update(7, b'C', 1),
        solicit(0, 7, &[theirs(b'C')]),
        poll(0, 8),
        // A purged row that was asked for stays until this slot replies.
        Event::new(replay::PURGE, 1, 0, 0, b"A"),
        reply(0, 8, ours(PURGED)),
        solicit(0, 8, &[ours(FIRST)]),
        reply(1, 8, ours(PURGED)),
        poll(0, 9),
        reply(0, 9, ours(PURGED)),
        poll(0, 10),
    ]);
    events
}
