//! What holds after every event of long random lists.

use reference::answer::Code;
use reference::generate::{kinds::KINDS, list};
use reference::replay::{Event, Line, Replay, PACKET, POLL, RECORD};
use reference::server::*;
use reference::wire::*;
use std::collections::HashMap;

const EVENTS: usize = 20_000;

fn late(alignment: Alignment) -> bool {
    !matches!(alignment, Alignment::Down | Alignment::Negotiate)
}

fn rows_are_sound(server: &Server) {
    let rows: Vec<&Row> = server.rows.iter().flatten().collect();
    for (at, row) in rows.iter().enumerate() {
        let same = |other: &&Row| other.key == row.key && other.originator == row.originator;
        assert!(!rows[at + 1..].iter().any(same), "an entry twice");
        assert!((1..=16).contains(&row.key.part().len()));
        assert!(row.number > CsaNumber::RESERVED);
        let waits = row.waits.contains(&true);
        assert!(row.number != CsaNumber::PURGED || waits && row.payload.is_empty());
        assert!(!waits || row.remaining >= 1);
        for (p, mark) in row.waits.iter().enumerate() {
            let state = server.slots[p].as_ref().map(|slot| slot.alignment);
            assert!(!mark || state.is_some_and(late), "a mark for a slot in {state:?}");
        }
    }
}

fn slots_are_sound(server: &Server) {
    for slot in server.slots.iter().flatten() {
        assert!(slot.requests.len() <= REQUESTS);
        for (at, request) in slot.requests.iter().enumerate() {
            let same = |other: &Request| {
                other.key == request.key && other.originator == request.originator
            };
            assert!(!slot.requests[at + 1..].iter().any(same), "a request twice");
        }
        let bidirectional = slot.hello == HelloState::Bidirectional;
        assert_eq!(bidirectional, slot.alignment != Alignment::Down);
        assert!(slot.missed == 0 || slot.alignment != Alignment::Down);
        match slot.alignment {
            Alignment::Down => assert!(slot.requests.is_empty() && slot.kept.is_none()),
            Alignment::Negotiate => assert!(slot.requests.is_empty() && slot.missed == 0),
            Alignment::Summarize(_) => assert!(slot.kept.is_some()),
            Alignment::Update(role) | Alignment::Aligned(role) => {
                assert!(role == Role::Slave || slot.kept.is_none());
                let update = matches!(slot.alignment, Alignment::Update(_));
                assert_eq!(update, !slot.requests.is_empty());
            }
        }
    }
}

/// A refusal changes nothing, the malformed Hello apart; a packet changes
/// nothing of another slot.
fn changes_are_sound(before: &Server, after: &Server, event: &Event, code: Code) {
    let bad_hello = code == Code::Malformed && event.data[1] == HELLO;
    if code != Code::Taken && !bad_hello {
        let before = Server { rules: after.rules.clone(), ..before.clone() };
        assert!(before == *after, "refused with {code:?} and changed");
    }
    if matches!(event.kind, PACKET | POLL) {
        for p in (0..SLOTS).filter(|p| *p != usize::from(event.slot)) {
            assert_eq!(before.slots[p], after.slots[p]);
        }
    }
    for row in before.rows.iter().flatten() {
        if let Some(r) = after.find(&row.key, row.originator) {
            assert!(after.rows[r].unwrap().number >= row.number, "a number fell");
        }
    }
}

/// At most 284 octets, read back as meant: from us to the slot's peer.
fn written(server: &Server, event: &Event, line: &Line) -> Option<Message> {
    if line.written.is_empty() {
        return None;
    }
    assert!(line.code == Code::Taken && line.written.len() <= MAX_PACKET);
    assert_eq!(try_fixed_part(&line.written), Ok(()));
    let message = read(&line.written).unwrap();
    assert_eq!(write(&message), line.written);
    assert_eq!(message.sender, server.settings.id);
    let peer = server.slots[usize::from(event.slot)].as_ref().unwrap().peer;
    let bare = matches!(message.body, Body::Hello(_)) && message.receiver.is_none();
    assert!(bare || message.receiver == Some(peer));
    Some(message)
}

/// For each slot and waiting entry, the update requests of polls to it that
/// did not carry the entry, one after another.
#[derive(Default)]
struct Turns(HashMap<(usize, Vec<u8>, Id), usize>);

impl Turns {
    fn look(&mut self, before: &Server, after: &Server, p: usize, sent: &[Record]) {
        for record in sent {
            let r = before.find(&record.key, record.originator).expect("held");
            let row = before.rows[r].unwrap();
            assert!(row.waits[p] && !record.null, "sent but not waiting");
            let held = (row.number, row.payload, row.remaining);
            assert_eq!((record.number, record.payload, record.hops), held);
        }
        for row in after.rows.iter().flatten().filter(|row| row.waits[p]) {
            let name = (p, row.key.part().to_vec(), row.originator);
            let has =
                |record: &Record| record.key == row.key && record.originator == row.originator;
            let turns = self.0.entry(name).or_default();
            *turns = if sent.iter().any(has) { 0 } else { *turns + 1 };
            assert!(*turns < 16, "an entry starves");
        }
    }

    /// What does not wait any more counts from the start.
    fn forget(&mut self, server: &Server) {
        let waits = |p: usize, key: &[u8], originator: Id| {
            let r = server.find(&Key::new(key).unwrap(), originator)?;
            server.rows[r].map(|row| row.waits[p])
        };
        self.0.retain(|(p, key, originator), _| waits(*p, key, *originator) == Some(true));
    }
}

fn run_checked(file: &[u8]) {
    let mut replay = Replay::default();
    let mut turns = Turns::default();
    for record in file.chunks_exact(RECORD) {
        let event = Event::read(record.try_into().unwrap());
        let before = replay.server.clone();
        let line = replay.event(&event).unwrap();
        let after = replay.server.as_ref().unwrap();
        let Some(before) = before else { continue };
        rows_are_sound(after);
        slots_are_sound(after);
        changes_are_sound(&before, after, &event, line.code);
        assert_eq!(line.rows, after.rows.iter().flatten().count());
        let message = written(after, &event, &line);
        if let (POLL, Some(Body::CsuRequest(sent))) = (event.kind, message.map(|m| m.body)) {
            turns.look(&before, after, usize::from(event.slot), &sent);
        }
        turns.forget(after);
    }
}

#[test]
fn long_runs_keep_the_invariants() {
    for flavour in KINDS {
        run_checked(&list(7, EVENTS, flavour.name).unwrap());
    }
}

#[test]
fn many_short_runs_keep_the_invariants() {
    for flavour in KINDS {
        for seed in 5000..5100 {
            run_checked(&list(seed, 60, flavour.name).unwrap());
        }
    }
}
