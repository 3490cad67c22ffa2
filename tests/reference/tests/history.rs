//! The history of 01 'Updates' and 02, L2, beside the server: entries held,
//! and puts and takes, from each event's arguments and code; and of 02, L1, the
//! update requests written at polls. Only the slots' states are the server's.

use reference::answer::Code;
use reference::generate::{kinds::KINDS, list};
use reference::replay::{Event, Line, Replay, PACKET, POLL, PURGE, RECORD, SET, WITHDRAW};
use reference::server::{Alignment, Server, SLOTS};
use reference::wire::{read, Body, Id, Record};
use std::collections::BTreeMap;

#[derive(Clone, PartialEq, Debug)]
struct Held {
    number: i32,
    payload: Vec<u8>,
    remaining: u16,
    waits: [bool; SLOTS],
}

#[derive(Default)]
struct History {
    us: Id,
    held: BTreeMap<(Vec<u8>, Id), Held>,
    updates: [u64; SLOTS],
}

/// Slots in Summarize, Update or Aligned.
fn takes_puts(server: &Server) -> [bool; SLOTS] {
    std::array::from_fn(|p| {
        let state = server.slots[p].as_ref().map(|slot| slot.alignment);
        !matches!(state, None | Some(Alignment::Down | Alignment::Negotiate))
    })
}

impl History {
    fn ours(&mut self, event: &Event, late: [bool; SLOTS]) {
        let name = (event.data[..usize::from(event.slot)].to_vec(), self.us);
        let number = match (event.kind, self.held.get(&name)) {
            (PURGE, _) => 2147483647,
            (_, Some(held)) => held.number + 1,
            (_, None) => -2147483647,
        };
        let length = if event.kind == SET { usize::from(event.length) } else { 0 };
        let payload = event.data[16..16 + length].to_vec();
        // A change of ours has remaining 16: a put for each such slot.
        self.held.insert(name, Held { number, payload, remaining: 16, waits: late });
    }

    fn record(&mut self, p: usize, record: &Record, late: [bool; SLOTS]) {
        let name = (record.key.part().to_vec(), record.originator);
        let (room, remaining) = (self.held.len() < 64, record.hops - 1);
        let old = self.held.get_mut(&name);
        let stored = |mut waits: [bool; SLOTS]| {
            for q in 0..SLOTS {
                waits[q] = remaining > 0 && q != p && (waits[q] || late[q]);
            }
            let payload = record.payload.part().to_vec();
            Held { number: record.number.0, payload, remaining, waits }
        };
        match old {
            _ if record.null => {}
            None if record.number.0 == 2147483647 || !room => {}
            None => _ = self.held.insert(name, stored([false; SLOTS])),
            Some(old) if record.number.0 > old.number => *old = stored(old.waits),
            Some(old) if record.number.0 == old.number => old.waits[p] = false,
            Some(old) => old.waits[p] |= old.remaining >= 1,
        }
    }

    fn packet(&mut self, event: &Event, late: [bool; SLOTS]) {
        let p = usize::from(event.slot);
        let message = read(&event.data[..usize::from(event.length)]).unwrap();
        match message.body {
            Body::CsuRequest(records) => {
                for record in &records {
                    self.record(p, record, late);
                }
            }
            Body::CsuReply(records) => {
                for record in &records {
                    let name = (record.key.part().to_vec(), record.originator);
                    match self.held.get_mut(&name) {
                        Some(held) if held.number == record.number.0 => held.waits[p] = false,
                        _ => {}
                    }
                }
            }
            Body::Csus(records) => {
                for record in &records {
                    let name = (record.key.part().to_vec(), record.originator);
                    match self.held.get_mut(&name) {
                        // Sent with N clear: a put (02, L2).
                        Some(held) if held.number >= record.number.0 && held.remaining >= 1 => {
                            held.waits[p] = true;
                        }
                        _ => {}
                    }
                }
            }
            _ => {}
        }
    }

    /// Entering Down or Negotiate; then purged entries that wait for nobody.
    fn end(&mut self, late: [bool; SLOTS]) {
        for held in self.held.values_mut() {
            for (waits, late) in held.waits.iter_mut().zip(late) {
                *waits &= late;
            }
        }
        self.held.retain(|_, held| held.number != 2147483647 || held.waits.contains(&true));
    }

    /// One more for a CSU Request written at a poll; none from Negotiate on.
    fn count(&mut self, event: &Event, line: &Line, server: &Server) {
        if event.kind == POLL && line.written.get(1) == Some(&2) {
            self.updates[usize::from(event.slot)] += 1;
        }
        for (p, slot) in server.slots.iter().enumerate() {
            let Some(slot) = slot else { continue };
            if slot.alignment == Alignment::Negotiate {
                self.updates[p] = 0;
            }
            assert_eq!(u64::from(slot.updates), self.updates[p].min(65535));
        }
    }

    fn is_held_by(&self, server: &Server) {
        let rows = server.rows.iter().flatten().map(|row| {
            let payload = row.payload.part().to_vec();
            let (number, remaining, waits) = (row.number.0, row.remaining, row.waits);
            let name = (row.key.part().to_vec(), row.originator);
            (name, Held { number, payload, remaining, waits })
        });
        assert_eq!(self.held, rows.collect());
    }
}

fn run_beside(file: &[u8]) {
    let mut replay = Replay::default();
    let mut history = History::default();
    for record in file.chunks_exact(RECORD) {
        let event = Event::read(record.try_into().unwrap());
        let late = replay.server.as_ref().map(takes_puts);
        let line = replay.event(&event).unwrap();
        let server = replay.server.as_ref().unwrap();
        history.us = server.settings.id;
        if let (Code::Taken, Some(late)) = (line.code, late) {
            match event.kind {
                SET | WITHDRAW | PURGE => history.ours(&event, late),
                PACKET => history.packet(&event, late),
                _ => {}
            }
        }
        history.end(takes_puts(server));
        history.is_held_by(server);
        history.count(&event, &line, server);
    }
}

#[test]
fn the_server_holds_the_history() {
    for flavour in KINDS {
        run_beside(&list(11, 5_000, flavour.name).unwrap());
        for seed in 7000..7150 {
            run_beside(&list(seed, 60, flavour.name).unwrap());
        }
    }
}
