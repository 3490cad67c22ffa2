//! The request list of a slot (01 'Alignment', taking in; 'Updates').

use crate::rule::Rule;
use crate::server::{Alignment, Request, Server, REQUESTS};
use crate::wire::{CsaNumber, Record};

impl Server {
    /// A summary of an absent or newer entry joins the request list.
    pub(crate) fn take_in(&mut self, p: usize, records: &[Record]) {
        for record in records {
            let clause = match self.find(&record.key, record.originator) {
                None if record.number == CsaNumber::PURGED => Rule::TakeInAbsentPurged,
                None => Rule::TakeInAbsent,
                Some(r) if record.number > self.row(r).number => Rule::TakeInNewer,
                Some(_) => Rule::TakeInHeld,
            };
            self.rules.note(clause);
            if clause != Rule::TakeInHeld {
                self.request(p, record);
            }
        }
    }

    /// One per entry, in its first place, with the largest number; with 64
    /// there a new one adds one to missed, which stops at 65535.
    fn request(&mut self, p: usize, record: &Record) {
        let (key, originator, number) = (record.key, record.originator, record.number);
        let slot = self.slot_mut(p);
        let full = slot.requests.len() == REQUESTS;
        let known = slot.requests.iter_mut().find(|r| r.key == key && r.originator == originator);
        let clause = match known {
            Some(request) if number > request.number => {
                request.number = number;
                if full {
                    Rule::TakeInFullKnown
                } else {
                    Rule::TakeInLarger
                }
            }
            Some(_) => Rule::TakeInNotLarger,
            None if !full => {
                slot.requests.push(Request { key, originator, number });
                return;
            }
            None if slot.missed == 65535 => Rule::MissedStops,
            None => {
                slot.missed += 1;
                Rule::TakeInMissed
            }
        };
        self.rules.note(clause);
    }

    /// Update with an empty request list becomes Aligned.
    pub(crate) fn becomes_aligned(&mut self, p: usize) -> bool {
        let slot = self.slot_mut(p);
        match slot.alignment {
            Alignment::Update(role) if slot.requests.is_empty() => {
                slot.alignment = Alignment::Aligned(role);
                true
            }
            _ => false,
        }
    }

    /// Drops p's request for the entry if its number is no greater.
    pub(crate) fn drop_request(&mut self, p: usize, record: &Record, number: CsaNumber) -> bool {
        let (key, originator) = (record.key, record.originator);
        let requests = &mut self.slot_mut(p).requests;
        let at = requests.iter().position(|r| r.key == key && r.originator == originator);
        match at {
            Some(at) if requests[at].number <= number => {
                requests.remove(at);
                true
            }
            Some(_) => {
                self.rules.note(Rule::AcknowledgeKeeps);
                false
            }
            None => false,
        }
    }
}
