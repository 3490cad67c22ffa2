//! 01 'Updates': our changes, and the three kinds of packet that carry
//! update records, replies and solicitations.

use crate::answer::Code;
use crate::rule::Rule;
use crate::server::{Alignment, Row, Server, SLOTS};
use crate::wire::{self, Body, CsaNumber, Key, Payload, Record};

/// Remaining hops of our changes, and the hop count in answers to a CSUS.
const HOPS: u16 = 16;

fn key_of(key: &[u8]) -> Option<Key> {
    Key::new(key).filter(|key| !key.is_empty())
}

impl Server {
    /// Set: 17 (payload 1 to 32), 16 if the number is 2147483646 or more, 15.
    pub fn set(&mut self, key: &[u8], payload: &[u8]) -> Code {
        let Some(key) = key_of(key) else {
            return self.refuse(Rule::SetBadKey, Code::Bad);
        };
        let Some(payload) = Payload::new(payload).filter(|payload| !payload.is_empty()) else {
            return self.refuse(Rule::SetBadPayload, Code::Bad);
        };
        if let Some(r) = self.find(&key, self.settings.id) {
            let number = self.row(r).number;
            if number == CsaNumber::PURGED {
                return self.refuse(Rule::SetSpentPurged, Code::Spent);
            }
            if number >= CsaNumber::LAST {
                return self.refuse(Rule::SetSpent, Code::Spent);
            }
            self.rules.note(Rule::SetChange);
            self.change(r, CsaNumber(number.0 + 1), payload);
        } else {
            let Some(r) = self.lowest_free_row() else {
                return self.refuse(Rule::SetNoRow, Code::NoFreeRow);
            };
            self.rules.note(Rule::SetNew);
            self.new_row(r, key, self.settings.id);
            self.change(r, CsaNumber::FIRST, payload);
        }
        Code::Taken
    }

    /// Withdraw: 17, 18 if absent or already empty, 16. Stores an empty
    /// payload and keeps the row.
    pub fn withdraw(&mut self, key: &[u8]) -> Code {
        let Some(key) = key_of(key) else {
            return self.refuse(Rule::WithdrawBad, Code::Bad);
        };
        let Some(r) = self.find(&key, self.settings.id) else {
            return self.refuse(Rule::WithdrawAbsent, Code::NoEntry);
        };
        if self.row(r).payload.is_empty() {
            return self.refuse(Rule::WithdrawEmpty, Code::NoEntry);
        }
        let number = self.row(r).number;
        if number >= CsaNumber::LAST {
            return self.refuse(Rule::WithdrawSpent, Code::Spent);
        }
        self.rules.note(Rule::Withdraw);
        self.change(r, CsaNumber(number.0 + 1), Payload::EMPTY);
        Code::Taken
    }

    /// Purge: 17, 18 if absent, 16 if purged. Stores 2147483647 and empty.
    pub fn purge(&mut self, key: &[u8]) -> Code {
        let Some(key) = key_of(key) else {
            return self.refuse(Rule::PurgeBad, Code::Bad);
        };
        let Some(r) = self.find(&key, self.settings.id) else {
            return self.refuse(Rule::PurgeAbsent, Code::NoEntry);
        };
        if self.row(r).number == CsaNumber::PURGED {
            return self.refuse(Rule::PurgeSpent, Code::Spent);
        }
        self.rules.note(Rule::Purge);
        self.change(r, CsaNumber::PURGED, Payload::EMPTY);
        Code::Taken
    }

    fn refuse(&mut self, clause: Rule, code: Code) -> Code {
        self.rules.note(clause);
        code
    }

    /// A change of ours: remaining 16, a put for every slot in Summarize,
    /// Update or Aligned.
    fn change(&mut self, r: usize, number: CsaNumber, payload: Payload) {
        let row = self.row_mut(r);
        row.number = number;
        row.payload = payload;
        row.remaining = HOPS;
        for p in 0..SLOTS {
            self.put(r, p, Rule::PutOurs, Rule::PutOursSummarize);
        }
        self.end_of_event();
    }

    fn lowest_free_row(&self) -> Option<usize> {
        self.rows.iter().position(|row| row.is_none())
    }

    /// A new entry takes the lowest free row; what it holds follows at once.
    fn new_row(&mut self, r: usize, key: Key, originator: wire::Id) {
        if self.rows[r..].iter().any(|row| row.is_some()) {
            self.rules.note(Rule::NewLowest);
        }
        self.rows[r] = Some(Row {
            key,
            originator,
            number: CsaNumber::RESERVED,
            payload: Payload::EMPTY,
            remaining: 0,
            waits: [false; SLOTS],
        });
    }

    /// A put: for a slot in Summarize, Update or Aligned, remaining 1 or more.
    fn put(&mut self, r: usize, p: usize, clause: Rule, in_summarize: Rule) {
        let Some(slot) = &self.slots[p] else { return };
        let clause = match slot.alignment {
            Alignment::Down | Alignment::Negotiate => return,
            Alignment::Summarize(_) => in_summarize,
            Alignment::Update(_) | Alignment::Aligned(_) => clause,
        };
        if self.row(r).remaining >= 1 {
            self.row_mut(r).waits[p] = true;
            self.rules.note(clause);
        }
    }

    /// A take.
    fn take(&mut self, r: usize, p: usize, clause: Rule) {
        if self.row(r).waits[p] {
            self.row_mut(r).waits[p] = false;
            self.rules.note(clause);
        }
    }

    /// Each CSA in order; the CSU Reply lists the acknowledged records.
    pub(crate) fn take_csu_request(&mut self, p: usize, records: &[Record]) -> Option<Vec<u8>> {
        let mut acknowledged = Vec::new();
        for record in records {
            if self.take_record(p, record) {
                let (hops, null, payload) = (1, false, Payload::EMPTY);
                acknowledged.push(Record { hops, null, payload, ..*record });
            }
        }
        if self.becomes_aligned(p) {
            self.rules.note(Rule::AlignedLater);
        }
        if acknowledged.is_empty() {
            self.rules.note(Rule::ReplyNone);
            return None;
        }
        Some(wire::write(&self.to_peer(p, Body::CsuReply(acknowledged))))
    }

    /// One CSA; says whether it is acknowledged.
    fn take_record(&mut self, p: usize, record: &Record) -> bool {
        if record.null {
            let dropped = self.drop_request(p, record, CsaNumber::PURGED);
            self.rules.note(if dropped { Rule::NullDrops } else { Rule::NullAcknowledged });
            return true;
        }
        match self.find(&record.key, record.originator) {
            None if record.number == CsaNumber::PURGED => self.rules.note(Rule::AbsentPurged),
            None => {
                let Some(r) = self.lowest_free_row() else {
                    self.rules.note(Rule::AbsentNoRow);
                    return false;
                };
                self.rules.note(Rule::AbsentStored);
                self.new_row(r, record.key, record.originator);
                self.store(p, r, record);
            }
            Some(r) => self.take_known(p, r, record),
        }
        if self.drop_request(p, record, record.number) {
            self.rules.note(Rule::AcknowledgeDrops);
        }
        true
    }

    /// A CSA of an entry that has a row.
    fn take_known(&mut self, p: usize, r: usize, record: &Record) {
        let held = *self.row(r);
        if held.number == CsaNumber::PURGED && !held.waits.contains(&true) {
            self.rules.note(Rule::FoundPurged);
        }
        if record.number > held.number {
            let purges = record.number == CsaNumber::PURGED;
            self.rules.note(if purges { Rule::NewerPurged } else { Rule::Newer });
            self.store(p, r, record);
        } else if record.number == held.number {
            self.rules.note(Rule::Equal);
            self.take(r, p, Rule::TakeEqual);
        } else {
            self.rules.note(Rule::Older);
            if held.remaining == 0 {
                self.rules.note(Rule::OlderNoHops);
            }
            self.put(r, p, Rule::PutOlder, Rule::PutOlder);
        }
    }

    /// Storing sets remaining to hop count minus one. A take at the sender's
    /// slot; a put at the others, or with remaining 0 a take at each.
    fn store(&mut self, p: usize, r: usize, record: &Record) {
        let row = self.row_mut(r);
        row.number = record.number;
        row.payload = record.payload;
        row.remaining = record.hops - 1;
        let last_hop = row.remaining == 0;
        self.take(r, p, Rule::TakeNewer);
        if last_hop {
            self.rules.note(Rule::StoreLastHop);
        }
        for q in (0..SLOTS).filter(|q| *q != p) {
            if last_hop {
                self.take(r, q, Rule::TakeLastHop);
            } else {
                self.put(r, q, Rule::PutStored, Rule::PutStoredSummarize);
            }
        }
    }

    /// A take: a reply with the held number.
    pub(crate) fn take_csu_reply(&mut self, p: usize, records: &[Record]) -> Option<Vec<u8>> {
        for record in records {
            match self.find(&record.key, record.originator) {
                None => self.rules.note(Rule::ReplyAbsent),
                Some(r) if self.row(r).number == record.number => {
                    self.take(r, p, Rule::TakeReply);
                    let row = self.row(r);
                    if row.number == CsaNumber::PURGED && !row.waits.contains(&true) {
                        self.rules.note(Rule::TakeReplyFrees);
                    }
                }
                Some(_) => self.rules.note(Rule::ReplyOther),
            }
        }
        None
    }

    /// A CSUS is answered with a CSU Request; the slave drops its kept CA.
    pub(crate) fn take_csus(&mut self, p: usize, records: &[Record]) -> Option<Vec<u8>> {
        if self.slot_mut(p).kept.take().is_some() {
            self.rules.note(Rule::SlaveDropsAtCsus);
        }
        if records.is_empty() {
            self.rules.note(Rule::CsusEmpty);
            return None;
        }
        let answers = records.iter().map(|asked| self.solicited(p, asked)).collect();
        Some(wire::write(&self.to_peer(p, Body::CsuRequest(answers))))
    }

    /// Hop count 16; absent or held with a smaller number: N set, the asked
    /// number, hop count 1. With N clear it is a put (02, L2).
    fn solicited(&mut self, p: usize, asked: &Record) -> Record {
        let nothing = Record { hops: 1, null: true, payload: Payload::EMPTY, ..*asked };
        let Some(r) = self.find(&asked.key, asked.originator) else {
            self.rules.note(Rule::CsusAbsent);
            return nothing;
        };
        if self.row(r).number < asked.number {
            self.rules.note(Rule::CsusSmaller);
            return nothing;
        }
        self.rules.note(Rule::CsusHeld);
        self.put_sent(r, p);
        let payload = self.row(r).payload;
        Record { hops: HOPS, payload, ..self.summary(r) }
    }

    /// 02, L2: every record with N clear that is sent for a CSUS is a put for
    /// that slot, if its remaining hops are 1 or more.
    fn put_sent(&mut self, r: usize, p: usize) {
        let row = *self.row(r);
        if row.remaining == 0 {
            self.rules.note(Rule::SentNoHops);
        } else if row.waits[p] {
            self.rules.note(Rule::PutSentAgain);
        } else if row.number == CsaNumber::PURGED {
            self.rules.note(Rule::PutSentPurged);
        }
        self.put(r, p, Rule::PutSent, Rule::PutSent);
    }
}
