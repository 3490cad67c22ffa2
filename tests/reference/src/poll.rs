//! 01 'Poll': after the Hello check, the first that is due.

use crate::rule::Rule;
use crate::server::{Alignment, Role, Server, ROWS};
use crate::wire::{self, Body, Ca, Flags, Record, MAX_RECORDS};

const CA_SECONDS: u32 = 5;
const LIST_SECONDS: u32 = 1;

impl Server {
    pub(crate) fn take_poll(&mut self, p: usize) -> Option<Vec<u8>> {
        self.hello_check(p);
        self.drop_kept(p);
        let other_due = self.ca_is_due(p) || self.csus_is_due(p) || self.csu_request_is_due(p);
        let written = self.poll_hello(p);
        if written.is_some() && other_due {
            self.rules.note(Rule::PollHelloBefore);
        }
        let written = written.or_else(|| self.poll_ca(p));
        let written = written.or_else(|| self.poll_csus(p));
        let written = written.or_else(|| self.poll_csu_request(p));
        if written.is_none() {
            self.rules.note(Rule::PollNothing);
        }
        written
    }

    /// None since, or so many seconds passed; "passed" means at least.
    fn due(&self, since: Option<u32>, seconds: u32) -> bool {
        since.is_none_or(|then| self.time - then >= seconds)
    }

    /// The slave drops its kept CA, past Summarize, at a poll 5 seconds
    /// after it was last sent.
    fn drop_kept(&mut self, p: usize) {
        let slot = self.slot(p);
        let past = [Alignment::Update(Role::Slave), Alignment::Aligned(Role::Slave)];
        let late = slot.kept.is_some() && self.due(slot.ca_sent, CA_SECONDS);
        if past.contains(&slot.alignment) && late {
            self.rules.note(Rule::SlaveDropsAtPoll);
            self.slot_mut(p).kept = None;
        }
    }

    /// Hello: none since link up, or our interval passed.
    fn poll_hello(&mut self, p: usize) -> Option<Vec<u8>> {
        let sent = self.slot(p).hello_sent;
        if !self.due(sent, u32::from(self.settings.interval)) {
            return None;
        }
        self.rules.note(if sent.is_none() { Rule::PollHelloFirst } else { Rule::PollHello });
        self.slot_mut(p).hello_sent = Some(self.time);
        Some(self.our_hello(p))
    }

    /// In Negotiate, or at the master in Summarize: none sent since
    /// Negotiate began or 5 seconds passed.
    fn ca_is_due(&self, p: usize) -> bool {
        let slot = self.slot(p);
        let sends = [Alignment::Negotiate, Alignment::Summarize(Role::Master)];
        sends.contains(&slot.alignment) && self.due(slot.ca_sent, CA_SECONDS)
    }

    /// CA in Negotiate (M, I, O set, no records) or the master's kept CA.
    fn poll_ca(&mut self, p: usize) -> Option<Vec<u8>> {
        if !self.ca_is_due(p) {
            if self.slot(p).alignment == Alignment::Summarize(Role::Slave) {
                self.rules.note(Rule::PollSlaveSilent);
            }
            return None;
        }
        let slot = self.slot(p);
        if slot.alignment != Alignment::Negotiate {
            self.rules.note(Rule::PollMaster);
            return self.send_kept(p);
        }
        let (number, first) = (slot.ca_number, slot.ca_sent.is_none());
        self.rules.note(if first { Rule::PollNegotiateFirst } else { Rule::PollNegotiate });
        let flags = Flags { m: true, i: true, o: true };
        Some(self.send_ca(p, Ca { number, flags, records: Vec::new() }))
    }

    /// In Update: none written at a poll since Negotiate, or 1 second passed.
    fn csus_is_due(&self, p: usize) -> bool {
        let slot = self.slot(p);
        let in_update = matches!(slot.alignment, Alignment::Update(_));
        in_update && !slot.requests.is_empty() && self.due(slot.csus_sent, LIST_SECONDS)
    }

    /// CSUS in Update, first 4 requests, which move to the list's end.
    fn poll_csus(&mut self, p: usize) -> Option<Vec<u8>> {
        if !self.csus_is_due(p) {
            return None;
        }
        self.note_csus(p);
        let time = self.time;
        let slot = self.slot_mut(p);
        slot.csus_sent = Some(time);
        let count = slot.requests.len().min(MAX_RECORDS);
        let asked = slot.requests[..count]
            .iter()
            .map(|request| Record::summary(request.key, request.originator, request.number))
            .collect();
        slot.requests.rotate_left(count);
        Some(wire::write(&self.to_peer(p, Body::Csus(asked))))
    }

    fn note_csus(&mut self, p: usize) {
        let first = self.slot(p).csus_sent.is_none();
        self.rules.note(if first { Rule::PollCsusFirst } else { Rule::PollCsus });
        if self.slot(p).requests.len() > MAX_RECORDS {
            self.rules.note(Rule::PollCsusMoves);
        }
        if self.csu_request_is_due(p) {
            self.rules.note(Rule::PollCsusBefore);
        }
    }

    /// Waiting rows after the last row that a poll so sent this peer, going
    /// round (from row 0 after Negotiate); none outside Update and Aligned.
    fn waiting(&self, p: usize) -> Vec<usize> {
        let slot = self.slot(p);
        if !matches!(slot.alignment, Alignment::Update(_) | Alignment::Aligned(_)) {
            return Vec::new();
        }
        let waits = |r: &usize| self.rows[*r].as_ref().is_some_and(|row| row.waits[p]);
        (slot.round..ROWS).chain(0..slot.round).filter(waits).collect()
    }

    /// While a row waits: none written at a poll since Negotiate, or 1
    /// second passed.
    fn csu_request_is_due(&self, p: usize) -> bool {
        !self.waiting(p).is_empty() && self.due(self.slot(p).csu_sent, LIST_SECONDS)
    }

    /// CSU Request: the next 4 waiting rows, or all if fewer, hop count what
    /// remains.
    fn poll_csu_request(&mut self, p: usize) -> Option<Vec<u8>> {
        let waiting = self.waiting(p);
        if !self.csu_request_is_due(p) {
            if !waiting.is_empty() {
                self.rules.note(Rule::PollCsuEarly);
            }
            return None;
        }
        let next = &waiting[..waiting.len().min(MAX_RECORDS)];
        self.note_csu_request(p, &waiting, next);
        let records = next.iter().map(|r| {
            let row = self.row(*r);
            Record { hops: row.remaining, payload: row.payload, ..self.summary(*r) }
        });
        let octets = wire::write(&self.to_peer(p, Body::CsuRequest(records.collect())));
        let time = self.time;
        let slot = self.slot_mut(p);
        slot.csu_sent = Some(time);
        slot.round = (next[next.len() - 1] + 1) % ROWS;
        match slot.updates.checked_add(1) {
            Some(more) => slot.updates = more,
            None => self.rules.note(Rule::UpdatesStop),
        }
        Some(octets)
    }

    fn note_csu_request(&mut self, p: usize, waiting: &[usize], next: &[usize]) {
        let first = self.slot(p).csu_sent.is_none();
        self.rules.note(if first { Rule::PollCsuFirst } else { Rule::PollCsu });
        if matches!(self.slot(p).alignment, Alignment::Update(_)) {
            self.rules.note(Rule::PollCsuInUpdate);
        }
        if waiting.len() > next.len() {
            self.rules.note(Rule::PollCsuFour);
        }
        if next.windows(2).any(|pair| pair[1] < pair[0]) {
            self.rules.note(Rule::PollCsuRound);
        }
    }
}
