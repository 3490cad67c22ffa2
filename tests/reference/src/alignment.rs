//! 01 'Alignment'.

use crate::rule::Rule;
use crate::server::{Alignment, Role, Server, ROWS};
use crate::wire::{self, Body, Ca, CaNumber, CsaNumber, Flags, MAX_RECORDS};

impl Server {
    pub(crate) fn enter_down(&mut self, p: usize) {
        let emptied = self.empty_lists(p);
        self.note_emptied(
            emptied,
            [
                Rule::DownEmptiesRequests,
                Rule::DownEmptiesWaiting,
                Rule::DownEmptiesKept,
                Rule::DownEmptiesMissed,
            ],
        );
        if self.slot(p).updates > 0 {
            self.rules.note(Rule::UpdatesDown);
        }
        self.slot_mut(p).alignment = Alignment::Down;
    }

    /// Entering Negotiate also adds one to the slot's CA number, starts the
    /// timers and the going round anew (01 'Poll'), and the count of update
    /// requests (02, L1), which entering Down leaves.
    pub(crate) fn enter_negotiate(&mut self, p: usize) {
        let emptied = self.empty_lists(p);
        self.note_emptied(
            emptied,
            [
                Rule::NegotiateEmptiesRequests,
                Rule::NegotiateEmptiesWaiting,
                Rule::NegotiateEmptiesKept,
                Rule::NegotiateEmptiesMissed,
            ],
        );
        if self.slot(p).updates > 0 {
            self.rules.note(Rule::UpdatesNegotiate);
        }
        let slot = self.slot_mut(p);
        slot.alignment = Alignment::Negotiate;
        slot.updates = 0;
        slot.ca_number = slot.ca_number.one_more();
        slot.ca_sent = None;
        slot.csus_sent = None;
        slot.csu_sent = None;
        slot.round = 0;
        let wrapped = slot.ca_number == CaNumber(0);
        self.rules.note(if wrapped { Rule::NegotiateWraps } else { Rule::NegotiateSteps });
    }

    /// Empties the request list, waiting list, kept CA and missed count;
    /// says which of them held something.
    fn empty_lists(&mut self, p: usize) -> [bool; 4] {
        let waited = self.rows.iter().flatten().any(|row| row.waits[p]);
        for row in self.rows.iter_mut().flatten() {
            row.waits[p] = false;
        }
        let slot = self.slot_mut(p);
        let had = [!slot.requests.is_empty(), waited, slot.kept.is_some(), slot.missed > 0];
        slot.requests.clear();
        slot.kept = None;
        slot.missed = 0;
        had
    }

    fn note_emptied(&mut self, emptied: [bool; 4], clauses: [Rule; 4]) {
        for (held, clause) in emptied.into_iter().zip(clauses) {
            if held {
                self.rules.note(clause);
            }
        }
    }

    /// In Down a CA is 14; in Negotiate all but two kinds of CA are.
    pub(crate) fn ca_not_usable(&self, p: usize, ca: &Ca) -> Option<Rule> {
        match self.slot(p).alignment {
            Alignment::Down => Some(Rule::CaInDown),
            Alignment::Negotiate if self.role_by(p, ca).is_none() => Some(Rule::NegotiateOtherwise),
            _ => None,
        }
    }

    /// The role that a CA in Negotiate gives us. The sender is the peer.
    fn role_by(&self, p: usize, ca: &Ca) -> Option<Role> {
        let slot = self.slot(p);
        let Flags { m, i, o } = ca.flags;
        if m && i && o && ca.records.is_empty() && slot.peer > self.settings.id {
            return Some(Role::Slave);
        }
        if !m && !i && slot.peer < self.settings.id && ca.number == slot.ca_number {
            return Some(Role::Master);
        }
        None
    }

    pub(crate) fn take_ca(&mut self, p: usize, ca: &Ca) -> Option<Vec<u8>> {
        match self.slot(p).alignment {
            Alignment::Down => None, // refused before
            Alignment::Negotiate => self.ca_in_negotiate(p, ca),
            Alignment::Summarize(Role::Slave) => self.ca_at_slave(p, ca),
            Alignment::Summarize(Role::Master) => self.ca_at_master(p, ca),
            Alignment::Update(role) | Alignment::Aligned(role) => self.ca_later(p, role, ca),
        }
    }

    fn ca_in_negotiate(&mut self, p: usize, ca: &Ca) -> Option<Vec<u8>> {
        let role = self.role_by(p, ca)?;
        match role {
            Role::Slave => {
                self.rules.note(Rule::BecomeSlave);
                self.slot_mut(p).ca_number = ca.number;
                self.slot_mut(p).last_taken = Some((ca.number, ca.flags));
            }
            Role::Master => {
                self.rules.note(Rule::BecomeMaster);
                if !ca.records.is_empty() {
                    self.rules.note(Rule::BecomeMasterTakesIn);
                }
                self.take_in(p, &ca.records);
                self.slot_mut(p).ca_number = ca.number.one_more();
            }
        }
        self.slot_mut(p).alignment = Alignment::Summarize(role);
        self.slot_mut(p).next_row = 0;
        Some(self.answer(p, role))
    }

    /// The next 4 used rows, or all that are left, in row order, O set when
    /// a used row follows, M set by the master, I clear. It is kept.
    fn answer(&mut self, p: usize, role: Role) -> Vec<u8> {
        let first = self.slot(p).next_row;
        let used: Vec<usize> = (first..ROWS).filter(|r| self.rows[*r].is_some()).collect();
        let listed = &used[..used.len().min(MAX_RECORDS)];
        let o = used.len() > listed.len();
        if first > 0 && !self.slot(p).last_o && !listed.is_empty() {
            self.rules.note(Rule::AnswerAgain);
        }
        self.note_answer(first, listed, o);
        let records = listed.iter().map(|r| self.summary(*r)).collect();
        let flags = Flags { m: role == Role::Master, i: false, o };
        let number = self.slot(p).ca_number;
        if let Some(last) = listed.last() {
            self.slot_mut(p).next_row = last + 1;
        }
        self.send_ca(p, Ca { number, flags, records })
    }

    fn note_answer(&mut self, first: usize, listed: &[usize], o: bool) {
        self.rules.note(match listed.len() {
            0 => Rule::AnswerNone,
            MAX_RECORDS => Rule::AnswerFour,
            _ => Rule::AnswerLeft,
        });
        if o {
            self.rules.note(Rule::AnswerMore);
        }
        if listed.last().is_some_and(|last| last + 1 - first > listed.len()) {
            self.rules.note(Rule::AnswerSkips);
        }
        if listed.iter().any(|r| self.row(*r).number == CsaNumber::PURGED) {
            self.rules.note(Rule::AnswerPurged);
        }
    }

    /// The last CA sent is kept octet for octet.
    pub(crate) fn send_ca(&mut self, p: usize, ca: Ca) -> Vec<u8> {
        let o = ca.flags.o;
        let octets = wire::write(&self.to_peer(p, Body::Ca(ca)));
        let time = self.time;
        let slot = self.slot_mut(p);
        slot.last_o = o;
        slot.ca_sent = Some(time);
        slot.kept = Some(octets.clone());
        octets
    }

    /// Sends the kept CA again.
    pub(crate) fn send_kept(&mut self, p: usize) -> Option<Vec<u8>> {
        let time = self.time;
        let slot = self.slot_mut(p);
        slot.ca_sent = Some(time);
        slot.kept.clone()
    }

    fn is_duplicate(&self, p: usize, ca: &Ca) -> bool {
        self.slot(p).last_taken == Some((ca.number, ca.flags))
    }

    fn ca_at_slave(&mut self, p: usize, ca: &Ca) -> Option<Vec<u8>> {
        if self.is_duplicate(p, ca) {
            self.rules.note(Rule::SlaveDuplicate);
            if ca.flags.i {
                self.rules.note(Rule::SlaveDuplicateFirst);
            }
            return self.send_kept(p);
        }
        let Flags { m, i, o } = ca.flags;
        if !m || i || ca.number != self.slot(p).ca_number.one_more() {
            self.rules.note(Rule::SlaveElse);
            self.enter_negotiate(p);
            return None;
        }
        self.rules.note(Rule::SlaveNext);
        if ca.number == CaNumber(0) {
            self.rules.note(Rule::SlaveNextWraps);
        }
        self.take_in(p, &ca.records);
        self.slot_mut(p).ca_number = ca.number;
        self.slot_mut(p).last_taken = Some((ca.number, ca.flags));
        let answer = self.answer(p, Role::Slave);
        match (o, self.slot(p).last_o) {
            (false, false) => {
                self.rules.note(Rule::SlaveUpdate);
                self.enter_update(p, Role::Slave);
            }
            (false, true) => self.rules.note(Rule::SlaveOurMore),
            (true, false) => self.rules.note(Rule::SlaveTheirMore),
            (true, true) => {}
        }
        Some(answer)
    }

    fn ca_at_master(&mut self, p: usize, ca: &Ca) -> Option<Vec<u8>> {
        let ours = self.slot(p).ca_number;
        let Flags { m, i, o } = ca.flags;
        if !m && !i && ca.number == ours {
            self.take_in(p, &ca.records);
            if !o && !self.slot(p).last_o {
                self.rules.note(Rule::MasterUpdate);
                self.enter_update(p, Role::Master);
                return None;
            }
            self.rules.note(Rule::MasterAnswers);
            self.slot_mut(p).ca_number = ours.one_more();
            return Some(self.answer(p, Role::Master));
        }
        if !m && !i && ca.number == ours.one_less() {
            self.rules.note(Rule::MasterOneLess);
            return None;
        }
        self.rules.note(Rule::MasterElse);
        self.enter_negotiate(p);
        None
    }

    /// The master drops its kept CA on entering Update.
    fn enter_update(&mut self, p: usize, role: Role) {
        self.slot_mut(p).alignment = Alignment::Update(role);
        if role == Role::Master {
            self.rules.note(Rule::MasterDropsKept);
            self.slot_mut(p).kept = None;
        }
        if self.becomes_aligned(p) {
            self.rules.note(Rule::AlignedAtOnce);
        }
    }

    fn ca_later(&mut self, p: usize, role: Role, ca: &Ca) -> Option<Vec<u8>> {
        let Flags { m, i, .. } = ca.flags;
        let slot = self.slot(p);
        let (ours, has_kept) = (slot.ca_number, slot.kept.is_some());
        let clause = match role {
            Role::Slave if self.is_duplicate(p, ca) && has_kept => Rule::LaterSlaveDuplicate,
            Role::Slave if self.is_duplicate(p, ca) => Rule::LaterSlaveGone,
            Role::Slave => Rule::LaterSlaveElse,
            Role::Master if !m && !i && ca.number == ours => Rule::LaterMasterSame,
            Role::Master if !m && !i && ca.number == ours.one_less() => Rule::LaterMasterOneLess,
            Role::Master => Rule::LaterMasterElse,
        };
        self.rules.note(clause);
        match clause {
            Rule::LaterSlaveDuplicate => return self.send_kept(p),
            Rule::LaterMasterSame => {}
            _ => self.enter_negotiate(p),
        }
        None
    }
}
