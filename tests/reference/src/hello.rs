//! 01 'Hello'.

use crate::rule::Rule;
use crate::server::{Heard, HelloState, Server};
use crate::wire::{self, Body, Hello, Id};

impl Server {
    /// Reaching Bidirectional enters Negotiate; leaving it enters Down.
    fn move_hello(&mut self, p: usize, to: HelloState) {
        let from = self.slot(p).hello;
        self.slot_mut(p).hello = to;
        let was = from == HelloState::Bidirectional;
        let is = to == HelloState::Bidirectional;
        if !was && is {
            self.enter_negotiate(p);
        }
        if was && !is {
            self.enter_down(p);
        }
    }

    /// Link up: Down to Waiting. Repeats change only the time.
    pub(crate) fn take_link_up(&mut self, p: usize) {
        if self.slot(p).hello != HelloState::Down {
            self.rules.note(Rule::LinkUpRepeat);
            return;
        }
        self.rules.note(Rule::LinkUp);
        self.slot_mut(p).hello_sent = None;
        self.move_hello(p, HelloState::Waiting);
    }

    /// Link down: Down. Repeats change only the time.
    pub(crate) fn take_link_down(&mut self, p: usize) {
        self.rules.note(match self.slot(p).hello {
            HelloState::Down => Rule::LinkDownRepeat,
            HelloState::Bidirectional => Rule::LinkDownBidirectional,
            _ => Rule::LinkDown,
        });
        self.move_hello(p, HelloState::Down);
    }

    /// A taken Hello records time, interval and factor; it moves to
    /// Bidirectional if any receiver is us, else Unidirectional.
    pub(crate) fn take_hello(&mut self, p: usize, receiver: Option<Id>, hello: &Hello) {
        let us = self.settings.id;
        let (interval, factor) = (hello.interval, hello.factor);
        self.slot_mut(p).heard = Heard { time: self.time, interval, factor };
        let additional = hello.additional.contains(&us);
        if receiver != Some(us) && additional {
            self.rules.note(Rule::HelloAdditional);
        }
        if receiver.is_none() && !hello.additional.is_empty() {
            self.rules.note(Rule::HelloZeroReceiver);
        }
        let names_us = receiver == Some(us) || additional;
        self.rules.note(match (names_us, self.slot(p).hello) {
            (true, HelloState::Bidirectional) => Rule::HelloStays,
            (true, _) => Rule::HelloReaches,
            (false, HelloState::Bidirectional) => Rule::HelloLeaves,
            (false, HelloState::Unidirectional) => Rule::HelloUnidirectionalStays,
            (false, _) => Rule::HelloUnidirectional,
        });
        let to = if names_us { HelloState::Bidirectional } else { HelloState::Unidirectional };
        self.move_hello(p, to);
    }

    /// A Hello refused with 10 moves its machine to Waiting.
    pub(crate) fn take_malformed_hello(&mut self, p: usize) {
        self.rules.note(Rule::HelloMalformed);
        if self.slot(p).hello == HelloState::Bidirectional {
            self.rules.note(Rule::HelloMalformedLeaves);
        }
        self.move_hello(p, HelloState::Waiting);
    }

    /// At a poll, with more than interval times factor seconds since the
    /// last taken Hello, Unidirectional and Bidirectional go to Waiting.
    pub(crate) fn hello_check(&mut self, p: usize) {
        let slot = self.slot(p);
        let state = slot.hello;
        if state != HelloState::Unidirectional && state != HelloState::Bidirectional {
            return;
        }
        let limit = u32::from(slot.heard.interval) * u32::from(slot.heard.factor);
        let since = self.time - slot.heard.time;
        if since == limit {
            self.rules.note(Rule::HelloAlive);
        }
        if since > limit {
            self.rules.note(match state {
                HelloState::Bidirectional => Rule::HelloDeadBidirectional,
                _ => Rule::HelloDeadUnidirectional,
            });
            self.move_hello(p, HelloState::Waiting);
        }
    }

    /// Our Hello names the peer in the last two states, else receiver
    /// length 0.
    pub(crate) fn our_hello(&mut self, p: usize) -> Vec<u8> {
        let (interval, factor) = (self.settings.interval, self.settings.factor);
        let hello = Hello { interval, factor, additional: Vec::new() };
        let mut message = self.to_peer(p, Body::Hello(hello));
        let state = self.slot(p).hello;
        if state == HelloState::Unidirectional || state == HelloState::Bidirectional {
            self.rules.note(Rule::OurHelloNames);
        } else {
            self.rules.note(Rule::OurHelloNobody);
            message.receiver = None;
        }
        wire::write(&message)
    }
}
