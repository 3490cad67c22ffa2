//! What can happen next, in the hands of the random numbers.

use super::craft::{key, Craft, Summaries, POOL};
use super::damage;
use super::world::World;
use crate::replay::{ADD_PEER, DOWN, PACKET, POLL, PURGE, SET, SETTINGS, UP, WITHDRAW};
use crate::server::{Alignment, HelloState};
use crate::wire::{self, Body};

#[derive(Clone, Copy, PartialEq, Eq, Debug)]
pub enum Act {
    /// What helps a slot along.
    Steer,
    Poll,
    /// Time goes by, then a poll.
    Later,
    /// A poll at the end of the peer's dead time, or one second on.
    Limit,
    Hello,
    BadHello,
    Ca,
    /// The last CA taken once more.
    Again,
    Update,
    /// Four new entries.
    Fill,
    /// A CSU Request with what the requests ask for.
    Asked,
    Reply,
    /// A CSU Reply for rows that wait.
    ReplyWaiting,
    Solicit,
    Set,
    SetNew,
    Withdraw,
    Purge,
    Up,
    Down,
    /// A packet that came before, for the slot it came to.
    Repeat,
    Refuse,
    /// A poll or link event one second before the server's time.
    Early,
    Malform,
    /// A packet whose checksum is 0, with a right field or a wrong one.
    Zero,
    /// Bad lengths, other kinds, bad peers.
    Bad,
    /// From the post, with loss, repeats, another order, damage.
    Deliver,
}

impl World {
    pub fn act(&mut self, act: Act) {
        let slot = self.some_slot();
        let time = self.time;
        match act {
            Act::Steer => self.steer(slot, Summaries::Any, None),
            Act::Poll => self.poll(slot),
            Act::Later => {
                let seconds = self.random.of(self.flavour.steps);
                self.wait(seconds);
                self.poll(slot);
            }
            Act::Limit => self.limit(slot),
            Act::Repeat => self.repeat(),
            Act::Refuse => self.refuse(slot),
            Act::Early => {
                let kind = self.random.of(&[POLL, POLL, UP, DOWN]);
                let before = self.server().time.saturating_sub(1);
                self.event(kind, slot, 0, before, &[]);
            }
            Act::Bad => self.bad(),
            Act::Deliver => self.deliver(),
            Act::Up => _ = self.event(UP, slot, 0, time, &[]),
            Act::Down => _ = self.event(DOWN, slot, 0, time, &[]),
            Act::Set | Act::SetNew | Act::Withdraw | Act::Purge => self.own_act(act),
            _ => self.speak(act, slot),
        }
    }

    /// A well formed or malformed packet in the name of the slot's peer.
    fn speak(&mut self, act: Act, slot: u8) {
        if act == Act::BadHello && self.random.percent(40) {
            self.wait(2);
        }
        let names_us = self.random.percent(75);
        let mut craft = self.craft(slot);
        let message = match act {
            Act::Hello | Act::BadHello => craft.hello(names_us),
            Act::Ca => craft.any_ca(),
            Act::Again => craft.duplicate_ca(),
            Act::Malform | Act::Zero => craft.any(),
            _ => {
                let body = match act {
                    Act::Update => Body::CsuRequest(craft.some(Craft::update)),
                    Act::Fill => Body::CsuRequest(craft.four_fresh()),
                    Act::Asked => Body::CsuRequest(craft.asked()),
                    Act::Reply => Body::CsuReply(craft.some(Craft::summary)),
                    Act::ReplyWaiting => Body::CsuReply(craft.waiting()),
                    _ => Body::Csus(craft.some(Craft::summary)),
                };
                craft.message(body)
            }
        };
        if act == Act::BadHello || act == Act::Malform {
            let octets = damage::malform(wire::write(&message), &mut self.random);
            self.packet(slot, &octets);
        } else if act == Act::Zero {
            let mut octets = wire::write(&message);
            damage::zero_checksum(&mut octets, &mut self.random);
            self.packet(slot, &octets);
        } else {
            self.say(slot, &message);
        }
    }

    /// What helps the slot along; `more` is the O bit of a CA.
    pub fn steer(&mut self, slot: u8, summaries: Summaries, more: Option<bool>) {
        let Some(state) = &self.server().slots[usize::from(slot)] else { return };
        let (hello, alignment) = (state.hello, state.alignment);
        if hello == HelloState::Down {
            self.event(UP, slot, 0, self.time, &[]);
            return;
        }
        if hello != HelloState::Bidirectional {
            let message = self.craft(slot).hello(true);
            return self.say(slot, &message);
        }
        let o = more.unwrap_or_else(|| self.random.percent(40));
        let mut craft = self.craft(slot);
        let message = match alignment {
            Alignment::Update(_) => {
                let asked = craft.asked();
                craft.message(Body::CsuRequest(asked))
            }
            Alignment::Aligned(_) => {
                let waiting = craft.waiting();
                craft.message(Body::CsuReply(waiting))
            }
            _ => craft.right_ca(summaries, o),
        };
        self.say(slot, &message);
    }

    fn limit(&mut self, slot: u8) {
        let Some(state) = &self.server().slots[usize::from(slot)] else { return };
        let heard = state.heard;
        let limit = u32::from(heard.interval) * u32::from(heard.factor);
        let end = heard.time.saturating_add(limit);
        let on = self.random.of(&[0, 1, 1]);
        self.time = self.time.max(end.saturating_add(on));
        self.poll(slot);
    }

    fn repeat(&mut self) {
        if !self.past.is_empty() {
            let at = self.random.below(self.past.len());
            let (slot, octets) = self.past[at].clone();
            self.packet(slot, &octets);
        }
    }

    fn own_act(&mut self, act: Act) {
        let mut name = key(self.random.below(POOL as usize) as u32);
        let slot = self.some_slot();
        let own: Vec<_> = {
            let us = self.server().settings.id;
            self.server().rows.iter().flatten().filter(|row| row.originator == us).collect()
        };
        let own: Vec<_> = own.iter().map(|row| row.key).collect();
        let known = self.random.percent(70) && act != Act::SetNew;
        if known && !own.is_empty() {
            name = self.random.of(&own);
        }
        if act == Act::SetNew {
            name = self.craft(slot).fresh_key();
        }
        let mut payload = self.craft(slot).payload();
        let held = self.server().find(&name, self.server().settings.id);
        if let (Some(r), true) = (held, self.random.percent(15)) {
            payload = self.server().rows[r].map_or(payload, |row| row.payload);
        }
        match act {
            Act::Withdraw => self.own(WITHDRAW, name.part(), &[]),
            Act::Purge => self.own(PURGE, name.part(), &[]),
            _ => self.own(SET, name.part(), payload.part()),
        }
    }

    /// An event for one of the codes 1 to 14, or for several at once.
    fn refuse(&mut self, slot: u8) {
        let kind = self.random.of(&[PACKET, PACKET, PACKET, PACKET, POLL, UP, DOWN]);
        let mut to = slot;
        if self.random.percent(15) {
            to = self.random.of(&[0, 1, 2, 3, 4, 5, 6, 7, 8, 9, 255]);
        }
        let mut time = self.time;
        if self.random.percent(15) {
            time = self.random.of(&[0, time.saturating_sub(1)]);
        }
        if kind != PACKET {
            // Without another fault it would only be taken.
            let refused = to != slot || time < self.time;
            let kind = if refused { kind } else { POLL };
            self.event(kind, to, 0, time, &[]);
            return;
        }
        let message = self.craft(slot).any();
        let mut octets = wire::write(&message);
        if self.random.percent(15) {
            octets = damage::malform(octets, &mut self.random);
        }
        let (octets, length) = damage::refusable(octets, &mut self.random);
        self.event(PACKET, to, length, time, &octets);
    }

    fn bad(&mut self) {
        let id = self.server().settings.id;
        let slot = self.some_slot();
        let peer = self.peers[0].id;
        let time = self.time;
        let data = [b'z'; 80];
        let key_length = self.random.of(&[0, 17, 255]);
        let kind = self.random.of(&[SET, WITHDRAW, PURGE]);
        let (kind, slot, length, data) = match self.random.below(9) {
            0 | 1 => (kind, key_length, 1, &data[..]),
            2 => (SET, 1, 0, &data[..]),
            3 => (SET, 16, self.random.of(&[33, 269, 65535]), &data[..]),
            4 => (SETTINGS, 0, 0, &data[..]),
            5 => (self.random.of(&[9, 10, 128, 255]), slot, 0, &data[..]),
            6 => (ADD_PEER, self.random.of(&[8, 9, 255]), 0, &data[..]),
            7 => (ADD_PEER, slot, 0, &data[..]),
            _ => {
                let slot = self.random.below(8) as u8;
                let id = self.random.of(&[id, peer]);
                self.event(ADD_PEER, slot, 0, time, &id);
                return;
            }
        };
        self.event(kind, slot, length, time, data);
    }

    fn deliver(&mut self) {
        let here: Vec<usize> =
            (0..self.post.len()).filter(|at| self.post[*at].to.is_none()).collect();
        if here.is_empty() {
            return self.act(Act::Later);
        }
        let first = self.random.percent(85);
        let at = if first { here[0] } else { self.random.of(&here) };
        let (slot, mut octets) = (self.post[at].slot, self.post[at].octets.clone());
        if !self.random.percent(8) {
            self.post.remove(at);
        }
        if self.random.percent(self.flavour.loss) {
            return;
        }
        if self.random.percent(2) {
            let at = self.random.below(octets.len());
            octets[at] ^= 1 << self.random.below(8);
        }
        self.packet(slot, &octets);
    }
}
