//! Random replay files: a server under test and its peers.

pub mod act;
mod craft;
mod damage;
pub mod flavour;
pub mod kinds;
mod world;

use crate::replay::{SET, UP};
use crate::server::{Alignment, HelloState};
use act::Act;
use craft::{key, Summaries};
use flavour::{Flavour, Goal};
use kinds::KINDS;
use world::World;

/// A replay file of `count` events; none for a kind that is not known.
pub fn list(seed: u64, count: usize, kind: &str) -> Option<Vec<u8>> {
    let flavour = KINDS.iter().find(|flavour| flavour.name == kind)?;
    if count == 0 {
        return Some(Vec::new());
    }
    let mut world = World::new(seed, count, flavour);
    world.begin();
    world.prepare();
    while !world.full() {
        world.peers_live();
        let act = world.random.weighed(flavour.acts);
        world.act(act);
    }
    Some(world.file)
}

impl World {
    /// Entries of ours, links up, and made up peers brought to the goal.
    fn prepare(&mut self) {
        let rows = self.flavour.rows;
        for n in 0..self.random.between(rows.0, rows.1) {
            self.own(SET, key(n as u32).part(), &[n as u8]);
        }
        for at in 0..self.peers.len() {
            let (slot, time) = (self.peers[at].slot, self.time);
            if self.flavour.goal != Goal::Nothing || self.peers[at].server.is_some() {
                self.event(UP, slot, 0, time, &[]);
            }
            if self.random.percent(40) {
                self.poll(slot);
            }
            if self.peers[at].server.is_none() {
                self.fill(slot);
            }
        }
    }

    /// To the goal, with packets of four new entries: summaries on the way
    /// to Summarize and Update, update requests once Aligned.
    fn fill(&mut self, slot: u8) {
        let Flavour { goal, filled, .. } = *self.flavour;
        if goal != Goal::Aligned && filled > 0 {
            self.reach(slot, Goal::Summarize);
            for _ in 0..filled {
                self.steer(slot, Summaries::Fresh(4), Some(true));
            }
        }
        self.reach(slot, goal);
        if goal == Goal::Aligned && self.server().rows_used() < 4 * filled {
            for _ in 0..filled {
                self.act(Act::Fill);
            }
        }
    }

    fn reach(&mut self, slot: u8, goal: Goal) {
        let summaries = match goal {
            Goal::Update => Summaries::Fresh(3),
            _ => Summaries::Nothing,
        };
        for _ in 0..12 {
            let Some(state) = &self.server().slots[usize::from(slot)] else { return };
            let there = match goal {
                Goal::Nothing => true,
                Goal::Up => state.hello != HelloState::Down,
                Goal::Negotiate => state.alignment == Alignment::Negotiate,
                Goal::Summarize => matches!(state.alignment, Alignment::Summarize(_)),
                Goal::Update => matches!(state.alignment, Alignment::Update(_)),
                Goal::Aligned => matches!(state.alignment, Alignment::Aligned(_)),
            };
            if there || self.full() {
                return;
            }
            self.steer(slot, summaries, Some(false));
        }
    }
}
