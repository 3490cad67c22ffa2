//! The server under test, its peers, and the post between them. Some peers
//! are servers of their own; the others are made up from the state of the
//! server under test. Only its events are recorded.

use super::craft::{key, Craft};
use super::damage;
use super::flavour::{Flavour, Side};
use crate::random::Random;
use crate::replay::{self, Event, Line, Replay};
use crate::server::{Server, Settings, SLOTS};
use crate::wire::{self, Id, Message, MAX_PACKET};

pub struct Peer {
    pub slot: u8,
    pub id: Id,
    pub server: Option<Server>,
}

/// A packet under way to the server under test (none) or to a peer.
pub struct Parcel {
    pub to: Option<usize>,
    pub slot: u8,
    pub octets: Vec<u8>,
}

pub struct World {
    pub random: Random,
    pub flavour: &'static Flavour,
    pub replay: Replay,
    pub file: Vec<u8>,
    pub count: usize,
    pub time: u32,
    pub peers: Vec<Peer>,
    pub post: Vec<Parcel>,
    pub fresh: u32,
    /// Packets that came before, to come again.
    pub past: Vec<(u8, Vec<u8>)>,
}

impl World {
    pub fn new(seed: u64, count: usize, flavour: &'static Flavour) -> Self {
        let mut random = Random::new(seed.wrapping_mul(0x1_0001) ^ flavour.seed());
        let time = random.of(flavour.start);
        World {
            random,
            flavour,
            replay: Replay::default(),
            file: Vec::new(),
            count,
            time,
            peers: Vec::new(),
            post: Vec::new(),
            fresh: 0,
            past: Vec::new(),
        }
    }

    pub fn full(&self) -> bool {
        self.replay.events >= self.count
    }

    pub fn server(&self) -> &Server {
        self.replay.server.as_ref().expect("settings came first")
    }

    /// One recorded event; what it writes goes into the post.
    pub fn event(
        &mut self,
        kind: u8,
        slot: u8,
        length: u16,
        time: u32,
        data: &[u8],
    ) -> Option<Line> {
        if self.full() {
            return None;
        }
        let event = Event::new(kind, slot, length, time, data);
        let line = self.replay.event(&event)?;
        self.file.extend(event.write());
        self.time = self.time.max(self.server().time);
        let to = self.peers.iter().position(|peer| peer.slot == slot && peer.server.is_some());
        if to.is_some() && !line.written.is_empty() && !self.random.percent(self.flavour.loss) {
            self.post.push(Parcel { to, slot: 0, octets: line.written.clone() });
        }
        Some(line)
    }

    /// Now, or a little ahead: if it is refused, the time stays.
    pub fn packet(&mut self, slot: u8, octets: &[u8]) {
        self.past.push((slot, octets.to_vec()));
        if self.past.len() > 64 {
            self.past.remove(0);
        }
        let ahead = if self.random.percent(12) { self.random.of(&[1, 2, 5]) } else { 0 };
        let time = self.time.saturating_add(ahead);
        self.event(replay::PACKET, slot, octets.len() as u16, time, octets);
    }

    /// A made up message, sometimes with ignored octets set.
    pub fn say(&mut self, slot: u8, message: &Message) {
        let mut octets = wire::write(message);
        if self.random.percent(10) {
            damage::ignored(&mut octets, &mut self.random);
        }
        self.packet(slot, &octets);
    }

    pub fn poll(&mut self, slot: u8) {
        let time = self.time;
        self.event(replay::POLL, slot, 0, time, &[]);
    }

    pub fn craft(&mut self, slot: u8) -> Craft<'_> {
        Craft {
            server: self.replay.server.as_ref().expect("settings came first"),
            slot: usize::from(slot),
            flavour: self.flavour,
            random: &mut self.random,
            fresh: &mut self.fresh,
        }
    }

    /// Set, withdraw or purge of a key.
    pub fn own(&mut self, kind: u8, key: &[u8], payload: &[u8]) {
        let mut data = [0; 48];
        data[..key.len()].copy_from_slice(key);
        data[16..16 + payload.len()].copy_from_slice(payload);
        self.event(kind, key.len() as u8, payload.len() as u16, 0, &data);
    }

    /// Some slot with a peer.
    pub fn some_slot(&mut self) -> u8 {
        let at = self.random.below(self.peers.len());
        self.peers[at].slot
    }

    pub fn wait(&mut self, seconds: u32) {
        self.time = self.time.saturating_add(seconds);
    }

    /// Settings and peers; the servers among the peers know each other.
    pub fn begin(&mut self) {
        let puppets = self.random.between(self.flavour.puppets.0, self.flavour.puppets.1);
        let servers = self.random.between(self.flavour.servers.0, self.flavour.servers.1);
        let settings = self.settings();
        let Settings { id, protocol, group, interval, factor } = settings;
        let mut data = id.to_vec();
        for number in [protocol, group, interval, factor] {
            data.extend(number.to_be_bytes());
        }
        self.event(replay::SETTINGS, 0, 0, 0, &data);
        let ids = self.peer_ids(puppets + servers);
        for (at, id) in ids.iter().enumerate() {
            let slot = self.free_slot();
            let real = Settings { id: *id, interval: self.random.of(&[2, 3, 5]), ..settings };
            let server = if at < servers { Server::new(real).ok() } else { None };
            self.peers.push(Peer { slot, id: *id, server });
            self.event(replay::ADD_PEER, slot, 0, 0, id);
        }
        self.acquaint(id);
    }

    fn settings(&mut self) -> Settings {
        let id = [[10, 0, 0, 2], [128, 0, 0, 1], [10, 1, 0, 0]];
        Settings {
            id: self.random.of(&id),
            protocol: self.random.of(&[2, 0x0102]),
            group: self.random.of(&[7, 0xFF00]),
            interval: self.random.of(self.flavour.our_interval),
            factor: 3,
        }
    }

    /// IDs beside ours, as octets.
    fn peer_ids(&mut self, count: usize) -> Vec<Id> {
        let id = self.server().settings.id;
        let lower = [[10, 0, 0, 1], [9, 255, 255, 255], [10, 0, 0, 0], [1, 200, 3, 4]];
        let higher = [[128, 0, 0, 2], [255, 0, 0, 0], [129, 0, 0, 0], [200, 1, 1, 1]];
        let mut ids = Vec::new();
        while ids.len() < count {
            let below = match self.flavour.side {
                Side::Lower => false,
                Side::Higher => true,
                Side::Either => self.random.percent(50),
            };
            let new = if below { self.random.of(&lower) } else { self.random.of(&higher) };
            if new != id && !ids.contains(&new) {
                ids.push(new);
            }
        }
        ids
    }

    fn free_slot(&mut self) -> u8 {
        loop {
            let slot = self.random.below(SLOTS) as u8;
            if !self.peers.iter().any(|peer| peer.slot == slot) {
                return slot;
            }
        }
    }

    /// At each server among the peers, slot 0 is the server under test and
    /// slot 1 + n the peer n; links come up and a few entries are set.
    fn acquaint(&mut self, id: Id) {
        let ids: Vec<Id> = self.peers.iter().map(|peer| peer.id).collect();
        let real: Vec<bool> = self.peers.iter().map(|peer| peer.server.is_some()).collect();
        let (time, rows) = (self.time, self.flavour.rows);
        for at in 0..self.peers.len() {
            let Some(server) = &mut self.peers[at].server else { continue };
            server.add_peer(0, id);
            server.link_up(0, time);
            for other in (0..ids.len()).filter(|other| *other != at && real[*other]) {
                server.add_peer(1 + other as u8, ids[other]);
                server.link_up(1 + other as u8, time);
            }
            for n in 0..self.random.between(rows.0, rows.1) {
                server.set(key(n as u32 + 3).part(), &[at as u8, n as u8]);
            }
        }
    }

    /// The peers' servers poll, change entries and read their post.
    pub fn peers_live(&mut self) {
        for at in 0..self.peers.len() {
            self.peer_lives(at);
            self.carry();
        }
    }

    fn peer_lives(&mut self, at: usize) {
        let slots = self.peers.len() as u8;
        let peer = &mut self.peers[at];
        let Some(server) = &mut peer.server else { return };
        if self.random.percent(8) {
            let key = key(self.random.below(6) as u32);
            match self.random.below(6) {
                0 => server.purge(key.part()),
                1 => server.withdraw(key.part()),
                _ => server.set(key.part(), &[self.random.draw() as u8]),
            };
        }
        for slot in 0..=slots {
            if self.random.percent(50) {
                let mut out = [0; MAX_PACKET];
                let answer = server.poll(slot, self.time, &mut out);
                send(&mut self.post, peer.slot, at, slot, &out[..answer.written]);
            }
        }
    }

    /// Delivers what is under way to peers, and what follows between them.
    fn carry(&mut self) {
        for _ in 0..40 {
            let Some(next) = self.post.iter().position(|parcel| parcel.to.is_some()) else {
                return;
            };
            let parcel = self.post.remove(next);
            let at = parcel.to.unwrap_or(0);
            let peer = &mut self.peers[at];
            let Some(server) = &mut peer.server else { continue };
            let mut out = [0; MAX_PACKET];
            let answer = server.packet(parcel.slot, self.time, &parcel.octets, &mut out);
            send(&mut self.post, peer.slot, at, parcel.slot, &out[..answer.written]);
        }
    }
}

/// What the peer `at` wrote in one of its slots.
fn send(post: &mut Vec<Parcel>, under_test: u8, at: usize, slot: u8, octets: &[u8]) {
    if octets.is_empty() {
        return;
    }
    if post.len() > 64 {
        post.remove(0);
    }
    let octets = octets.to_vec();
    post.push(match slot {
        0 => Parcel { to: None, slot: under_test, octets },
        _ => Parcel { to: Some(usize::from(slot) - 1), slot: 1 + at as u8, octets },
    });
}
