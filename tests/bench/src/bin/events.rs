//! Nanoseconds for each kind of event: the server, linked as a static library, against the reference's, on the same lists in one run.
//! A list is a beginning that brings the server into the state, then one event, or a pair, some thousand times; the time of the beginning is
//! taken off. Both sides must end with the same number of rows.

use reference::answer::Code;
use reference::replay::{Event, ADD_PEER, DOWN, PACKET, POLL, PURGE, SET, SETTINGS, UP, WITHDRAW};
use reference::server::{Server, Settings};
use std::time::{Duration, Instant};

extern "C" {
    fn wemelstuif_run(input: *const u8, length: usize) -> u32;
}

const COUNT: usize = 5_000;
const RUNS: usize = 15;
const RECORD: usize = 292;
/// Between two Hellos: longer than the lists last.
const INTERVAL: u32 = 60_000;
const LOW: [u8; 4] = [10, 0, 0, 1];
const HIGH: [u8; 4] = [10, 0, 0, 2];

fn settings(id: [u8; 4]) -> Settings {
    Settings { id, protocol: 2, group: 7, interval: INTERVAL as u16, factor: 60000 }
}

/// A server and the records that led to it.
#[derive(Clone)]
struct List {
    server: Server,
    file: Vec<u8>,
}

/// How many octets were written, and whether the event was taken.
fn apply(server: &mut Server, record: &[u8], out: &mut [u8; 284]) -> (usize, bool) {
    let (slot, length) = (record[1], usize::from(u16::from_be_bytes([record[2], record[3]])));
    let time = u32::from_be_bytes([record[4], record[5], record[6], record[7]]);
    let data = &record[8..];
    let code = match record[0] {
        UP => server.link_up(slot, time),
        DOWN => server.link_down(slot, time),
        PACKET => {
            let answer = server.packet(slot, time, &data[..length], out);
            return (answer.written, answer.code == Code::Taken);
        }
        POLL => {
            let answer = server.poll(slot, time, out);
            return (answer.written, answer.code == Code::Taken);
        }
        SET => server.set(&data[..usize::from(slot)], &data[16..16 + length]),
        WITHDRAW => server.withdraw(&data[..usize::from(slot)]),
        PURGE => server.purge(&data[..usize::from(slot)]),
        _ => server.add_peer(slot, [data[0], data[1], data[2], data[3]]),
    };
    (0, code == Code::Taken)
}

impl List {
    fn new(id: [u8; 4], peer: [u8; 4]) -> Self {
        let mut data = id.to_vec();
        for n in [2u16, 7, INTERVAL as u16, 60000] {
            data.extend(n.to_be_bytes());
        }
        let file = Event::new(SETTINGS, 0, 0, 0, &data).write().to_vec();
        let mut list = List { server: Server::new(settings(id)).expect("good settings"), file };
        list.event(ADD_PEER, 0, 0, 0, &peer);
        list.event(UP, 0, 0, 0, &[]);
        list
    }

    fn event(&mut self, kind: u8, slot: u8, length: usize, time: u32, data: &[u8]) -> Vec<u8> {
        let record = Event::new(kind, slot, length as u16, time, data).write();
        self.file.extend(record);
        let mut out = [0; 284];
        let (n, _) = apply(&mut self.server, &record, &mut out);
        out[..n].to_vec()
    }

    fn packet(&mut self, time: u32, packet: &[u8]) -> Vec<u8> {
        self.event(PACKET, 0, packet.len(), time, packet)
    }

    fn own(&mut self, kind: u8, key: &[u8], payload: &[u8]) {
        let mut data = [0; 48];
        data[..key.len()].copy_from_slice(key);
        data[16..16 + payload.len()].copy_from_slice(payload);
        self.event(kind, key.len() as u8, payload.len(), 0, &data);
    }
}

/// A packet of ours to them, each answer answered until there is none.
fn answered(us: &mut List, them: &mut List, time: u32, mut packet: Vec<u8>) {
    let mut theirs = true;
    while !packet.is_empty() {
        packet = if theirs { them.packet(time, &packet) } else { us.packet(time, &packet) };
        theirs = !theirs;
    }
}

/// Two servers that poll each other some times in a second.
fn talk(us: &mut List, them: &mut List, time: u32) {
    for _ in 0..4 {
        let packet = us.event(POLL, 0, 0, time, &[]);
        answered(us, them, time, packet);
        let packet = them.event(POLL, 0, 0, time, &[]);
        answered(them, us, time, packet);
    }
}

fn key(n: u8) -> [u8; 8] {
    [n, 1, 2, 3, 4, 5, 6, 7]
}

/// Two servers in step, ours with the greater ID or not, with some entries each.
fn aligned(ours: [u8; 4], peer: [u8; 4], rows: u8) -> (List, List) {
    let (mut us, mut them) = (List::new(ours, peer), List::new(peer, ours));
    for n in 0..rows {
        us.own(SET, &key(n), &[n; 16]);
        them.own(SET, &key(n), &[n; 16]);
    }
    talk(&mut us, &mut them, 0);
    for time in 0..30 {
        talk(&mut us, &mut them, INTERVAL + time);
    }
    (us, them)
}

/// The list, and the same with events behind it.
fn kinds() -> Vec<(&'static str, usize, List, List)> {
    let mut all = Vec::new();
    let mut add = |name, start: &List, more: &mut dyn FnMut(&mut List, usize)| {
        let mut list = start.clone();
        for i in 0..COUNT {
            more(&mut list, i);
        }
        let mut taken = 0;
        let mut server = start.server.clone();
        let mut out = [0; 284];
        for record in list.file[start.file.len()..].chunks(RECORD) {
            taken += usize::from(apply(&mut server, record, &mut out).1);
        }
        all.push((name, taken, start.clone(), list));
    };
    let (us, them) = aligned(HIGH, LOW, 8);
    let now = INTERVAL + 40;
    add("poll, nothing due", &us, &mut |list, _| drop(list.event(POLL, 0, 0, now, &[])));
    let mut waiting = us.clone();
    for n in 0..8 {
        waiting.own(SET, &key(n), &[1; 16]);
    }
    add("poll, update request of four", &waiting, &mut |list, i| drop(list.event(POLL, 0, 0, now + i as u32, &[])));
    let mut peer = them.clone();
    let hello = {
        let mut fresh = List::new(LOW, HIGH);
        fresh.event(POLL, 0, 0, 0, &[])
    };
    add("packet: Hello", &us, &mut |list, _| drop(list.packet(now, &hello)));
    add("packet: update request of four, stored", &us, &mut |list, i| {
        for n in 0..4 {
            peer.own(SET, &key(n), &[i as u8; 16]);
        }
        let packet = peer.event(POLL, 0, 0, now + i as u32, &[]);
        let reply = list.packet(now + i as u32, &packet);
        peer.packet(now + i as u32, &reply);
    });
    let mut peer = them.clone();
    for n in 0..4 {
        peer.own(SET, &key(n), &[9; 16]);
    }
    let request = peer.event(POLL, 0, 0, now, &[]);
    add("packet: update request of four, equal", &us, &mut |list, _| drop(list.packet(now, &request)));
    let (mut sender, mut answerer) = (us.clone(), them.clone());
    for n in 0..4 {
        sender.own(SET, &key(n), &[9; 16]);
    }
    let update = sender.event(POLL, 0, 0, now, &[]);
    let reply = answerer.packet(now, &update);
    add("packet: reply of four", &sender, &mut |list, _| drop(list.packet(now, &reply)));
    let (mut slave, mut master) = (List::new(LOW, HIGH), List::new(HIGH, LOW));
    for n in 0..8 {
        slave.own(SET, &key(n), &[n; 16]);
    }
    for time in [0, INTERVAL] {
        for _ in 0..2 {
            let packet = slave.event(POLL, 0, 0, time, &[]);
            master.packet(time, &packet);
            let packet = master.event(POLL, 0, 0, time, &[]);
            if packet.get(1) == Some(&1) {
                continue;
            }
            slave.packet(time, &packet);
        }
    }
    let ca = master.event(POLL, 0, 0, INTERVAL + 5, &[]);
    slave.packet(INTERVAL + 5, &ca);
    add("packet: CA again", &slave, &mut |list, _| drop(list.packet(INTERVAL + 6, &ca)));
    let mut damaged = request.clone();
    damaged[9] ^= 1;
    add("packet: refused, checksum", &us, &mut |list, _| drop(list.packet(now, &damaged)));
    add("set", &us, &mut |list, i| list.own(SET, &key(3), &[i as u8; 16]));
    let down = {
        let mut list = us.clone();
        list.event(DOWN, 0, 0, now, &[]);
        list
    };
    add("set and withdraw", &us, &mut |list, i| list.own(if i % 2 == 0 { SET } else { WITHDRAW }, &key(3), &[7; 16]));
    add("set and purge", &down, &mut |list, i| list.own(if i % 2 == 0 { SET } else { PURGE }, &key(30), &[7; 16]));
    add("link down and up", &us, &mut |list, i| drop(list.event(if i % 2 == 0 { DOWN } else { UP }, 0, 0, now, &[])));
    add("add peer, refused", &us, &mut |list, _| drop(list.event(ADD_PEER, 0, 0, 0, &LOW)));
    all
}

fn ours(file: &[u8]) -> (u32, Duration) {
    let start = Instant::now();
    let rows = unsafe { wemelstuif_run(file.as_ptr(), file.len()) };
    (rows, start.elapsed())
}

fn theirs(file: &[u8], id: [u8; 4]) -> (u32, Duration) {
    let start = Instant::now();
    let mut server = Server::new(settings(id)).expect("good settings");
    let mut out = [0; 284];
    let mut sum = 0;
    for record in file[RECORD..].chunks(RECORD) {
        sum += apply(&mut server, record, &mut out).0;
    }
    std::hint::black_box((sum, out));
    (server.rows_used() as u32, start.elapsed())
}

/// Peers taken: only eight can be, so a list of settings and eight is run some thousand times, and one of settings alone.
fn adding() {
    let start = List { server: Server::new(settings(HIGH)).expect("good settings"), file: List::new(HIGH, LOW).file[..RECORD].to_vec() };
    let mut all = start.clone();
    for slot in 0..8 {
        all.event(ADD_PEER, slot, 0, 0, &[10, 1, 0, slot]);
    }
    let mut least = [[Duration::MAX; 2]; 2];
    for _ in 0..RUNS {
        for (which, list) in [&start, &all].into_iter().enumerate() {
            let (mut a, mut b) = (Duration::ZERO, Duration::ZERO);
            for _ in 0..COUNT {
                a += ours(&list.file).1;
                b += theirs(&list.file, HIGH).1;
            }
            least[0][which] = least[0][which].min(a);
            least[1][which] = least[1][which].min(b);
        }
    }
    let [o, t] = least.map(|[start, all]| all.saturating_sub(start).as_secs_f64() * 1e9 / (8 * COUNT) as f64);
    println!("add peer, taken (8 of 8 taken): {o:.0} ns against {t:.0} ns, ratio {:.2}", o / t);
}

fn main() {
    adding();
    for (name, taken, start, all) in kinds() {
        let id = all.server.settings.id;
        let mut least = [[Duration::MAX; 2]; 2];
        for _ in 0..RUNS {
            for (which, list) in [&start, &all].into_iter().enumerate() {
                let (a, b) = (ours(&list.file), theirs(&list.file, id));
                assert_eq!(a.0, b.0, "{name}: both end with the same rows");
                least[0][which] = least[0][which].min(a.1);
                least[1][which] = least[1][which].min(b.1);
            }
        }
        let [o, t] = least.map(|[start, all]| all.saturating_sub(start).as_secs_f64() * 1e9 / COUNT as f64);
        println!("{name} ({taken} of {COUNT} taken): {o:.0} ns against {t:.0} ns, ratio {:.2}", o / t);
    }
}
