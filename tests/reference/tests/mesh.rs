//! Four servers that lose nothing come to hold the same entries.

use reference::answer::Code;
use reference::server::*;
use reference::wire::{Id, MAX_PACKET};

const IDS: [Id; 4] = [[10, 0, 0, 1], [10, 0, 0, 2], [128, 0, 0, 1], [9, 255, 255, 255]];

/// Slot n of each server is the server n.
fn mesh() -> Vec<Server> {
    let settings = |id| Settings { id, protocol: 2, group: 7, interval: 3, factor: 3 };
    let mut servers: Vec<Server> =
        IDS.iter().map(|id| Server::new(settings(*id)).unwrap()).collect();
    for (at, server) in servers.iter_mut().enumerate() {
        for (other, id) in IDS.iter().enumerate().filter(|(other, _)| *other != at) {
            assert_eq!(server.add_peer(other as u8, *id), Code::Taken);
            assert_eq!(server.link_up(other as u8, 0), Code::Taken);
        }
        for n in 0..7 + at as u8 {
            assert_eq!(server.set(&[n + 1], &[at as u8 + 1, n]), Code::Taken);
        }
    }
    servers
}

/// Every server polls every slot; each packet is answered at once.
fn round(servers: &mut [Server], time: u32) {
    for from in 0..servers.len() {
        for to in (0..servers.len()).filter(|to| *to != from) {
            let mut out = [0; MAX_PACKET];
            let answer = servers[from].poll(to as u8, time, &mut out);
            let (mut from, mut to, mut packet) = (from, to, out[..answer.written].to_vec());
            while !packet.is_empty() {
                let answer = servers[to].packet(from as u8, time, &packet, &mut out);
                packet = out[..answer.written].to_vec();
                std::mem::swap(&mut from, &mut to);
            }
        }
    }
}

fn entries(server: &Server) -> Vec<(Vec<u8>, Id, i32, Vec<u8>)> {
    let rows = server.rows.iter().flatten();
    let mut list: Vec<_> = rows
        .map(|row| {
            let (key, payload) = (row.key.part().to_vec(), row.payload.part().to_vec());
            (key, row.originator, row.number.0, payload)
        })
        .collect();
    list.sort();
    list
}

#[test]
fn servers_come_to_agree() {
    let mut servers = mesh();
    for time in 0..60 {
        round(&mut servers, time);
    }
    for server in &servers {
        for slot in server.slots.iter().flatten() {
            assert!(matches!(slot.alignment, Alignment::Aligned(_)));
        }
        assert_eq!(entries(server), entries(&servers[0]));
        assert!(!server.rows.iter().flatten().any(|row| row.waits.contains(&true)));
    }
    assert_eq!(servers[0].rows_used(), 7 + 8 + 9 + 10);
    for n in 0..7 {
        assert_eq!(servers[0].purge(&[n + 1]), Code::Taken);
        assert_eq!(servers[1].withdraw(&[n + 1]), Code::Taken);
    }
    for time in 60..90 {
        round(&mut servers, time);
    }
    for server in &servers {
        assert_eq!(entries(server), entries(&servers[0]));
        assert_eq!(server.rows_used(), 8 + 9 + 10);
    }
}
