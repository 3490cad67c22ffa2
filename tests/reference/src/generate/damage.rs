//! Packets that are to be refused. All but the last faults leave size and
//! checksum right.

use crate::random::Random;
use crate::wire::{self, CA, CSU_REQUEST, HELLO, MAX_PACKET};

/// Where the common part starts.
fn common(packet: &[u8]) -> usize {
    match packet[1] {
        CA => 12,
        HELLO => 16,
        _ => 8,
    }
}

/// Where the first record starts, if there is one.
fn first_record(packet: &[u8]) -> Option<usize> {
    let at = common(packet);
    let start = at + 12 + 4 + usize::from(packet[at + 9]);
    (packet[1] != HELLO && packet[at + 11] > 0).then_some(start)
}

/// Octets that are ignored when read: they change nothing.
pub fn ignored(packet: &mut [u8], random: &mut Random) {
    let at = common(packet);
    packet[at + 4] = random.draw() as u8;
    packet[at + 7] = random.draw() as u8;
    packet[at + 6] |= random.draw() as u8 & if packet[1] == CA { 0x1F } else { 0xFF };
    if packet[1] == HELLO {
        packet[12..16].copy_from_slice(&[1, 2, 3, random.draw() as u8]);
    }
    if let Some(record) = first_record(packet) {
        packet[record + 6] |= random.draw() as u8 & 0x7F;
        packet[record + 7] = random.draw() as u8;
    }
    wire::fit(packet);
}

/// The unused field of the common part is such that all but the checksum
/// field sums to 0xFFFF: then 0 and 0xFFFF are right there, and nothing else.
pub fn zero_checksum(packet: &mut [u8], random: &mut Random) {
    let unused = common(packet) + 4;
    packet[unused..unused + 2].copy_from_slice(&[0, 0]);
    wire::fit(packet);
    packet.copy_within(4..6, unused);
    let field: u16 = random.of(&[0, 0xFFFF, 0xFFFF, 1, 0xFFFE]);
    packet[4..6].copy_from_slice(&field.to_be_bytes());
}

/// A malformed packet from a good one; sometimes it stays good.
pub fn malform(mut packet: Vec<u8>, random: &mut Random) -> Vec<u8> {
    let is_hello = packet[1] == HELLO;
    match (random.below(4), first_record(&packet)) {
        (0, _) => length_fault(&mut packet, random),
        (1, _) if is_hello => hello_fault(&mut packet, random),
        (1 | 2, Some(record)) => record_fault(&mut packet, record, random),
        (3, Some(record)) => grown_fault(&mut packet, record, random),
        _ => common_fault(&mut packet, random),
    }
    packet.truncate(MAX_PACKET);
    wire::fit(&mut packet);
    packet
}

fn length_fault(packet: &mut Vec<u8>, random: &mut Random) {
    let size = packet.len();
    match random.below(4) {
        0 => packet.truncate(8),
        1 => packet.truncate(size - random.between(1, size - 8)),
        2 => packet.truncate(size - 1),
        _ => packet.extend((0..random.between(1, 6)).map(|n| n as u8)),
    }
}

fn hello_fault(packet: &mut Vec<u8>, random: &mut Random) {
    let at = common(packet);
    let additional = at + 16 + usize::from(packet[at + 9]);
    match random.below(4) {
        0 => packet[8..10].copy_from_slice(&[0, 0]),
        1 => packet[10..12].copy_from_slice(&[0, 0]),
        2 if packet[at + 11] > 0 => packet[additional] = random.of(&[0, 3, 5, 255]),
        _ => {
            packet.truncate(additional);
            packet[at + 11] = 9;
            packet.extend([4, 10, 0, 0, 2].repeat(9));
        }
    }
}

fn common_fault(packet: &mut Vec<u8>, random: &mut Random) {
    let at = common(packet);
    match random.below(5) {
        0 => packet[at + 8] = random.of(&[0, 3, 5, 255]),
        1 => packet[at + 9] = random.of(&[0, 3, 5, 8]),
        2 => packet[at + 11] = packet[at + 11].wrapping_add(random.of(&[1, 255])),
        3 => packet[at + 10] = 1,
        // Receiver length 0 with no receiver.
        _ if packet[at + 9] == 4 => {
            packet[at + 9] = 0;
            packet.drain(at + 16..at + 20);
        }
        _ => packet[at + 8] = 8,
    }
}

fn record_fault(packet: &mut [u8], record: usize, random: &mut Random) {
    let number = record + 8..record + 12;
    match random.below(8) {
        0 => packet[record..record + 2].copy_from_slice(&[0, 0]),
        1 => packet[number].copy_from_slice(&[0x80, 0, 0, 0]),
        2 => packet[record + 6] |= 0x80,
        3 => packet[record + 4] = random.of(&[0, 17, 255]),
        4 => packet[record + 5] = random.of(&[0, 3, 5]),
        5 => packet[record + 3] = packet[record + 3].wrapping_add(random.of(&[1, 255])),
        6 => packet[number].copy_from_slice(&[0x7F, 0xFF, 0xFF, 0xFF]),
        _ => packet[record + 3] = random.of(&[0, 16, 17, 65, 255]),
    }
}

/// Replaces all records by ones whose lengths fit each other but not 01.
fn grown_fault(packet: &mut Vec<u8>, record: usize, random: &mut Random) {
    let at = common(packet);
    packet.truncate(record);
    packet[at + 11] = 1;
    let request = packet[1] == CSU_REQUEST;
    let full = if request { 32 } else { 0 };
    match random.below(6) {
        0 => add_record(packet, 17, 4, 0, 5),
        1 => add_record(packet, 0, 4, 0, 5),
        2 => add_record(packet, 3, 5, 0, 5),
        3 => add_record(packet, 16, 4, full + 1, 5),
        4 if request => add_record(packet, 2, 4, 3, 2147483647),
        _ => {
            packet[at + 11] = 5;
            for _ in 0..5 {
                add_record(packet, 1, 4, 0, 5);
            }
        }
    }
}

fn add_record(packet: &mut Vec<u8>, key: usize, originator: usize, payload: usize, number: i32) {
    let length = 12 + key + originator + payload;
    packet.extend([0, 16]);
    packet.extend((length as u16).to_be_bytes());
    packet.extend([key as u8, originator as u8, 0, 0]);
    packet.extend(number.to_be_bytes());
    packet.extend(vec![b'm'; key + originator + payload]);
}

/// One to three faults for codes 5 to 13, later ones over earlier ones.
/// Gives the packet and the length to say with it.
pub fn refusable(mut packet: Vec<u8>, random: &mut Random) -> (Vec<u8>, u16) {
    for _ in 0..random.of(&[1, 1, 1, 2, 3]) {
        field_fault(&mut packet, random);
    }
    wire::fit(&mut packet);
    if random.percent(20) {
        let at = random.below(packet.len());
        packet[at] ^= 1 << random.below(8);
    }
    let size = packet.len() as u16;
    let length = match random.below(12) {
        0 => random.of(&[0, 7, 8, 284, 285, 65535]),
        1 => size - 1,
        2 => size + 1,
        _ => size,
    };
    (packet, length)
}

/// Another version, type, start of extensions, group, receiver or sender.
fn field_fault(packet: &mut [u8], random: &mut Random) {
    let at = common(packet);
    if packet.len() < at + 20 {
        packet[random.of(&[0, 1, 7])] ^= 2;
        return;
    }
    match random.below(8) {
        0 => packet[0] = random.of(&[0, 2, 255]),
        1 => packet[1] = random.of(&[0, 6, 255]),
        2 => packet[7] = random.of(&[8, 28, 255]),
        3 => packet[at + 1] ^= 1,
        4 => packet[at + 3] ^= 4,
        5 if packet[at + 9] == 4 => {
            let other = random.of(&[[255; 4], [10, 0, 0, 77], [0; 4]]);
            packet[at + 16..at + 20].copy_from_slice(&other);
        }
        6 => packet[at + 15] ^= 0x55,
        _ => {}
    }
}
