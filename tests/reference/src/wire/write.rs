//! Writing a packet. Unused fields, Family ID and undefined flags are 0.

use super::*;

/// The packet for a message, its size and checksum filled in.
pub fn write(message: &Message) -> Vec<u8> {
    let (kind, flags, count) = match &message.body {
        Body::Ca(ca) => (CA, write_flags(ca.flags), ca.records.len()),
        Body::CsuRequest(records) => (CSU_REQUEST, 0, records.len()),
        Body::CsuReply(records) => (CSU_REPLY, 0, records.len()),
        Body::Csus(records) => (CSUS, 0, records.len()),
        Body::Hello(hello) => (HELLO, 0, hello.additional.len()),
    };
    let mut packet = vec![1, kind, 0, 0, 0, 0, 0, 0];
    if let Body::Ca(ca) = &message.body {
        packet.extend(ca.number.0.to_be_bytes());
    }
    if let Body::Hello(hello) = &message.body {
        packet.extend(hello.interval.to_be_bytes());
        packet.extend(hello.factor.to_be_bytes());
        packet.extend([0; 4]); // unused, Family ID
    }
    write_common(&mut packet, message, flags, count as u16);
    match &message.body {
        Body::Ca(ca) => write_records(&mut packet, &ca.records),
        Body::CsuRequest(records) | Body::CsuReply(records) | Body::Csus(records) => {
            write_records(&mut packet, records)
        }
        Body::Hello(hello) => {
            for id in &hello.additional {
                packet.push(4);
                packet.extend(id);
            }
        }
    }
    fit(&mut packet);
    packet
}

/// Sets packet size and checksum to what the packet is.
pub fn fit(packet: &mut [u8]) {
    let size = packet.len() as u16;
    packet[2..4].copy_from_slice(&size.to_be_bytes());
    packet[4..6].copy_from_slice(&[0, 0]);
    let checksum = !sum(packet);
    packet[4..6].copy_from_slice(&checksum.to_be_bytes());
}

fn write_flags(flags: Flags) -> u16 {
    u16::from(flags.m) << 15 | u16::from(flags.i) << 14 | u16::from(flags.o) << 13
}

fn write_common(packet: &mut Vec<u8>, message: &Message, flags: u16, count: u16) {
    packet.extend(message.protocol.to_be_bytes());
    packet.extend(message.group.to_be_bytes());
    packet.extend([0, 0]); // unused
    packet.extend(flags.to_be_bytes());
    packet.push(4);
    packet.push(if message.receiver.is_some() { 4 } else { 0 });
    packet.extend(count.to_be_bytes());
    packet.extend(message.sender);
    packet.extend(message.receiver.iter().flatten());
}

fn write_records(packet: &mut Vec<u8>, records: &[Record]) {
    for record in records {
        let length = 16 + record.key.part().len() + record.payload.part().len();
        packet.extend(record.hops.to_be_bytes());
        packet.extend((length as u16).to_be_bytes());
        packet.push(record.key.part().len() as u8);
        packet.push(4);
        packet.extend((u16::from(record.null) << 15).to_be_bytes());
        packet.extend(record.number.0.to_be_bytes());
        packet.extend(record.key.part());
        packet.extend(record.originator);
        packet.extend(record.payload.part());
    }
}
