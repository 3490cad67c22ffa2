//! What is written reads back as what was meant; each clause of 'Malformed'.

use reference::random::Random;
use reference::rule::Rule;
use reference::wire::*;

fn octets(random: &mut Random, low: usize, high: usize) -> Vec<u8> {
    (0..random.between(low, high)).map(|_| random.draw() as u8).collect()
}

fn id(random: &mut Random) -> Id {
    (random.draw() as u32).to_be_bytes()
}

fn record(random: &mut Random, update: bool) -> Record {
    let ends = [-2147483647, -1, 0, 1, 2147483646, 2147483647];
    let any = (random.draw() as i32).max(-2147483647);
    let number = if random.percent(50) { random.of(&ends) } else { any };
    let null = update && random.percent(20);
    let full = update && !null && number != 2147483647;
    let payload = if full { octets(random, 0, 32) } else { Vec::new() };
    Record {
        hops: random.of(&[1, 2, 16, 65535]),
        null,
        number: CsaNumber(number),
        key: Key::new(&octets(random, 1, 16)).unwrap(),
        originator: id(random),
        payload: Payload::new(&payload).unwrap(),
    }
}

fn records(random: &mut Random, update: bool) -> Vec<Record> {
    (0..random.below(5)).map(|_| record(random, update)).collect()
}

fn message(random: &mut Random) -> Message {
    let body = match random.below(5) {
        0 => Body::Ca(Ca {
            number: CaNumber(random.draw() as u32),
            flags: Flags { m: random.percent(50), i: random.percent(50), o: random.percent(50) },
            records: records(random, false),
        }),
        1 => Body::CsuRequest(records(random, true)),
        2 => Body::CsuReply(records(random, false)),
        3 => Body::Csus(records(random, false)),
        _ => Body::Hello(Hello {
            interval: random.between(1, 65535) as u16,
            factor: random.between(1, 65535) as u16,
            additional: (0..random.below(9)).map(|_| id(random)).collect(),
        }),
    };
    let bare = matches!(body, Body::Hello(_)) && random.percent(30);
    let receiver = if bare { None } else { Some(id(random)) };
    let (protocol, group) = (random.draw() as u16, random.draw() as u16);
    Message { protocol, group, sender: id(random), receiver, body }
}

#[test]
fn written_packets_read_back() {
    let mut random = Random::new(1);
    for _ in 0..200_000 {
        let meant = message(&mut random);
        let packet = write(&meant);
        assert!((MIN_PACKET..=MAX_PACKET).contains(&packet.len()));
        assert_eq!(try_fixed_part(&packet), Ok(()));
        assert_eq!(sum(&packet), 0xFFFF);
        assert_eq!(read(&packet), Ok(meant));
    }
}

#[test]
fn cut_or_grown_packets_are_malformed() {
    let mut random = Random::new(2);
    for _ in 0..3_000 {
        let packet = write(&message(&mut random));
        for size in MIN_PACKET..packet.len() {
            assert!(read(&packet[..size]).is_err());
        }
        let mut grown = packet.clone();
        grown.push(0);
        assert_eq!(read(&grown), Err(Rule::MalformedLeftOver));
    }
}

/// Any octets are read or refused; what is read, written again, reads the
/// same.
#[test]
fn any_octets_end() {
    let mut random = Random::new(3);
    for _ in 0..300_000 {
        let mut packet = write(&message(&mut random));
        for _ in 0..random.between(1, 3) {
            let at = random.between(8, packet.len() - 1);
            packet[at] = random.of(&[0, 1, 4, 16, 17, 0x7F, 0x80, 255]);
        }
        if let Ok(message) = read(&packet) {
            assert_eq!(read(&write(&message)), Ok(message));
        }
    }
}

/// Offset from the record's start, new octets, clause. The packet is a CSU
/// Request with one record: key `k`, payload `p`, number 5.
const FAULTS: [(usize, &[u8], Rule); 10] = [
    (0, &[0, 0], Rule::MalformedHopCount),
    (2, &[0, 16], Rule::MalformedRecordLength),
    (2, &[0, 19], Rule::MalformedOutside),
    (2, &[0, 17], Rule::MalformedLeftOver),
    (2, &[0, 50], Rule::MalformedPayloadLength),
    (4, &[0], Rule::MalformedKeyLength),
    (4, &[17], Rule::MalformedKeyLength),
    (5, &[3], Rule::MalformedOriginatorLength),
    (6, &[0x80, 0], Rule::MalformedNullPayload),
    (8, &[0x7F, 0xFF, 0xFF, 0xFF], Rule::MalformedPurgedPayload),
];

#[test]
fn faults_of_a_record() {
    let record = Record {
        hops: 1,
        null: false,
        number: CsaNumber(5),
        key: Key::new(b"k").unwrap(),
        originator: [1, 2, 3, 4],
        payload: Payload::new(b"p").unwrap(),
    };
    let body = Body::CsuRequest(vec![record]);
    let message = Message { protocol: 1, group: 1, sender: [1; 4], receiver: Some([2; 4]), body };
    for (at, new, clause) in FAULTS {
        let mut packet = write(&message);
        packet[28 + at..28 + at + new.len()].copy_from_slice(new);
        assert_eq!(read(&packet), Err(clause), "{at} {new:?}");
    }
    let mut flags = write(&message);
    flags[28 + 6..28 + 8].copy_from_slice(&[0x7F, 0xFF]);
    flags[12..16].copy_from_slice(&[0xFF; 4]);
    assert_eq!(read(&flags), Ok(message));
}
