//! The marked cases of 01, and what short lists of events cannot reach.

mod common;
use common::*;
use reference::answer::Code;
use reference::rule::Rule;
use reference::server::HelloState;
use reference::wire::*;

/// Number held, number that comes, whether it is newer.
const NEWER: [(u32, u32, bool); 6] = [
    (0, 0x80000001, false),
    (0x80000001, 0x7FFFFFFF, true),
    (0, 0xFFFFFFFF, false),
    (0xFFFFFFFF, 0, true),
    (5, 5, false),
    (0x7FFFFFFE, 0x7FFFFFFF, true),
];

#[test]
fn cases_1_to_3_newer_as_signed() {
    for (held, comes, newer) in NEWER {
        let mut hand = Hand::new();
        hand.align(0, 0);
        hand.align(1, 0);
        let first = update(b"K", HIGH, held as i32, 16, b"held");
        hand.taken(0, 0, Body::CsuRequest(vec![first]));
        let second =
            Record { payload: Payload::EMPTY, ..update(b"K", HIGH, comes as i32, 16, b"") };
        hand.taken(1, 0, Body::CsuRequest(vec![second]));
        let row = hand.server.rows[0].unwrap();
        assert_eq!(row.payload.is_empty(), newer, "{held:#x} {comes:#x}");
        assert_eq!(row.number, CsaNumber(if newer { comes } else { held } as i32));
    }
}

#[test]
fn case_4_the_reserved_number() {
    let mut hand = Hand::new();
    hand.align(0, 0);
    let record = update(b"K", HIGH, i32::MIN, 16, b"x");
    assert_eq!(hand.say(0, 9, Body::CsuRequest(vec![record])).code, Code::Malformed);
    assert_eq!(hand.server.time, 0);
}

#[test]
fn case_5_the_last_numbers() {
    let mut hand = Hand::new();
    hand.align(0, 0);
    let record = update(b"K", US, 2147483645, 16, b"x");
    hand.taken(0, 0, Body::CsuRequest(vec![record]));
    assert_eq!(hand.server.set(b"K", b"y"), Code::Taken);
    assert_eq!(hand.server.rows[0].unwrap().number, CsaNumber(2147483646));
    assert_eq!(hand.server.set(b"K", b"z"), Code::Spent);
    assert_eq!(hand.server.withdraw(b"K"), Code::Spent);
    assert_eq!(hand.server.purge(b"K"), Code::Taken);
    assert_eq!(hand.server.purge(b"K"), Code::Spent);
    assert_eq!(hand.server.set(b"K", b"z"), Code::Spent);
    assert_eq!(hand.server.withdraw(b"K"), Code::NoEntry);
}

#[test]
fn cases_6_and_7_the_dead_time() {
    for (interval, factor, alive) in [(10, 3, 30), (65535, 65535, 4294836225)] {
        let mut hand = Hand::new();
        hand.taken(0, 0, hello(interval, factor));
        hand.poll(0, alive);
        assert_eq!(hand.server.slots[0].as_ref().unwrap().hello, HelloState::Bidirectional);
        hand.poll(0, alive + 1);
        assert_eq!(hand.server.slots[0].as_ref().unwrap().hello, HelloState::Waiting);
    }
}

#[test]
fn cases_9_and_10_the_largest_records() {
    let record = update(&[7; 16], HIGH, 1, 16, &[8; 32]);
    let body = Body::CsuRequest(vec![record; 4]);
    let message = Message { protocol: 2, group: 7, sender: LOW, receiver: Some(US), body };
    let packet = write(&message);
    assert_eq!(packet.len(), 284);
    assert_eq!(packet[28 + 2..28 + 4], [0, 64]);
    assert_eq!(read(&packet), Ok(message));
    let mut hand = Hand::new();
    hand.align(0, 0);
    let mut longer = packet[..92].to_vec();
    longer[19] = 1;
    longer[31] = 65;
    longer.push(8);
    fit(&mut longer);
    let answer = hand.server.packet(0, 0, &longer, &mut hand.out);
    assert_eq!(answer.code, Code::Malformed);
    assert!(hand.server.rules.has(Rule::MalformedPayloadLength));
}

#[test]
fn code_3_comes_after_2_and_before_4() {
    let mut hand = Hand::new();
    hand.poll(0, 5);
    hand.server.link_down(1, 5);
    let before = hand.server.clone();
    let short = &mut [0xEE; 283];
    assert_eq!(hand.server.poll(9, 5, short).code, Code::NoPeer);
    assert_eq!(hand.server.poll(0, 4, short).code, Code::EarlyTime);
    assert_eq!(hand.server.poll(1, 9, short).code, Code::ShortOut);
    assert_eq!(hand.server.poll(0, 99, short).code, Code::ShortOut);
    assert_eq!(hand.server.packet(0, 99, &[1, 5], short).code, Code::ShortOut);
    assert_eq!(short, &[0xEE; 283]);
    assert_eq!(hand.server, before);
}

#[test]
fn octets_behind_the_packet_stay() {
    let mut hand = Hand::new();
    hand.poll(0, 0);
    assert_eq!(hand.out[32..], [0xEE; 268]);
    hand.out = [0xEE; 300];
    assert_eq!(hand.poll(0, 0), None);
    assert_eq!(hand.out, [0xEE; 300]);
}

#[test]
fn missed_stops_at_65535() {
    let mut hand = Hand::new();
    hand.hello(1, 0);
    hand.taken(1, 0, ca(0, MIO, vec![]));
    let mut entry = 0u32;
    for number in 1..=17000u32 {
        let mut four = Vec::new();
        for _ in 0..4 {
            entry += 1;
            four.push(summary(&entry.to_be_bytes(), HIGH, 1));
        }
        hand.taken(1, 0, ca(number, MO, four));
        let slot = hand.server.slots[1].as_ref().unwrap();
        let missed = entry.saturating_sub(64).min(65535);
        assert_eq!(u32::from(slot.missed), missed);
        assert_eq!(slot.requests.len(), entry.min(64) as usize);
    }
    assert!(hand.server.rules.has(Rule::MissedStops));
}

#[test]
fn a_lost_first_answer_is_sent_again() {
    let mut hand = Hand::new();
    hand.hello(1, 0);
    let first = hand.taken(1, 0, ca(4294967295, MIO, vec![]));
    assert_eq!(hand.taken(1, 3, ca(4294967295, MIO, vec![])), first);
    let next = hand.taken(1, 3, ca(0, M, vec![]));
    assert_ne!(next, first);
    assert_eq!(hand.number(1), 0);
}

#[test]
fn a_change_to_a_summarized_row_waits() {
    let mut hand = Hand::new();
    assert_eq!(hand.server.set(b"A", b"x"), Code::Taken);
    hand.hello(1, 0);
    hand.taken(1, 0, ca(9, MIO, vec![]));
    assert_eq!(hand.server.set(b"A", b"y"), Code::Taken);
    hand.taken(1, 0, ca(10, M, vec![]));
    hand.poll(1, 0); // Hello
    let sent = records(hand.poll(1, 0));
    assert_eq!(sent, [update(b"A", US, -2147483646, 16, b"y")]);
}

#[test]
fn waiting_rows_go_round() {
    let mut hand = Hand::new();
    hand.align(1, 0);
    for n in 0..6 {
        hand.server.set(&[n + 1], b"x");
    }
    hand.poll(1, 0); // Hello
    let keys = |list: Vec<Record>| list.iter().map(|r| r.key.part()[0]).collect::<Vec<u8>>();
    assert_eq!(keys(records(hand.poll(1, 0))), [1, 2, 3, 4]);
    assert_eq!(hand.poll(1, 0), None);
    assert_eq!(keys(records(hand.poll(1, 1))), [5, 6, 1, 2]);
    assert_eq!(keys(records(hand.poll(1, 2))), [3, 4, 5, 6]);
}

#[test]
fn solicited_records_have_16_hops_and_null_ones_1() {
    let mut hand = Hand::new();
    hand.align(1, 0);
    hand.server.set(b"A", b"x");
    let asked = vec![summary(b"A", US, -2147483647), summary(b"A", US, 0), summary(b"B", US, 7)];
    let answer = records(hand.taken(1, 0, Body::Csus(asked)));
    let null = |record: Record| Record { null: true, ..record };
    let expected = [
        update(b"A", US, -2147483647, 16, b"x"),
        null(summary(b"A", US, 0)),
        null(summary(b"B", US, 7)),
    ];
    assert_eq!(answer, expected);
}
