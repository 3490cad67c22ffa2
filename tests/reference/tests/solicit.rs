//! 02, L2: what is sent for a CSUS waits until it is acknowledged.

mod common;
use common::*;
use reference::answer::Code;
use reference::rule::Rule;
use reference::wire::*;

const FIRST: i32 = -2147483647;
const PURGED: i32 = 2147483647;

/// Both slots Aligned, with the Hellos of this time sent.
fn aligned() -> Hand {
    let mut hand = Hand::new();
    for slot in [0, 1] {
        hand.align(slot, 0);
        assert!(matches!(hand.poll(slot, 0).unwrap().body, Body::Hello(_)));
    }
    hand
}

/// Our entry A, which waits for nobody.
fn held() -> Hand {
    let mut hand = aligned();
    assert_eq!(hand.server.set(b"A", b"x"), Code::Taken);
    for slot in [0, 1] {
        reply(&mut hand, slot, FIRST);
    }
    assert!(!waits(&hand, 0) && !waits(&hand, 1));
    hand
}

fn reply(hand: &mut Hand, slot: u8, number: i32) {
    assert_eq!(hand.taken(slot, 0, Body::CsuReply(vec![summary(b"A", US, number)])), None);
}

fn ask(hand: &mut Hand, slot: u8, asked: Vec<Record>) -> Vec<Record> {
    records(hand.taken(slot, 0, Body::Csus(asked)))
}

/// Whether the first row waits for a slot.
fn waits(hand: &Hand, slot: usize) -> bool {
    hand.server.rows[0].unwrap().waits[slot]
}

#[test]
fn a_lost_answer_is_sent_again_at_the_next_poll_until_it_is_acknowledged() {
    let mut hand = held();
    let answer = ask(&mut hand, 1, vec![summary(b"A", US, FIRST)]);
    assert_eq!(answer, [update(b"A", US, FIRST, 16, b"x")]);
    assert!(waits(&hand, 1) && !waits(&hand, 0));
    assert_eq!(records(hand.poll(1, 0)), answer);
    assert_eq!(records(hand.poll(1, 1)), answer);
    assert_eq!(hand.poll(0, 1), None);
    let another = summary(b"A", US, FIRST + 1);
    hand.taken(1, 1, Body::CsuReply(vec![another]));
    assert!(waits(&hand, 1));
    hand.taken(1, 1, Body::CsuReply(vec![summary(b"A", US, FIRST)]));
    assert!(!waits(&hand, 1));
    assert_eq!(hand.poll(1, 2), None);
}

#[test]
fn it_is_no_request_of_a_poll() {
    let mut hand = held();
    let before = hand.server.slots[0].clone().unwrap();
    ask(&mut hand, 0, vec![summary(b"A", US, FIRST)]);
    let after = hand.server.slots[0].clone().unwrap();
    // The count, the cursor, and the second since the last request are as they were.
    assert_eq!(before, after);
    assert_eq!(records(hand.poll(0, 0)).len(), 1);
}

#[test]
fn asked_twice_it_is_sent_twice_and_waits_once() {
    let mut hand = held();
    let asked = summary(b"A", US, FIRST);
    let sent = update(b"A", US, FIRST, 16, b"x");
    assert_eq!(ask(&mut hand, 0, vec![asked, asked]), [sent, sent]);
    assert!(hand.server.rules.has(Rule::PutSentAgain));
    reply(&mut hand, 0, FIRST);
    assert!(!waits(&hand, 0));
}

#[test]
fn a_null_record_does_not_wait() {
    let mut hand = held();
    let answer = ask(&mut hand, 0, vec![summary(b"A", US, FIRST + 1), summary(b"B", US, FIRST)]);
    assert!(answer.iter().all(|record| record.null));
    assert!(!waits(&hand, 0));
    assert_eq!(hand.poll(0, 0), None);
    // Null, then held: by its own place in the packet.
    let asked = vec![summary(b"A", US, FIRST + 1), summary(b"A", US, FIRST)];
    let answer = ask(&mut hand, 0, asked);
    assert_eq!((answer[0].null, answer[1].null), (true, false));
    assert!(waits(&hand, 0));
}

#[test]
fn an_entry_from_this_very_slot_waits_and_one_without_hops_does_not() {
    for (hops, expected) in [(16, true), (2, true), (1, false)] {
        let mut hand = aligned();
        hand.taken(0, 0, Body::CsuRequest(vec![update(b"A", LOW, 5, hops, b"x")]));
        assert!(!waits(&hand, 0));
        let answer = ask(&mut hand, 0, vec![summary(b"A", LOW, 5)]);
        assert_eq!(answer, [update(b"A", LOW, 5, 16, b"x")]);
        assert_eq!(waits(&hand, 0), expected);
        assert_eq!(hand.server.rules.has(Rule::SentNoHops), !expected);
        let again = records(hand.poll(0, 0));
        let left = update(b"A", LOW, 5, hops - 1, b"x");
        assert_eq!(again, if expected { vec![left] } else { vec![] });
    }
}

#[test]
fn a_purged_row_that_was_asked_for_stays_until_this_slot_acknowledges() {
    let mut hand = held();
    assert_eq!(hand.server.purge(b"A"), Code::Taken);
    reply(&mut hand, 0, PURGED);
    assert!(waits(&hand, 1) && !waits(&hand, 0));
    let answer = ask(&mut hand, 0, vec![summary(b"A", US, FIRST)]);
    assert_eq!(answer, [update(b"A", US, PURGED, 16, b"")]);
    assert!(hand.server.rules.has(Rule::PutSentPurged));
    reply(&mut hand, 1, PURGED);
    assert!(waits(&hand, 0));
    reply(&mut hand, 0, PURGED);
    assert_eq!(hand.server.rows[0], None);
}
