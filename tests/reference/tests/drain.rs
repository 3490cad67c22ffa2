//! 02, L1: the queue drain, and the count of update requests.

mod common;
use common::*;
use reference::answer::Code;
use reference::rule::Rule;
use reference::server::{Alignment, HelloState, Role, Status};
use reference::wire::*;

fn updates(hand: &Hand) -> u16 {
    hand.server.status(0).unwrap().updates
}

fn waiting(hand: &Hand) -> usize {
    hand.server.rows.iter().flatten().filter(|row| row.waits[0]).count()
}

/// A poll that writes a CSU Request, and its full reply: how many records.
fn round(hand: &mut Hand, time: u32) -> usize {
    let asked = records(hand.poll(0, time));
    let full = asked.iter().map(|r| Record { hops: 1, payload: Payload::EMPTY, ..*r }).collect();
    hand.taken(0, time, Body::CsuReply(full));
    asked.len()
}

/// Aligned, with the Hello of this time sent.
fn aligned() -> Hand {
    let mut hand = Hand::new();
    hand.align(0, 0);
    assert!(matches!(hand.poll(0, 0).unwrap().body, Body::Hello(_)));
    hand
}

#[test]
fn every_backlog_from_every_cursor_takes_a_quarter_rounded_up() {
    for first in 0..=4 {
        for w in 1..=20u8 {
            let mut hand = aligned();
            for key in 0..first {
                assert_eq!(hand.server.set(&[key], b"x"), Code::Taken);
            }
            if first > 0 {
                assert_eq!(round(&mut hand, 1), usize::from(first));
            }
            let before = updates(&hand);
            for key in 0..w {
                assert_eq!(hand.server.set(&[key], b"y"), Code::Taken);
            }
            // every other one purged on the way: the reply frees its row
            for key in (0..w).step_by(2) {
                assert_eq!(hand.server.purge(&[key]), Code::Taken);
            }
            let requests = w.div_ceil(4);
            for n in 1..=requests {
                assert!(waiting(&hand) > 0);
                round(&mut hand, 1 + u32::from(n));
                assert_eq!(waiting(&hand), usize::from(w).saturating_sub(4 * usize::from(n)));
            }
            assert_eq!(updates(&hand), before + u16::from(requests));
            assert_eq!(hand.poll(0, 8), None);
        }
    }
}

#[test]
fn the_count_outlasts_down_and_ends_in_negotiate() {
    let mut hand = aligned();
    assert_eq!(hand.server.status(2), Err(Code::NoPeer));
    assert_eq!(hand.server.status(8), Err(Code::NoPeer));
    assert_eq!(hand.server.set(b"A", b"x"), Code::Taken);
    round(&mut hand, 1);
    let aligned = Status {
        hello: HelloState::Bidirectional,
        alignment: Alignment::Aligned(Role::Master),
        updates: 1,
        missed: 0,
    };
    assert_eq!(hand.server.status(0), Ok(aligned));
    assert_eq!(hand.server.link_down(0, 2), Code::Taken);
    let down = Status { hello: HelloState::Down, alignment: Alignment::Down, ..aligned };
    assert_eq!(hand.server.status(0), Ok(down));
    assert_eq!(hand.server.link_up(0, 2), Code::Taken);
    assert_eq!(updates(&hand), 1);
    hand.hello(0, 2);
    assert_eq!(hand.alignment(0), Alignment::Negotiate);
    assert_eq!(updates(&hand), 0);
}

#[test]
fn answers_to_a_csus_and_csus_packets_are_not_counted() {
    let mut hand = aligned();
    assert_eq!(hand.server.set(b"A", b"x"), Code::Taken);
    hand.taken(0, 1, Body::Csus(vec![summary(b"A", US, -2147483647)]));
    assert_eq!(updates(&hand), 0);
    let mut asking = Hand::new();
    asking.hello(0, 0);
    asking.poll(0, 0);
    let number = asking.number(0);
    asking.taken(0, 0, ca(number, NONE, vec![summary(b"B", LOW, 1)]));
    let number = asking.number(0);
    asking.taken(0, 0, ca(number, NONE, vec![]));
    assert!(matches!(asking.poll(0, 1).unwrap().body, Body::Csus(_)));
    assert_eq!(updates(&asking), 0);
}

#[test]
fn the_count_stops_at_65535() {
    let mut hand = aligned();
    assert_eq!(hand.server.set(b"A", b"x"), Code::Taken);
    let mut written = 0u32;
    let mut time = 0;
    while written < 65540 {
        time += 1;
        if time % 1000 == 0 {
            hand.hello(0, time);
        }
        let message = hand.poll(0, time).unwrap();
        if matches!(message.body, Body::CsuRequest(_)) {
            written += 1;
        }
        assert_eq!(u32::from(updates(&hand)), written.min(65535));
    }
    assert!(hand.server.rules.has(Rule::UpdatesStop));
}
