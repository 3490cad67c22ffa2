//! The listing of 01, the sample Hello, and what the program prints.

use reference::replay::{self, run, Event, RECORD};
use reference::wire;
use std::io::Write;
use std::process::{Command, Stdio};

const LINES: &str = "0 0 0 0\n1 0 0 0\n2 0 0 0\n3 0 32 0\n4 0 0 1\n5 0 0 1\n6 18 0 1\n";

fn settings() -> Event {
    Event::new(replay::SETTINGS, 0, 0, 0, &[10, 0, 0, 2, 0, 2, 0, 7, 0, 10, 0, 3])
}

fn listing() -> Vec<u8> {
    let mut set = [0; 17];
    set[0] = b'A';
    set[16] = b'x';
    let events = [
        settings(),
        Event::new(replay::ADD_PEER, 0, 0, 0, &[10, 0, 0, 1]),
        Event::new(replay::UP, 0, 0, 0, &[]),
        Event::new(replay::POLL, 0, 0, 0, &[]),
        Event::new(replay::SET, 1, 1, 0, &set),
        Event::new(replay::POLL, 0, 0, 0, &[]),
        Event::new(replay::WITHDRAW, 1, 0, 0, b"B"),
    ];
    events.iter().flat_map(|event| event.write()).collect()
}

fn program(arguments: &[&str], input: &[u8]) -> String {
    let mut child = Command::new(env!("CARGO_BIN_EXE_reference"))
        .args(arguments)
        .stdin(Stdio::piped())
        .stdout(Stdio::piped())
        .spawn()
        .unwrap();
    child.stdin.take().unwrap().write_all(input).unwrap();
    String::from_utf8(child.wait_with_output().unwrap().stdout).unwrap()
}

#[test]
fn prints_the_listing() {
    assert_eq!(program(&[], &listing()), LINES);
}

#[test]
fn prints_the_octets_and_the_state() {
    let hello = "01050020f0c20000000a0003000000000002000700000000040000000a000002";
    let text = program(&["--octets"], &listing());
    assert_eq!(text.lines().nth(3), Some(format!("3 0 32 0 {hello} 1 0 0 0 0").as_str()));
    assert_eq!(text.lines().nth(6), Some("6 18 0 1 - -"));
}

#[test]
fn sample_hello_has_its_checksum() {
    let line = &run(&listing()).lines[3];
    assert_eq!(line.written[4..6], [0xF0, 0xC2]);
    assert_eq!(wire::sum(&line.written), 0xFFFF);
}

#[test]
fn checksum_of_an_odd_packet_pads_with_zero() {
    assert_eq!(wire::sum(&[0x12, 0x34, 0x56]), 0x1234 + 0x5600);
    assert_eq!(wire::sum(&[0xFF, 0xFF, 0x00, 0x01]), 0x0001);
}

#[test]
fn cuts() {
    assert_eq!(program(&[], &[]), "cut\n");
    assert_eq!(program(&[], &listing()[..RECORD - 1]), "cut\n");
    assert_eq!(program(&[], &listing()[..RECORD + 1]), "0 0 0 0\ncut\n");
    assert_eq!(program(&[], &listing()[RECORD..]), "cut\n");
    for at in [9, 11] {
        let mut bad = listing();
        bad[8 + at] = 0;
        bad[8 + at - 1] = 0;
        assert_eq!(program(&["--octets"], &bad), "cut\n");
    }
}

#[test]
fn other_kinds_and_later_settings_print_17() {
    let mut file = listing();
    file.extend(settings().write());
    file.extend(Event::new(9, 0, 0, 0, &[]).write());
    file.extend(Event::new(255, 0, 0, 77, &[]).write());
    let text = format!("{LINES}7 17 0 1\n8 17 0 1\n9 17 0 1\n");
    assert_eq!(program(&[], &file), text);
}

#[test]
fn long_packets_are_5_after_1_to_4() {
    let mut file = listing();
    for (slot, length, time) in [(9, 285, 0), (0, 285, 0), (0, 65535, 0), (0, 284, 0), (0, 7, 5)] {
        file.extend(Event::new(replay::PACKET, slot, length, time, &[1, 5]).write());
    }
    file.extend(Event::new(replay::DOWN, 0, 0, 6, &[]).write());
    file.extend(Event::new(replay::PACKET, 0, 285, 6, &[]).write());
    file.extend(Event::new(replay::PACKET, 0, 285, 5, &[]).write());
    let codes: Vec<u8> = run(&file).lines[7..].iter().map(|line| line.code as u8).collect();
    assert_eq!(codes, [1, 5, 5, 5, 5, 0, 4, 2]);
}
