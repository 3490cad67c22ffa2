//! 02, L4: a sum is good exactly when the field holds the checksum computed
//! with the field 0, or that is 0 and the field 0xFFFF. Every field is tried.

use reference::answer::Code;
use reference::generate::list;
use reference::replay::{run, DATA, PACKET, RECORD};
use reference::wire::{fit, sum, try_fixed_part, HELLO};

fn with_field(octets: &[u8], field: u16) -> Vec<u8> {
    let mut octets = octets.to_vec();
    octets[4..6].copy_from_slice(&field.to_be_bytes());
    octets
}

/// The fields for which the sum is good. They are held to L4's words.
fn good_fields(octets: &[u8]) -> Vec<u16> {
    let checksum = !sum(&with_field(octets, 0));
    let mut good = Vec::new();
    for field in 0..=0xFFFF {
        let right = field == checksum || checksum == 0 && field == 0xFFFF;
        assert_eq!(sum(&with_field(octets, field)) == 0xFFFF, right, "{octets:?} {field}");
        if right {
            good.push(field);
        }
    }
    good
}

#[test]
fn one_field_is_right_or_two() {
    assert_eq!(good_fields(&[0; 8]), [0xFFFF]);
    assert_eq!(good_fields(&[0; 9]), [0xFFFF]);
    assert_eq!(good_fields(&[0, 0, 0, 0, 0, 0, 0xFF, 0xFF]), [0, 0xFFFF]);
    assert_eq!(good_fields(&[0, 0xFF, 0, 0, 0, 0, 0, 0, 0xFF]), [0, 0xFFFF]);
    assert_eq!(good_fields(&[0xFF; 284]), [0, 0xFFFF]);
    // An odd last octet is the high one of its word.
    assert_eq!(good_fields(&[0, 0, 0, 0, 0, 0, 0, 0, 0x12]), [0xEDFF]);
    for size in 8..40 {
        let octets: Vec<u8> = (0..size).map(|at| (at * 89 + size) as u8).collect();
        good_fields(&octets);
    }
}

/// Code 8 for every wrong field of packets of four lengths.
#[test]
fn code_8_for_every_other_field() {
    for size in [8, 9, 33, 284] {
        let mut packet = vec![7; size];
        packet[0] = 1;
        packet[1] = HELLO;
        packet[6..8].copy_from_slice(&[0, 0]);
        fit(&mut packet);
        let right = u16::from_be_bytes([packet[4], packet[5]]);
        assert!(right != 0, "only one field is right");
        for field in 0..=0xFFFF {
            let expected = if field == right { Ok(()) } else { Err(Code::Checksum) };
            assert_eq!(try_fixed_part(&with_field(&packet, field)), expected);
        }
    }
}

/// In lists of packets whose checksum is 0, those with a field of 0xFFFF are
/// taken as those with 0 are, and with any other field none is.
#[test]
fn both_fields_are_taken() {
    let mut taken = [0; 2];
    for seed in 0..200 {
        let file = list(seed, 60, "zero").unwrap();
        for (record, line) in file.chunks(RECORD).zip(&run(&file).lines) {
            let size = usize::from(u16::from_be_bytes([record[2], record[3]]));
            let packet = &record[8..8 + size.min(DATA)];
            if record[0] != PACKET || sum(&with_field(packet, 0)) != 0xFFFF {
                continue;
            }
            match packet[4..6] {
                [0, 0] if line.code == Code::Taken => taken[0] += 1,
                [0xFF, 0xFF] if line.code == Code::Taken => taken[1] += 1,
                [0, 0] | [0xFF, 0xFF] => assert_ne!(line.code, Code::Checksum),
                _ => assert_eq!(line.code, Code::Checksum),
            }
        }
    }
    assert!(taken[0] > 500 && taken[1] > 1000, "{taken:?}");
}
