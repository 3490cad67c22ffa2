//! Over many generated lists every code, state and rule is reached.

use reference::generate::{kinds::KINDS, list};
use reference::replay::{run, Seen, STATES};
use reference::rule::Rule;

#[test]
fn every_code_state_and_rule_is_reached() {
    let mut all = Seen::default();
    for flavour in KINDS {
        for seed in 1000..1300 {
            let count = 20 + seed as usize % 41;
            let printed = run(&list(seed, count, flavour.name).unwrap());
            assert!(!printed.cut);
            assert_eq!(printed.lines.len(), count);
            all.rules.join(&printed.seen.rules);
            all.codes |= printed.seen.codes;
            all.states |= printed.seen.states;
        }
    }
    // Missed stops after some 16400 packets, the count of update requests
    // after 65535 polls, and the replay program always lends 284 octets:
    // tests/marked.rs and tests/drain.rs have them.
    assert_eq!(all.rules.missing(), [Rule::MissedStops, Rule::UpdatesStop]);
    assert_eq!(all.codes, 0x7FFFF & !(1 << 3));
    assert_eq!(all.states, (1 << STATES.len()) - 1);
}

#[test]
fn a_seed_gives_the_same_list() {
    for flavour in KINDS {
        assert_eq!(list(5, 40, flavour.name), list(5, 40, flavour.name));
        assert_ne!(list(5, 40, flavour.name), list(6, 40, flavour.name));
    }
    assert_eq!(list(5, 40, "nothing"), None);
}
