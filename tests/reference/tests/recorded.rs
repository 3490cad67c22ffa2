//! The recorded lists still print what is recorded, and take every rule.

use reference::replay::{run, Seen, STATES};
use reference::rule::Rule;
use std::fs;
use std::path::Path;

#[test]
fn recorded_lists_print_their_lines_and_take_all() {
    let folder = Path::new(env!("CARGO_MANIFEST_DIR")).join("../recorded");
    let mut lists = 0;
    let mut all = Seen::default();
    for entry in fs::read_dir(folder).unwrap() {
        let path = entry.unwrap().path();
        if path.extension().is_some_and(|extension| extension == "bin") {
            let printed = run(&fs::read(&path).unwrap());
            let text = |extension| fs::read_to_string(path.with_extension(extension)).unwrap();
            assert_eq!(printed.text(false), text("txt"), "{path:?}");
            assert_eq!(printed.text(true), text("octets"), "{path:?}");
            all.rules.join(&printed.seen.rules);
            all.codes |= printed.seen.codes;
            all.states |= printed.seen.states;
            lists += 1;
        }
    }
    assert_eq!(lists, 43);
    // A short list misses fewer than 65535 requests and polls less often;
    // code 3 needs a buffer that the replay program does not lend.
    assert_eq!(all.rules.missing(), [Rule::MissedStops, Rule::UpdatesStop]);
    assert_eq!(all.codes, 0x7FFFF & !(1 << 3));
    assert_eq!(all.states, (1 << STATES.len()) - 1);
}
