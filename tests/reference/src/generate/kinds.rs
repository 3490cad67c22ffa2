//! Flavours of lists: each puts its weight on one part of 01.

use super::act::Act::*;
use super::flavour::{Flavour, Goal, Numbers, Side, BASE};

#[rustfmt::skip]
pub const KINDS: &[Flavour] = &[
    Flavour {
        name: "hello",
        goal: Goal::Nothing,
        intervals: &[(1, 1), (2, 3), (10, 3), (65535, 65535)],
        our_interval: &[1, 3, 10, 65535],
        acts: &[
            (Hello, 30), (Up, 12), (Down, 6), (Poll, 12), (Later, 12), (Limit, 16),
            (BadHello, 8), (Steer, 10), (Early, 10),
        ],
        ..BASE
    },
    Flavour {
        name: "links",
        goal: Goal::Update,
        puppets: (2, 3),
        acts: &[
            (Down, 12), (Up, 8), (Hello, 8), (Steer, 35), (Set, 6), (Purge, 8),
            (BadHello, 8), (Poll, 8), (Update, 8),
        ],
        ..BASE
    },
    Flavour {
        name: "negotiate",
        goal: Goal::Negotiate,
        acts: &[
            (Ca, 40), (Poll, 15), (Later, 20), (Steer, 12), (Update, 4), (Reply, 4),
            (Solicit, 4), (Set, 5),
        ],
        ..BASE
    },
    Flavour {
        name: "slave",
        side: Side::Lower,
        goal: Goal::Summarize,
        rows: (4, 11),
        numbers: Numbers::Ends,
        acts: &[
            (Steer, 40), (Again, 20), (Ca, 8), (Later, 12), (Set, 6), (Purge, 3), (Poll, 5),
        ],
        ..BASE
    },
    Flavour {
        name: "master",
        side: Side::Higher,
        goal: Goal::Summarize,
        rows: (4, 11),
        acts: &[
            (Steer, 40), (Again, 15), (Ca, 8), (Later, 18), (Set, 6), (Purge, 3), (Poll, 5),
        ],
        ..BASE
    },
    Flavour {
        name: "kept",
        side: Side::Lower,
        rows: (1, 5),
        steps: &[0, 1, 3, 4, 5, 5, 6],
        acts: &[(Again, 35), (Later, 22), (Poll, 10), (Solicit, 6), (Ca, 3), (Steer, 25)],
        ..BASE
    },
    Flavour {
        name: "wrap",
        side: Side::Lower,
        goal: Goal::Summarize,
        rows: (0, 9),
        first_ca: &[0xFFFFFFFF, 0xFFFFFFFE, 0xFFFFFFFD],
        acts: &[(Steer, 50), (Again, 12), (Ca, 18), (Later, 12), (Set, 4)],
        ..BASE
    },
    Flavour {
        name: "overflow",
        goal: Goal::Summarize,
        puppets: (1, 1),
        filled: 16,
        rows: (0, 2),
        acts: &[
            (Steer, 50), (Later, 12), (Asked, 4), (Again, 6), (Ca, 3), (Fill, 3), (Down, 3),
            (BadHello, 3),
        ],
        ..BASE
    },
    Flavour {
        name: "missed",
        goal: Goal::Update,
        puppets: (1, 1),
        filled: 17,
        rows: (0, 0),
        steps: &[1],
        our_interval: &[65535],
        acts: &[(Later, 90), (Asked, 3), (Update, 2), (Set, 2)],
        ..BASE
    },
    Flavour {
        name: "restart",
        puppets: (1, 1),
        rows: (5, 9),
        steps: &[0, 0, 0, 1, 5],
        our_interval: &[65535],
        acts: &[(Steer, 32), (Set, 12), (SetNew, 16), (Later, 14), (Poll, 24), (Ca, 8)],
        ..BASE
    },
    Flavour {
        name: "requests",
        goal: Goal::Update,
        nulls: 25,
        acts: &[
            (Steer, 6), (Later, 30), (Poll, 10), (Update, 30), (Asked, 10), (Set, 10), (Solicit, 5),
            (Ca, 1),
        ],
        ..BASE
    },
    Flavour {
        name: "update",
        puppets: (2, 3),
        acts: &[
            (Steer, 6), (Update, 45), (Later, 20), (Poll, 6), (ReplyWaiting, 8), (Reply, 8),
            (Set, 8), (Withdraw, 3), (Purge, 3), (Solicit, 4),
        ],
        ..BASE
    },
    Flavour {
        name: "hops",
        puppets: (2, 3),
        hops: &[1, 1, 2, 2, 3, 16, 65535],
        acts: &[(Steer, 6), (Update, 50), (Later, 25), (ReplyWaiting, 5), (Set, 8), (Purge, 3)],
        ..BASE
    },
    Flavour {
        name: "ends",
        puppets: (1, 2),
        numbers: Numbers::Ends,
        acts: &[
            (Update, 40), (Set, 20), (Withdraw, 10), (Purge, 5), (Later, 10), (Solicit, 6),
            (Reply, 4), (Steer, 5),
        ],
        ..BASE
    },
    Flavour {
        name: "purge",
        puppets: (2, 3),
        rows: (2, 6),
        acts: &[
            (Purge, 25), (Set, 12), (Later, 20), (ReplyWaiting, 15), (Update, 12),
            (Down, 4), (BadHello, 4), (Steer, 12), (Withdraw, 3),
        ],
        ..BASE
    },
    Flavour {
        name: "round",
        rows: (5, 9),
        steps: &[0, 1, 1, 1, 1, 2],
        our_interval: &[60],
        acts: &[
            (Steer, 6), (Later, 45), (SetNew, 14), (Set, 12), (ReplyWaiting, 8), (Reply, 6),
            (Update, 10), (Purge, 4),
        ],
        ..BASE
    },
    Flavour {
        name: "solicit",
        rows: (2, 6),
        acts: &[
            (Steer, 6), (Solicit, 55), (Set, 10), (Withdraw, 6), (Purge, 6), (Update, 12),
            (Again, 5), (Later, 5),
        ],
        ..BASE
    },
    Flavour {
        name: "full",
        puppets: (1, 2),
        filled: 15,
        acts: &[
            (Steer, 6), (Fill, 20), (SetNew, 20), (Update, 20), (Purge, 15), (Later, 15),
            (Solicit, 4), (Withdraw, 2), (ReplyWaiting, 8),
        ],
        ..BASE
    },
    Flavour {
        name: "own",
        goal: Goal::Up,
        rows: (1, 4),
        acts: &[
            (Set, 20), (SetNew, 8), (Withdraw, 22), (Purge, 14), (Bad, 16), (Steer, 20),
            (Later, 6),
        ],
        ..BASE
    },
    Flavour {
        name: "refuse",
        goal: Goal::Aligned,
        puppets: (2, 3),
        acts: &[(Refuse, 70), (Bad, 8), (Steer, 12), (Down, 3), (Later, 6), (Repeat, 6)],
        ..BASE
    },
    Flavour {
        name: "malformed",
        goal: Goal::Aligned,
        puppets: (1, 2),
        acts: &[(Malform, 70), (BadHello, 6), (Steer, 24), (Set, 5), (Purge, 3)],
        ..BASE
    },
    Flavour {
        name: "late",
        goal: Goal::Summarize,
        start: &[4294967280, 4294967290, 4294967294, 4294967295],
        intervals: &[(1, 3), (10, 1), (65535, 65535)],
        our_interval: &[1, 5, 65535],
        acts: &[
            (Later, 40), (Steer, 30), (Set, 10), (Limit, 6), (Hello, 6), (Refuse, 6),
            (Down, 2), (Up, 2),
        ],
        ..BASE
    },
    Flavour {
        name: "mesh",
        goal: Goal::Nothing,
        puppets: (0, 0),
        servers: (1, 3),
        rows: (0, 6),
        our_interval: &[2, 3, 5],
        acts: &[
            (Deliver, 60), (Later, 12), (Poll, 12), (Set, 8), (Purge, 2), (Withdraw, 2),
            (Up, 6),
        ],
        ..BASE
    },
    Flavour {
        name: "loss",
        goal: Goal::Nothing,
        puppets: (0, 1),
        servers: (1, 3),
        rows: (2, 9),
        our_interval: &[2, 3, 5],
        loss: 15,
        acts: &[
            (Deliver, 50), (Later, 18), (Poll, 8), (Set, 8), (Purge, 3), (Repeat, 5),
            (Up, 6), (Down, 1), (Steer, 2),
        ],
        ..BASE
    },
    Flavour {
        name: "zero",
        acts: &[
            (Zero, 40), (Steer, 25), (Poll, 8), (Later, 10), (Set, 8), (Purge, 3), (Update, 4),
            (Up, 2),
        ],
        ..BASE
    },
    Flavour {
        name: "storm",
        goal: Goal::Up,
        puppets: (1, 3),
        servers: (0, 2),
        rows: (0, 6),
        our_interval: &[2, 3, 5, 30],
        loss: 5,
        numbers: Numbers::Ends,
        hops: &[1, 2, 16, 65535],
        acts: &[
            (Steer, 40), (Poll, 5), (Later, 12), (Limit, 1), (Hello, 4), (BadHello, 2),
            (Ca, 4), (Again, 4),
            (Update, 14), (Fill, 4), (Asked, 3), (Reply, 3), (ReplyWaiting, 3),
            (Solicit, 5), (Set, 6), (SetNew, 3),
            (Withdraw, 2), (Purge, 3), (Up, 3), (Down, 1), (Repeat, 3), (Refuse, 4),
            (Malform, 3), (Bad, 2), (Deliver, 12),
        ],
        ..BASE
    },
];
