//! The long session of docs/session, and a generated session, each reach every
//! status that the paper lists, and the first and last of every number.

use crate::coverage::{generated, tally_of, Tally};
use crate::image;
use crate::reach::{reach_of, Reach};
use crate::session::{parse, Line};
use std::collections::BTreeSet;
use std::ops::Range;

/// The statuses of each kind of line, without those of the entry.
const LISTED: [(&str, &str); 58] = [
    ("image", "0 6e 6f 70 71 72 73 74"),
    ("bad", "bad"),
    ("call other", "7"),
    ("call ff/other", "7"),
    ("call ff/0", "0 6 d"),
    ("call ff/3", "0 6"),
    ("call 80/other", "7"),
    ("call 80/14", "0 2 6 7 8"),
    ("call 80/15", "0 6 7"),
    ("call 80/16", "0 7"),
    ("call 80/20", "0 2 4 5 6 7 8"),
    ("call 80/21", "0 2 4 5 6 7 8"),
    ("call 80/31", "0 2 6 7 8"),
    ("call 80/32", "0 2 6 7 8"),
    ("call 80/42", "0 1 2 6 7 8 9"),
    ("call 80/a0", "0 6 7 d"),
    ("call 80/a1", "0 6 7 d"),
    ("call 80/a2", "0 6 7 d"),
    ("call 80/a3", "0 6 7 d"),
    ("call 80/a4", "0 6 7 d"),
    ("call 80/a5", "0 6 7 d"),
    ("call 80/a6", "0 1 6 7 d"),
    ("call 80/a7", "0 6 7 d"),
    ("call 80/a8", "0 6 7 d"),
    ("call 80/a9", "0 6 7 d"),
    ("call 80/aa", "0 6 7 d"),
    ("call 80/ab", "0 6 7 d"),
    ("call 80/ac", "0 6 7 d"),
    ("call 80/ad", "0 6 7 d"),
    ("call 80/ae", "0 1 6 7 d"),
    ("call 80/102", "0 2 7 8"),
    ("call 80/103", "0 7"),
    ("head 3c", "0 6 8"),
    ("head 3d", "0 6 8"),
    ("head 3e", "0 6 8"),
    ("head 3f", "0 6 8"),
    ("head other", "6"),
    ("raise to 1", "0"),
    ("raise to 2", "0"),
    ("load", "0 2 8"),
    ("store", "0 2 8"),
    ("hit 0", "0"),
    ("hit 10", "0"),
    ("hit 30", "0"),
    ("hit 50", "0"),
    ("hit 80", "0"),
    ("hit 90", "0"),
    ("hit b0", "0"),
    ("hit d0", "0"),
    ("hit 100", "0"),
    ("hit 110", "0"),
    ("hit 130", "0"),
    ("hit 150", "0"),
    ("hit 180", "0"),
    ("hit 190", "0"),
    ("hit 1b0", "0"),
    ("hit 1d0", "0"),
    ("hit other", "6"),
];

/// The statuses of the entry to each event.
const ENTRY: [(&str, &str); 6] = [
    ("call", "66 67"),
    ("head", "66 67"),
    ("raise", "66 68"),
    ("load", "66 67"),
    ("store", "66 67"),
    ("hit", "66 67"),
];

/// What no session of 32 KiB shows: 101, since no line leads to tables that
/// break a rule. A scrub of more than 32,768 bytes has no status of its own.
const NOT_SHOWN: [&str; 1] = ["65"];

/// The pages of a session's memory. Each extent of an accepted line has one of
/// them, so none behind the fourth extent is named, though a guest may have it.
const LENT_PAGES: usize = 4;

/// In how many extents a range of pages lies: any number of those that there are.
const PIECES: Range<usize> = 1..LENT_PAGES + 1;

/// The numbers of guests, cpus and the like that the accepted lines of a
/// generated session name, besides guest and cpu of every call, head write and
/// hit.
const NUMBERS: [(&str, &str, Range<usize>); 31] = [
    ("call 80/14", "queue", 0..4),
    ("call 80/15", "queue", 0..4),
    ("call 80/14", "extent", 0..LENT_PAGES),
    ("call 80/20", "extent", 0..LENT_PAGES),
    ("call 80/21", "extent", 0..LENT_PAGES),
    ("call 80/31", "extent", 0..LENT_PAGES),
    ("call 80/32", "extent", 0..LENT_PAGES),
    ("call 80/42", "extent", 0..LENT_PAGES),
    ("call 80/14", "pieces", 1..3),
    ("call 80/20", "pieces", 1..3),
    ("call 80/21", "pieces", 1..3),
    ("call 80/31", "pieces", PIECES),
    ("call 80/32", "pieces", PIECES),
    ("call 80/42", "pieces", 1..3),
    ("call 80/102", "pieces", 1..3),
    ("call 80/20", "area", PIECES),
    ("call 80/21", "area", PIECES),
    ("call 80/42", "target", 0..8),
    ("call 80/102", "extent", 0..LENT_PAGES),
    ("call 80/a6", "target", 0..8),
    ("call 80/ae", "target", 0..8),
    ("load", "guest", 0..4),
    ("load", "extent", 0..LENT_PAGES),
    ("store", "guest", 0..4),
    ("store", "extent", 0..LENT_PAGES),
    ("raise to 1", "guest", 0..4),
    ("raise to 1", "source", 0..16),
    ("raise to 1", "target", 0..8),
    ("raise to 2", "guest", 0..4),
    ("raise to 2", "source", 0..16),
    ("raise to 2", "target", 0..8),
];

/// Those of the long session.
const WRITTEN: [(&str, &str, Range<usize>); 24] = [
    ("call 80/14", "cpu", 0..8),
    ("call 80/14", "queue", 0..4),
    ("call 80/14", "extent", 0..LENT_PAGES),
    ("call 80/32", "extent", 0..LENT_PAGES),
    ("call 80/14", "pieces", 1..3),
    ("call 80/20", "pieces", 1..3),
    ("call 80/31", "pieces", PIECES),
    ("call 80/42", "pieces", 1..3),
    ("call 80/102", "pieces", 1..3),
    ("call 80/42", "target", 1..8),
    ("call 80/102", "cpu", 0..8),
    ("call 80/103", "cpu", 0..8),
    ("call 80/a2", "source", 0..16),
    ("call 80/a6", "source", 0..16),
    ("call 80/a6", "target", 0..8),
    ("load", "guest", 0..4),
    ("load", "extent", 0..LENT_PAGES),
    ("store", "extent", 0..LENT_PAGES),
    ("raise to 2", "guest", 3..4),
    ("raise to 2", "source", 13..16),
    ("hit 0", "guest", 0..4),
    ("hit 0", "cpu", 0..8),
    ("hit 1d0", "extent", 0..2),
    ("hit 1d0", "pieces", 1..3),
];

#[test]
fn the_long_session_reaches_every_status() {
    let session = include_bytes!("../../../crates/chaldrev/stdin");
    check(&tally_of(session).expect("memory"));
    let reach = reach_of(session);
    for (kind, what, numbers) in WRITTEN {
        check_numbers(&reach, kind, what, numbers);
    }
}

#[test]
fn a_generated_session_reaches_every_status() {
    let session = generated(1, 200_000).expect("memory");
    let tally = tally_of(&session).expect("memory");
    check(&tally);
    for (kind, _) in LISTED {
        let named = !matches!(word(kind), "image" | "bad" | "raise");
        assert!(!named || seen(&tally, kind, "67"), "{kind} never 67");
    }
}

#[test]
fn a_generated_session_reaches_every_number() {
    let reach = reach_of(&generated(1, 200_000).expect("memory"));
    for (kind, statuses) in LISTED {
        if matches!(word(kind), "call" | "head" | "hit") && statuses.starts_with('0') {
            check_numbers(&reach, kind, "guest", 0..4);
            check_numbers(&reach, kind, "cpu", 0..8);
        }
    }
    for function in 0xa0..=0xae {
        check_numbers(&reach, &format!("call 80/{function:x}"), "source", 0..16);
    }
    for (kind, what, numbers) in NUMBERS {
        check_numbers(&reach, kind, what, numbers);
    }
    for (kind, statuses) in LISTED {
        if word(kind) == "hit" && statuses.starts_with('0') {
            check_numbers(&reach, kind, "extent", 0..LENT_PAGES);
            check_numbers(&reach, kind, "pieces", 1..3);
        }
    }
}

#[test]
fn a_generated_session_loads_every_number_of_extents() {
    let session = generated(1, 200_000).expect("memory");
    let mut loaded = BTreeSet::new();
    for line in session.split(|&byte| byte == b'\n') {
        let Some(Line::Image(image)) = parse(line) else {
            continue;
        };
        let tables = image::load(&image).unwrap_or_default();
        let counts = tables.guests.iter().map(|guest| guest.extents.len());
        loaded.extend(counts.enumerate());
    }
    for guest in 0..4 {
        for count in 1..=7 {
            let found = loaded.contains(&(guest, count));
            assert!(found, "guest {guest} never has {count} extents");
        }
    }
}

/// All of these numbers, and none behind them.
fn check_numbers(reach: &Reach, kind: &str, what: &'static str, numbers: Range<usize>) {
    let reached = reach.get(&(kind.to_owned(), what));
    let end = numbers.end;
    for number in numbers {
        let found = reached.is_some_and(|r| r.contains(&number));
        assert!(found, "{kind} never names {what} {number}");
    }
    let behind = reached.and_then(|r| r.range(end..).next());
    assert_eq!(behind, None, "{kind} is accepted for another {what}");
}

fn check(tally: &Tally) {
    for (kind, statuses) in LISTED {
        for status in statuses.split(' ') {
            assert!(seen(tally, kind, status), "{kind} never {status}");
        }
    }
    for (event, statuses) in ENTRY {
        for status in statuses.split(' ') {
            let mut keys = tally.keys();
            let found = keys.any(|(kind, seen)| word(kind) == event && seen == status);
            assert!(found, "{event} never {status}");
        }
    }
    for (kind, status) in tally.keys() {
        assert!(!NOT_SHOWN.contains(&status.as_str()), "{kind} {status}");
        let known = listed(&LISTED, kind, status) || listed(&ENTRY, word(kind), status);
        assert!(known, "{kind} {status} is not listed");
    }
}

fn seen(tally: &Tally, kind: &str, status: &str) -> bool {
    tally.contains_key(&(kind.into(), status.into()))
}

fn listed(list: &[(&str, &str)], name: &str, status: &str) -> bool {
    list.iter()
        .any(|(listed, statuses)| *listed == name && statuses.split(' ').any(|s| s == status))
}

/// The first word of a kind of line: which event it is.
fn word(kind: &str) -> &str {
    kind.split(' ').next().unwrap_or(kind)
}
