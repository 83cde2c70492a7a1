//! Which ranges over seams a generated session has: accepted ones on host pages
//! in every order, and refused ones that leave their extents in every way.

use super::each_event;
use crate::coverage::generated;
use crate::model::{Event, Host, Status};
use crate::reach::{range, tsb_areas};
use crate::tables::{Guest, HostOffset, Piece, RealAddress, Ring};
use std::collections::BTreeMap;

/// How often, by what names the range and its kind.
type Kinds = BTreeMap<(String, &'static str), u64>;

/// A range that an event names, and the guest whose it is.
struct Named {
    by: String,
    guest: usize,
    start: RealAddress,
    length: u64,
}

/// Where on the host a piece lies, seen from the one before it.
const ORDERS: [&str; 3] = ["just behind", "further on", "before"];
const RUNS_OUT: &str = "runs out";
const RUNS_OUT_LATER: &str = "runs out behind a seam";
const GAP: &str = "has a gap";
const ROUND: &str = "passes 2^64";
const ENTRY: &str = "entry behind a seam";

/// Each kind occurs at least so often in 200,000 lines.
const LEAST: u64 = 10;

#[test]
fn a_generated_session_has_every_kind_of_range_over_seams() {
    let kinds = kinds_of(&generated(1, 200_000).expect("memory"));
    let check = |by: &str, kind| {
        let count = kinds.get(&(by.to_owned(), kind)).copied().unwrap_or(0);
        assert!(count >= LEAST, "{by} {kind}: {count} times");
    };
    for by in ["14", "20", "21", "31", "32", "42", "102", "area"] {
        for order in ORDERS {
            check(by, order);
        }
        check(by, RUNS_OUT);
    }
    // The others are too short for a seam and a page in no extent.
    for by in ["31", "32", "area"] {
        check(by, RUNS_OUT_LATER);
        check(by, GAP);
    }
    check("31", ROUND);
    check("32", ROUND);
    check("mondo", ENTRY);
    check("raise", ENTRY);
}

fn kinds_of(text: &[u8]) -> Kinds {
    let mut kinds = Kinds::new();
    each_event(text, |host, event| count(host, event, &mut kinds));
    kinds
}

fn count(host: &mut Host, event: &Event, kinds: &mut Kinds) {
    let ranges = named(host, event);
    let before = rings(host);
    let status = host.event(event).err();
    for range in ranges {
        let guest = &host.tables.guests[range.guest];
        let found = match status {
            None | Some(Status::EWOULDBLOCK) => orders(guest, &range),
            Some(Status::ENORADDR) => way_out(guest, &range).into_iter().collect(),
            Some(_) => Vec::new(),
        };
        for kind in found {
            *kinds.entry((range.by.clone(), kind)).or_default() += 1;
        }
    }
    let by = match event {
        Event::Raise { .. } => "raise",
        Event::Call { function: 0x42, .. } => "mondo",
        _ => return,
    };
    let moved = before.iter().zip(rings(host));
    let moved = moved.filter(|((_, old), (_, new))| old.tail != new.tail);
    let over = moved.filter(|((guest, ring), _)| behind_seam(&host.tables.guests[*guest], ring));
    *kinds.entry((by.to_owned(), ENTRY)).or_default() += over.count() as u64;
}

/// The range of a call, and the TSBs that its descriptors name.
fn named(host: &Host, event: &Event) -> Vec<Named> {
    let &Event::Call {
        guest,
        trap: 0x80,
        function,
        arguments,
        ..
    } = event
    else {
        return Vec::new();
    };
    let Some(record) = host.tables.guests.get(guest as usize) else {
        return Vec::new();
    };
    let [first, second, ..] = arguments;
    let areas = match function {
        0x20 | 0x21 => tsb_areas(record, &host.memory, first, second),
        _ => Vec::new(),
    };
    let own = range(function, arguments).map(|range| (format!("{function:x}"), range));
    let areas = areas.into_iter().map(|range| ("area".to_owned(), range));
    own.into_iter()
        .chain(areas)
        .map(|(by, (start, length))| Named {
            by,
            guest: guest as usize,
            start: RealAddress(start),
            length,
        })
        .collect()
}

/// The rings that take entries, each with its guest.
fn rings(host: &Host) -> Vec<(usize, Ring)> {
    let mut rings = Vec::new();
    for (guest, record) in host.tables.guests.iter().enumerate() {
        for cpu in &record.cpus {
            let set = cpu.queues[..2].iter().flatten();
            rings.extend(set.map(|&ring| (guest, ring)));
        }
    }
    rings
}

/// Whether the next entry is not where it would be in one piece.
fn behind_seam(guest: &Guest, ring: &Ring) -> bool {
    let place = |at| guest.place(RealAddress(at)).map(|HostOffset(at)| at as u64);
    let [base, tail] = [ring.base.0, ring.base.0 + ring.tail].map(place);
    base.map(|base| base + ring.tail) != tail
}

fn orders(guest: &Guest, range: &Named) -> Vec<&'static str> {
    let pieces: Vec<Piece> = guest.pieces(range.start, range.length).collect();
    let order = |pair: &[Piece]| {
        let (end, next) = (pair[0].bytes().end, pair[1].bytes().start);
        ORDERS[usize::from(next != end) + usize::from(next < end)]
    };
    pieces.windows(2).map(order).collect()
}

/// How a range leaves the extents, if it does.
fn way_out(guest: &Guest, range: &Named) -> Option<&'static str> {
    if guest.is_valid(range.start, range.length) {
        return None;
    }
    let RealAddress(start) = range.start;
    let holds = |at| guest.place(RealAddress(at)).is_some();
    let Some(last) = start.checked_add(range.length.checked_sub(1)?) else {
        return holds(start).then_some(ROUND);
    };
    match guest.pieces(range.start, range.length).count() {
        0 => None,
        _ if holds(last) => Some(GAP),
        1 => Some(RUNS_OUT),
        _ => Some(RUNS_OUT_LATER),
    }
}
