//! What a generated session does with sources, by how their target came about:
//! it is still the first, was chosen, moved back to cpu 0, or was left alone on
//! the way to 2.0. And how room comes to a source that is received.

use crate::coverage::generated;
use crate::model::{Event, Host};
use crate::queues::DEVICE_MONDO;
use crate::session::{parse, Line};
use crate::tables::{Group, Guest, Source, SourceState, Tables};
use std::collections::{BTreeMap, BTreeSet};

/// In each of the gate's sessions each kind occurs at least so often.
const LEAST: u64 = 10;
const SEEDS: std::ops::RangeInclusive<u64> = 1..=4;
const LINES: u64 = 50_000;

const FIRST: &str = "first target";
const CHOSEN: &str = "chosen target";
const BACK: &str = "target back at 0";
const LEFT: &str = "target left by 2.0";

const DEEDS: [&str; 4] = [
    "delivered",
    "raised while disabled",
    "target read",
    "enabled",
];

/// Not asked of a target that was left by 2.0: few sources come that far.
const OTHER_DEEDS: [&str; 3] = [
    "raised without a ring",
    "raised with a full ring",
    "target set while enabled",
];

/// It stays received, since only a raise delivers.
const ROOM: &str = "room for a received one";
const GIVERS: [&str; 5] = ["head", "ring", "enabled", "state", "target"];

type Kind = (&'static str, &'static str);

/// A source, by the number of its guest and its sysino.
type Place = (usize, usize);

/// How the targets came about that are not the first.
type Origins = BTreeMap<Place, &'static str>;

#[test]
fn generated_sessions_have_every_kind_of_target() {
    for seed in SEEDS {
        let kinds = kinds_of(&generated(seed, LINES).expect("memory"));
        let check = |kind: Kind| {
            let count = kinds.get(&kind).copied().unwrap_or(0);
            assert!(count >= LEAST, "seed {seed}, {kind:?}: {count} times");
        };
        for origin in [FIRST, CHOSEN, BACK, LEFT] {
            DEEDS.iter().for_each(|deed| check((origin, deed)));
        }
        for origin in [FIRST, CHOSEN, BACK] {
            OTHER_DEEDS.iter().for_each(|deed| check((origin, deed)));
        }
        GIVERS.iter().for_each(|giver| check((ROOM, giver)));
    }
}

fn kinds_of(text: &[u8]) -> BTreeMap<Kind, u64> {
    let mut kinds = BTreeMap::new();
    let mut host = Host::new();
    let mut origins = Origins::new();
    for line in text.split(|&byte| byte == b'\n') {
        match parse(line) {
            Some(Line::Image(image)) => {
                _ = host.load_image(&image);
                origins.clear();
            }
            Some(Line::Event(event)) => {
                for kind in answer(&mut host, &event, &mut origins) {
                    *kinds.entry(kind).or_default() += 1;
                }
            }
            None => (),
        }
    }
    kinds
}

/// Lets an event happen and says of which kinds it is.
fn answer(host: &mut Host, event: &Event, origins: &mut Origins) -> Vec<Kind> {
    let before = host.tables.clone();
    if host.event(event).is_err() {
        return Vec::new();
    }
    let mut kinds = Vec::new();
    if let Some((place, function)) = named(&before, event) {
        let (guest, sysino) = place;
        let after = &host.tables.guests[guest].sources[sysino];
        let origin = origins.get(&place).copied().unwrap_or(FIRST);
        let deed = deed(&before.guests[guest], sysino, function, after);
        kinds.extend(deed.map(|deed| (origin, deed)));
        if function == 0xae {
            let away = before.guests[guest].sources[sysino].target != 0;
            let back = after.target == 0 && (away || origin == BACK);
            origins.insert(place, if back { BACK } else { CHOSEN });
        }
    }
    leave(&before, &host.tables, origins);
    if !with_room(&host.tables).is_subset(&with_room(&before)) {
        kinds.extend(giver(event).map(|giver| (ROOM, giver)));
    }
    kinds
}

/// The source that an accepted event names, and the function with its number
/// of 2.0; for a raise 0.
fn named(tables: &Tables, event: &Event) -> Option<(Place, u64)> {
    match *event {
        Event::Call {
            guest,
            trap: 0x80,
            function: function @ 0xa1..=0xae,
            arguments: [first, second, ..],
            ..
        } => {
            let guest = guest as usize;
            if function <= 0xa6 {
                return Some(((guest, first as usize), function + 8));
            }
            let sysino = tables.guests[guest].sysino(first, second)?;
            Some(((guest, sysino), function))
        }
        Event::Raise { devhandle, devino } => {
            let mut sysinos = tables.guests.iter().map(|g| g.sysino(devhandle, devino));
            let guest = sysinos.position(|sysino| sysino.is_some())?;
            let sysino = tables.guests[guest].sysino(devhandle, devino)?;
            Some(((guest, sysino), 0))
        }
        _ => None,
    }
}

fn deed(guest: &Guest, sysino: usize, function: u64, after: &Source) -> Option<&'static str> {
    let source = &guest.sources[sysino];
    let ring = guest.cpus[source.target].queues[DEVICE_MONDO];
    match function {
        0 if source.state == SourceState::Delivered => None,
        0 if after.state == SourceState::Delivered => Some("delivered"),
        0 if !source.enabled => Some("raised while disabled"),
        0 if ring.is_none() => Some("raised without a ring"),
        0 => Some("raised with a full ring"),
        0xaa if after.enabled && !source.enabled => Some("enabled"),
        0xad => Some("target read"),
        0xae if source.enabled => Some("target set while enabled"),
        _ => None,
    }
}

/// The targets other than 0 of a guest that goes to 2.0.
fn leave(before: &Tables, after: &Tables, origins: &mut Origins) {
    let major = |guest: &Guest| guest.major(Group::Interrupts);
    for (number, (before, after)) in before.guests.iter().zip(&after.guests).enumerate() {
        if major(before) == major(after) || major(after) != 2 {
            continue;
        }
        for (sysino, source) in after.sources.iter().enumerate() {
            if source.target != 0 {
                origins.insert((number, sysino), LEFT);
            }
        }
    }
}

/// The sources that are received although a raise would deliver them.
fn with_room(tables: &Tables) -> BTreeSet<Place> {
    let mut places = BTreeSet::new();
    for (number, guest) in tables.guests.iter().enumerate() {
        for (sysino, source) in guest.sources.iter().enumerate() {
            let ring = guest.cpus[source.target].queues[DEVICE_MONDO];
            let waits = source.enabled && source.state == SourceState::Received;
            if waits && ring.is_some_and(|ring| !ring.is_full()) {
                places.insert((number, sysino));
            }
        }
    }
    places
}

fn giver(event: &Event) -> Option<&'static str> {
    let function = match *event {
        Event::Head { .. } => return Some("head"),
        Event::Call { function, .. } => function,
        _ => return None,
    };
    match function {
        0x14 => Some("ring"),
        0xa2 | 0xaa => Some("enabled"),
        0xa4 | 0xac => Some("state"),
        0xa6 | 0xae => Some("target"),
        _ => None,
    }
}
