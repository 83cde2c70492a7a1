//! Which numbers a session reaches: the guests, cpus, queues, sources and
//! extents that its accepted lines name, for each kind of line.

use crate::coverage::kind;
use crate::hits::Hit;
use crate::model::{Event, Host};
use crate::queues::SENT;
use crate::session::{self, parse, Line};
use crate::tables::{Guest, RealAddress};
use std::collections::{BTreeMap, BTreeSet};

/// By kind of line and what the number is of.
pub type Reach = BTreeMap<(String, &'static str), BTreeSet<usize>>;

type Named = Vec<(&'static str, usize)>;

pub fn reach_of(text: &[u8]) -> Reach {
    let mut host = Host::new();
    let mut reach = Reach::new();
    for line in text.split(|&byte| byte == b'\n') {
        let named = match parse(line) {
            Some(Line::Event(event)) => named(&host, &event),
            _ => Named::new(),
        };
        let mut answer = Vec::new();
        session::answer_line(&mut host, line, &mut answer);
        let answer = String::from_utf8_lossy(&answer).into_owned();
        let Some(values) = answer.strip_prefix("0 ") else {
            continue;
        };
        let kind = kind(line, values.split(' ').next().unwrap_or(""));
        for (what, number) in named {
            reach
                .entry((kind.clone(), what))
                .or_default()
                .insert(number);
        }
    }
    reach
}

/// What an event names, on the tables before it. No event is accepted while
/// the memory ends before an extent does.
fn named(host: &Host, event: &Event) -> Named {
    if host.tables.host_end > host.memory.len() as u64 {
        return Named::new();
    }
    match *event {
        Event::Call {
            guest,
            cpuid,
            trap,
            function,
            arguments,
        } => {
            let mut named = vec![("guest", guest as usize), ("cpu", cpuid as usize)];
            if let (0x80, Some(guest)) = (trap, host.tables.guests.get(guest as usize)) {
                named.extend(named_by_call(guest, &host.memory, function, arguments));
            }
            named
        }
        Event::Head { guest, cpuid, .. } => {
            vec![("guest", guest as usize), ("cpu", cpuid as usize)]
        }
        Event::Hit { guest, cpuid, hit } => {
            let mut named = vec![("guest", guest as usize), ("cpu", cpuid as usize)];
            if let Some(guest) = host.tables.guests.get(guest as usize) {
                named.extend(named_by_hit(guest, cpuid, &hit));
            }
            named
        }
        Event::Raise { devhandle, devino } => named_by_raise(host, devhandle, devino),
        Event::Load { guest, address } | Event::Store { guest, address, .. } => {
            let mut named = vec![("guest", guest as usize)];
            if let Some(guest) = host.tables.guests.get(guest as usize) {
                named.extend(extent(guest, address.0));
            }
            named
        }
    }
}

fn named_by_call(guest: &Guest, memory: &[u8], function: u64, arguments: [u64; 5]) -> Named {
    let [first, second, third, ..] = arguments;
    let queue = ("queue", first.wrapping_sub(0x3c) as usize);
    let mut named = match function {
        0x14 | 0x15 => vec![queue],
        0x20 | 0x21 => areas(guest, memory, first, second),
        0x42 => mondo_targets(guest, memory, first, second),
        0xa6 => vec![("source", first as usize), ("target", second as usize)],
        0xa1..=0xa5 => vec![("source", first as usize)],
        0xae => [("target", third as usize)]
            .into_iter()
            .chain(source(guest, first, second))
            .collect(),
        0xa0 | 0xa7..=0xad => source(guest, first, second).into_iter().collect(),
        _ => Named::new(),
    };
    if let Some((start, length)) = range(function, arguments) {
        named.extend(extent(guest, start));
        let pieces = guest.pieces(RealAddress(start), length);
        named.push(("pieces", pieces.count()));
    }
    named
}

/// The range of real addresses that a call names: its first and its length.
pub fn range(function: u64, [first, second, third, ..]: [u64; 5]) -> Option<(u64, u64)> {
    match function {
        0x14 if third > 0 => Some((second, third.saturating_mul(64))),
        0x20 | 0x21 if first > 0 => Some((second, first.saturating_mul(32))),
        0x31 | 0x32 => Some((first, second)),
        0x42 => Some((second, first.saturating_mul(2))),
        0x102 if first > 0 => Some((first, 512)),
        _ => None,
    }
}

/// What a range that is valid and not too long holds.
fn content(guest: &Guest, memory: &[u8], start: u64, length: u64) -> Option<Vec<u8>> {
    let fits = length <= 128 && guest.is_valid(RealAddress(start), length);
    fits.then(|| {
        let mut bytes = vec![0; length as usize];
        guest.read(RealAddress(start), memory, &mut bytes);
        bytes
    })
}

fn mondo_targets(guest: &Guest, memory: &[u8], count: u64, list: u64) -> Named {
    let bytes = content(guest, memory, list, count.saturating_mul(2)).unwrap_or_default();
    let entries = bytes.chunks_exact(2);
    let entries = entries.map(|e| u16::from_be_bytes([e[0], e[1]]));
    let entries = entries.filter(|&entry| entry != SENT);
    entries.map(|cpu| ("target", usize::from(cpu))).collect()
}

/// The areas of TSB descriptors: their ranges, as the list has them.
pub fn tsb_areas(guest: &Guest, memory: &[u8], ntsb: u64, pointer: u64) -> Vec<(u64, u64)> {
    let bytes = content(guest, memory, pointer, ntsb.saturating_mul(32)).unwrap_or_default();
    let field = |bytes: &[u8]| bytes.iter().fold(0, |n, &byte| n << 8 | u64::from(byte));
    let descriptors = bytes.chunks_exact(32);
    descriptors
        .map(|d| (field(&d[16..24]), 16 * field(&d[4..8])))
        .collect()
}

/// In how many pieces each area lies.
fn areas(guest: &Guest, memory: &[u8], ntsb: u64, pointer: u64) -> Named {
    let areas = tsb_areas(guest, memory, ntsb, pointer).into_iter();
    let pieces = areas.map(|(start, length)| guest.pieces(RealAddress(start), length));
    pieces.map(|pieces| ("area", pieces.count())).collect()
}

/// The extent of the words that are counted in, and the pieces of the buffer.
fn named_by_hit(guest: &Guest, cpuid: u64, hit: &Hit) -> Named {
    let Some(cpu) = guest.cpu_numbered(cpuid).map(|cpuid| &guest.cpus[cpuid]) else {
        return Named::new();
    };
    let place = hit.place().filter(|_| cpu.statistics != 0);
    let extent = place.and_then(|place| extent(guest, cpu.statistics + place));
    let pieces = guest.pieces(RealAddress(cpu.statistics), 512).count();
    let pieces = place.map(|_| ("pieces", pieces));
    extent.into_iter().chain(pieces).collect()
}

fn named_by_raise(host: &Host, devhandle: u64, devino: u64) -> Named {
    for (number, guest) in host.tables.guests.iter().enumerate() {
        if let Some(sysino) = guest.sysino(devhandle, devino) {
            let target = guest.sources[sysino].target;
            return vec![("guest", number), ("source", sysino), ("target", target)];
        }
    }
    Named::new()
}

fn source(guest: &Guest, devhandle: u64, devino: u64) -> Option<(&'static str, usize)> {
    let sysino = guest.sysino(devhandle, devino)?;
    Some(("source", sysino))
}

/// The extent that an address is in.
fn extent(guest: &Guest, address: u64) -> Option<(&'static str, usize)> {
    let holds = |e: &crate::tables::Extent| address.wrapping_sub(e.real_start()) < e.size();
    let place = guest.extents.iter().position(holds)?;
    Some(("extent", place))
}
