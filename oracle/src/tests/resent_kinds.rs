//! Which lists with entries that read 0xffff a generated session has: sent
//! again with and without room, refused in every way, and under the rings
//! that they fill.

use super::each_event;
use crate::coverage::generated;
use crate::model::{Event, Host, Status};
use crate::queues::{Entry, CPU_MONDO, SENT};
use crate::tables::{Guest, HostOffset, RealAddress};
use std::collections::BTreeMap;

/// In each of the gate's sessions each kind occurs at least so often.
const LEAST: u64 = 3;
const SEEDS: std::ops::RangeInclusive<u64> = 1..=4;
const LINES: u64 = 50_000;

const KINDS: [&str; 27] = [
    "marks, and the others are sent",
    "marks, and some others are left",
    "64 entries with marks",
    "a mark before an entry that is sent",
    "marks on both sides of a seam",
    "only marks: one",
    "only marks: more",
    "only marks: 64",
    "only marks: bad count",
    "only marks: data not on 64",
    "only marks: list not on 2",
    "only marks: data not valid",
    "only marks: list not valid",
    "again: still full",
    "again: some more are sent",
    "again: the last are sent",
    "again: all were sent",
    "the caller behind a mark",
    "the caller before a mark",
    "no cpuid behind a mark",
    "no cpuid before a mark",
    "the caller and no cpuid beside a mark",
    "0xfffe beside marks alone",
    "0xfffe alone",
    "reads as a mark by its turn: sent",
    "reads as a mark by its turn: left",
    "a mark that no longer reads so by its turn",
];

type Kind = &'static str;

/// A mondo send of a cpu that there is, and its list before it.
struct Send {
    guest: usize,
    cpuid: usize,
    count: u64,
    list: u64,
    data: u64,
    entries: Vec<u16>,
}

impl Send {
    fn is_same_call(&self, other: &Send) -> bool {
        let call = |send: &Send| (send.guest, send.cpuid, send.count, send.list, send.data);
        call(self) == call(other)
    }
}

#[test]
fn generated_sessions_have_every_kind_of_list_that_is_sent_again() {
    for seed in SEEDS {
        let kinds = kinds_of(&generated(seed, LINES).expect("memory"));
        for kind in KINDS {
            let count = kinds.get(kind).copied().unwrap_or(0);
            assert!(count >= LEAST, "seed {seed}, {kind}: {count} times");
        }
        for kind in kinds.keys() {
            assert!(KINDS.contains(kind), "{kind} is not asked for");
        }
    }
}

fn kinds_of(text: &[u8]) -> BTreeMap<Kind, u64> {
    let mut kinds = BTreeMap::new();
    let mut before = None;
    each_event(text, |host, event| match send(host, event) {
        Some(send) => {
            for kind in answer(host, event, &send, before.as_ref()) {
                *kinds.entry(kind).or_default() += 1;
            }
            before = Some(send);
        }
        None => drop(host.event(event)),
    });
    kinds
}

fn send(host: &Host, event: &Event) -> Option<Send> {
    let &Event::Call {
        guest,
        cpuid,
        trap: 0x80,
        function: 0x42,
        arguments: [count, list, data, ..],
    } = event
    else {
        return None;
    };
    let guest = usize::try_from(guest).ok()?;
    let record = host.tables.guests.get(guest)?;
    Some(Send {
        guest,
        cpuid: record.cpu_numbered(cpuid)?,
        count,
        list,
        data,
        entries: entries_at(record, &host.memory, count, list),
    })
}

/// What of a list is memory of the guest. A count that is refused stands for
/// the nearest one that is not.
fn entries_at(guest: &Guest, memory: &[u8], count: u64, list: u64) -> Vec<u16> {
    let places = (0..count.clamp(1, 64)).map(|place| list.checked_add(2 * place));
    let entries = places.map_while(|at| entry_at(guest, memory, at?));
    entries.collect()
}

fn entry_at(guest: &Guest, memory: &[u8], at: u64) -> Option<u16> {
    let mut pair = [0; 2];
    guest.read(RealAddress(at), memory, &mut pair);
    let valid = guest.is_valid(RealAddress(at), 2);
    valid.then_some(u16::from_be_bytes(pair))
}

/// Lets a send happen and says of which kinds it is.
fn answer(host: &mut Host, event: &Event, send: &Send, before: Option<&Send>) -> Vec<Kind> {
    let guest = host.tables.guests[send.guest].clone();
    let memory = host.memory.clone();
    let status = host.event(event).err();
    let mut kinds: Vec<Kind> = only_marks(&guest, send, status).into_iter().collect();
    match status {
        None | Some(Status::EWOULDBLOCK) => {
            let left = status.is_some();
            let after = entries_at(&guest, &host.memory, send.count, send.list);
            kinds.extend(taken(&send.entries, left));
            kinds.extend(again(send, before, left, &after));
            kinds.extend(over_a_seam(&guest, send));
            kinds.extend(turns(send, guest, memory));
        }
        Some(Status::EINVAL | Status::ENOCPU) if (1..=64).contains(&send.count) => {
            kinds.extend(refused(send, guest.cpus.len()))
        }
        Some(_) => (),
    }
    kinds
}

fn is_mark(entry: &u16) -> bool {
    *entry == SENT
}

/// Whether there are marks and others.
fn is_mixed(entries: &[u16]) -> bool {
    entries.iter().any(is_mark) && !entries.iter().all(is_mark)
}

fn taken(entries: &[u16], left: bool) -> Vec<Kind> {
    if !is_mixed(entries) {
        return Vec::new();
    }
    let mut kinds = vec![match left {
        true => "marks, and some others are left",
        false => "marks, and the others are sent",
    }];
    if entries.len() == 64 {
        kinds.push("64 entries with marks");
    }
    let first = entries.iter().position(is_mark);
    let last = entries.iter().rposition(|entry| !is_mark(entry));
    if !left && first < last {
        kinds.push("a mark before an entry that is sent");
    }
    kinds
}

/// The same call as the send before it.
fn again(send: &Send, before: Option<&Send>, left: bool, after: &[u16]) -> Option<Kind> {
    let before = before.filter(|before| before.is_same_call(send))?;
    if send.entries.iter().all(is_mark) {
        let marked = before.entries != send.entries;
        return marked.then_some("again: all were sent");
    }
    is_mixed(&send.entries).then_some(match (left, after == send.entries) {
        (true, true) => "again: still full",
        (true, false) => "again: some more are sent",
        (false, _) => "again: the last are sent",
    })
}

fn over_a_seam(guest: &Guest, send: &Send) -> Option<Kind> {
    let mut pieces = guest.pieces(RealAddress(send.list), 2 * send.count);
    let before = pieces.next()?.bytes().len() / 2;
    let (before, behind) = send.entries.split_at(before);
    let both = before.iter().any(is_mark) && behind.iter().any(is_mark);
    (both && is_mixed(&send.entries)).then_some("marks on both sides of a seam")
}

/// What the entries of an accepted list read by their turn: the send is
/// followed on the guest and the memory as they were.
fn turns(send: &Send, mut guest: Guest, mut memory: Vec<u8>) -> Vec<Kind> {
    let mut data: Entry = [0; 64];
    guest.read(RealAddress(send.data), &memory, &mut data);
    let mut kinds = Vec::new();
    for (&entry, place) in send.entries.iter().zip(0..) {
        let at = send.list + 2 * place;
        let by_now = entry_at(&guest, &memory, at);
        let covered = by_now != Some(entry);
        if is_mark(&entry) {
            kinds.extend(covered.then_some("a mark that no longer reads so by its turn"));
            continue;
        }
        let sent = guest.append(usize::from(entry), CPU_MONDO, &data, &mut memory);
        if covered && by_now == Some(SENT) {
            kinds.push(match sent {
                true => "reads as a mark by its turn: sent",
                false => "reads as a mark by its turn: left",
            });
        }
        if let (true, Some(HostOffset(at))) = (sent, guest.place(RealAddress(at))) {
            memory[at..at + 2].copy_from_slice(&SENT.to_be_bytes());
        }
    }
    kinds
}

fn refused(send: &Send, cpus: usize) -> Vec<Kind> {
    let entries = &send.entries;
    let is_caller = |entry: &u16| usize::from(*entry) == send.cpuid;
    let is_stranger = |entry: &u16| usize::from(*entry) >= cpus && !is_mark(entry);
    let caller = entries.iter().position(is_caller);
    let stranger = entries.iter().position(is_stranger);
    let Some(mark) = entries.iter().position(is_mark) else {
        let alone = entries.iter().all(|&entry| entry == 0xfffe);
        return alone.then_some("0xfffe alone").into_iter().collect();
    };
    let mut kinds = Vec::new();
    match (caller, stranger) {
        (Some(_), Some(_)) => kinds.push("the caller and no cpuid beside a mark"),
        (Some(at), None) if mark < at => kinds.push("the caller behind a mark"),
        (Some(_), None) => kinds.push("the caller before a mark"),
        (None, Some(at)) if mark < at => kinds.push("no cpuid behind a mark"),
        (None, Some(_)) => kinds.push("no cpuid before a mark"),
        (None, None) => (),
    }
    if stranger.is_some() && entries.iter().all(|&entry| entry >= 0xfffe) {
        kinds.push("0xfffe beside marks alone");
    }
    kinds
}

fn only_marks(guest: &Guest, send: &Send, status: Option<Status>) -> Option<Kind> {
    if send.entries.is_empty() || !send.entries.iter().all(is_mark) {
        return None;
    }
    match status {
        None if send.count == 1 => Some("only marks: one"),
        None if send.count == 64 => Some("only marks: 64"),
        None => Some("only marks: more"),
        Some(Status::EINVAL) => Some("only marks: bad count"),
        Some(Status::EBADALIGN) if send.list % 2 == 1 => Some("only marks: list not on 2"),
        Some(Status::EBADALIGN) => Some("only marks: data not on 64"),
        Some(Status::ENORADDR) if guest.is_valid(RealAddress(send.data), 64) => {
            Some("only marks: list not valid")
        }
        Some(Status::ENORADDR) => Some("only marks: data not valid"),
        Some(_) => None,
    }
}
