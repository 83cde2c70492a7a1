//! Which hits a generated session has: counted in every row and in buffers of
//! every kind, not counted in every way, refused for every number; and what is
//! then read of the words that they change or leave.

use crate::coverage::generated;
use crate::hits::Hit;
use crate::model::{Event, Host, Outcome, Status};
use crate::reach::range;
use crate::session::{parse, Line};
use crate::tables::{Group, Guest, Piece, RealAddress, Tables};
use std::collections::BTreeMap;

/// In each of the gate's sessions each kind occurs at least so often.
const LEAST: u64 = 3;
const SEEDS: std::ops::RangeInclusive<u64> = 1..=4;
const LINES: u64 = 50_000;

const BUFFER_SIZE: u64 = 512;
/// So many events behind a hit are a look at it.
const SOON: u64 = 6;

const FIELDS: [&str; 3] = ["side", "context", "page index"];
const BUFFERS: [&str; 2] = ["without a buffer", "with a buffer"];
const ORDERS: [&str; 3] = ["just behind", "further on", "before"];
const BITS: [u32; 4] = [8, 16, 32, 63];

const BESIDE: &str = "beside the right ones";
const ABOVE: &str = "with bits above a right one";
const MOST: &str = "2^64-1";

const KINDS: [&str; 43] = [
    "too little memory",
    "too little memory, and a bad number",
    "no such guest",
    "no such guest, and a bad number",
    "no such cpu",
    "no such cpu, and a bad number",
    "page index 2",
    "page index 4",
    "page index 6",
    "two bad numbers",
    "no address: never set",
    "no address: no group",
    "no address: set to 0",
    "no address: not on 64",
    "no address: not valid",
    "no address, and the buffer before is read",
    "no address, and real 0 is read",
    "no ticks",
    "2^64-1 ticks",
    "hits wrap",
    "ticks wrap",
    "ticks come to 2^64",
    "both wrap",
    "the only buffer of its guest",
    "another cpu has the same buffer",
    "another cpu's buffer has these words too",
    "another cpu's buffer has other words of it",
    "another cpu's buffer is elsewhere",
    "another guest has the same address",
    "in an entry of 3c",
    "in an entry of 3d",
    "in the next entry of 3c",
    "in the next entry of 3d",
    "in a list that is sent then",
    "in a list that is refused then",
    "in a descriptor that is accepted then",
    "in a descriptor that is refused then",
    "its hits are read",
    "its ticks are read",
    "the word before them is read",
    "the word behind them is read",
    "another row is read",
    "refused, and the row is read",
];

fn asked_for() -> Vec<String> {
    let mut kinds: Vec<String> = KINDS.map(str::to_owned).into();
    let rows = (0..BUFFER_SIZE).step_by(0x10).filter(|&at| is_row(at));
    kinds.extend(rows.map(|at| format!("counted at {at:x}")));
    for field in FIELDS {
        for buffer in BUFFERS {
            kinds.extend([BESIDE, ABOVE, MOST].map(|what| format!("{field} {what}, {buffer}")));
        }
        kinds.extend(BITS.map(|bit| format!("{field} with bit {bit}")));
    }
    for order in ORDERS {
        kinds.extend(["before", "behind"].map(|side| seam_kind(side, order)));
    }
    kinds
}

/// Whether a row of 003 begins at this place of the buffer.
fn is_row(at: u64) -> bool {
    at < BUFFER_SIZE && matches!(at % 0x80, 0 | 0x10 | 0x30 | 0x50)
}

fn seam_kind(side: &str, order: &str) -> String {
    format!("{side} a seam, the next piece {order}")
}

#[test]
fn generated_sessions_have_every_kind_of_hit() {
    let asked_for = asked_for();
    for seed in SEEDS {
        let kinds = kinds_of(&generated(seed, LINES).expect("memory"));
        for kind in &asked_for {
            let count = kinds.get(kind).copied().unwrap_or(0);
            assert!(count >= LEAST, "seed {seed}, {kind}: {count} times");
        }
        for kind in kinds.keys() {
            assert!(asked_for.contains(kind), "{kind} is not asked for");
        }
    }
}

fn kinds_of(text: &[u8]) -> BTreeMap<String, u64> {
    let mut kinds = BTreeMap::new();
    let mut host = Host::new();
    let mut past = Past::default();
    for line in text.split(|&byte| byte == b'\n') {
        match parse(line) {
            Some(Line::Image(image)) => {
                _ = host.load_image(&image);
                past = Past::default();
            }
            Some(Line::Event(event)) => {
                for kind in past.answer(&mut host, &event) {
                    *kinds.entry(kind).or_default() += 1;
                }
            }
            None => (),
        }
    }
    kinds
}

/// A guest and a cpu of it.
type Who = (usize, usize);

/// The last hit of a cpu that there is.
#[derive(Clone, Copy)]
struct Last {
    guest: usize,
    refused: bool,
    /// Where it was counted; 0 without a buffer.
    buffer: u64,
    /// The buffer that the cpu had before it had none.
    before: u64,
    place: u64,
    since: u64,
}

#[derive(Default)]
struct Past {
    /// How a cpu came to have no address, and the one before.
    unset: BTreeMap<Who, (&'static str, u64)>,
    last: Option<Last>,
}

impl Past {
    /// Lets an event happen and says of which kinds it is.
    fn answer(&mut self, host: &mut Host, event: &Event) -> Vec<String> {
        if let Event::Hit { guest, cpuid, hit } = *event {
            self.last = None;
            let kinds = self.hit(host, [guest, cpuid], &hit);
            _ = host.event(event);
            return kinds;
        }
        let before = host.tables.clone();
        let outcome = host.event(event);
        self.note_unset(&before, event, outcome);
        let kind = self.last.and_then(|last| last.kind_of_next(event, outcome));
        let later = self.last.map(|last| Last {
            since: last.since + 1,
            ..last
        });
        self.last = later.filter(|last| last.since < SOON);
        kind.map(str::to_owned).into_iter().collect()
    }

    fn note_unset(&mut self, before: &Tables, event: &Event, outcome: Outcome) {
        let &Event::Call {
            guest,
            cpuid,
            trap: 0x80,
            function: 0x102,
            arguments: [address, ..],
        } = event
        else {
            return;
        };
        let why = match outcome {
            Ok(_) if address == 0 => "set to 0",
            Err(Status::EBADALIGN) => "not on 64",
            Err(Status::ENORADDR) => "not valid",
            _ => return,
        };
        let who = (guest as usize, cpuid as usize);
        let buffer = before.guests[who.0].cpus[who.1].statistics;
        self.unset.insert(who, (why, buffer));
    }

    fn hit(&mut self, host: &Host, [guest, cpuid]: [u64; 2], hit: &Hit) -> Vec<String> {
        let bad = bad_fields(hit);
        let also = if bad.is_empty() {
            ""
        } else {
            ", and a bad number"
        };
        if host.tables.host_end > host.memory.len() as u64 {
            return vec![format!("too little memory{also}")];
        }
        let number = usize::try_from(guest).unwrap_or(usize::MAX);
        let Some(record) = host.tables.guests.get(number) else {
            return vec![format!("no such guest{also}")];
        };
        let Some(cpu) = record.cpu_numbered(cpuid) else {
            return vec![format!("no such cpu{also}")];
        };
        let unset = self.unset.get(&(number, cpu)).copied();
        let (why, before) = unset.unwrap_or(("never set", 0));
        let buffer = record.cpus[cpu].statistics;
        // Of a bad number its lower bits, which a mask would leave.
        let place = 0x100 * (hit.side & 1) + 0x80 * (hit.context & 1) + 0x10 * (hit.index & 7);
        self.last = Some(Last {
            guest: number,
            refused: !bad.is_empty(),
            buffer,
            before,
            place,
            since: 0,
        });
        match (bad.is_empty(), buffer) {
            (false, _) => refused(&bad, buffer != 0),
            (true, 0) => uncounted(record, why),
            (true, _) => counted(host, (number, cpu), hit, buffer + place),
        }
    }
}

impl Last {
    fn kind_of_next(&self, event: &Event, outcome: Outcome) -> Option<&'static str> {
        match *event {
            Event::Load { guest, address } if guest == self.guest as u64 && outcome.is_ok() => {
                self.kind_of_load(address.0)
            }
            Event::Call {
                guest,
                trap: 0x80,
                function,
                arguments,
                ..
            } if guest == self.guest as u64 && self.since == 0 && self.buffer != 0 => {
                let (start, length) = range(function, arguments)?;
                let at = self.buffer + self.place;
                let within =
                    (at + 8).wrapping_sub(start) < length || at.wrapping_sub(start) < length;
                within.then(|| kind_of_call(function, outcome)).flatten()
            }
            _ => None,
        }
    }

    fn kind_of_load(&self, address: u64) -> Option<&'static str> {
        let offset = |buffer: u64| address.wrapping_sub(buffer + self.place);
        let own = |buffer: u64| matches!(offset(buffer), 0 | 8);
        if self.refused {
            return own(self.buffer).then_some("refused, and the row is read");
        }
        if self.buffer == 0 {
            let before = self.before != 0 && own(self.before);
            let kind = before.then_some("no address, and the buffer before is read");
            return kind.or(own(0).then_some("no address, and real 0 is read"));
        }
        match offset(self.buffer) {
            0 => Some("its hits are read"),
            8 => Some("its ticks are read"),
            16 => Some("the word behind them is read"),
            offset if offset == 0u64.wrapping_sub(8) => Some("the word before them is read"),
            _ => {
                let word = address.wrapping_sub(self.buffer);
                is_row(word - word % 16).then_some("another row is read")
            }
        }
    }
}

/// A call whose range has words of the hit just before it.
fn kind_of_call(function: u64, outcome: Outcome) -> Option<&'static str> {
    match (function, outcome) {
        (0x42, Ok(_) | Err(Status::EWOULDBLOCK)) => Some("in a list that is sent then"),
        (0x42, Err(_)) => Some("in a list that is refused then"),
        (0x20 | 0x21, Ok(_)) => Some("in a descriptor that is accepted then"),
        (0x20 | 0x21, Err(_)) => Some("in a descriptor that is refused then"),
        _ => None,
    }
}

fn is_right(field: usize, number: u64) -> bool {
    match field {
        2 => [0, 1, 3, 5].contains(&number),
        _ => number <= 1,
    }
}

fn bad_fields(hit: &Hit) -> Vec<(usize, u64)> {
    let fields = [hit.side, hit.context, hit.index].into_iter().enumerate();
    fields
        .filter(|&(field, number)| !is_right(field, number))
        .collect()
}

fn refused(bad: &[(usize, u64)], buffer: bool) -> Vec<String> {
    let mut kinds = Vec::new();
    for &(field, number) in bad {
        let name = FIELDS[field];
        let what = match number {
            u64::MAX => MOST,
            0..0x100 => BESIDE,
            _ => ABOVE,
        };
        kinds.push(format!("{name} {what}, {}", BUFFERS[usize::from(buffer)]));
        let bits = BITS
            .into_iter()
            .filter(|bit| is_right(field, number ^ 1 << bit));
        kinds.extend(bits.map(|bit| format!("{name} with bit {bit}")));
        if let (2, 2 | 4 | 6) = (field, number) {
            kinds.push(format!("{name} {number}"));
        }
    }
    if bad.len() > 1 {
        kinds.push("two bad numbers".to_owned());
    }
    kinds
}

fn uncounted(guest: &Guest, why: &str) -> Vec<String> {
    let mut kinds = vec![format!("no address: {why}")];
    if guest.major(Group::Statistics) == 0 {
        kinds.push("no address: no group".to_owned());
    }
    kinds
}

fn counted(host: &Host, who: Who, hit: &Hit, at: u64) -> Vec<String> {
    let guest = &host.tables.guests[who.0];
    let buffer = guest.cpus[who.1].statistics;
    let mut kinds = vec![format!("counted at {:x}", at - buffer)];
    kinds.extend(seam(guest, buffer, at));
    let plain = sums(host, guest, hit, at)
        .into_iter()
        .chain(others(&host.tables, who, at))
        .chain(entries(guest, at));
    kinds.extend(plain.map(str::to_owned));
    kinds
}

fn sums(host: &Host, guest: &Guest, hit: &Hit, at: u64) -> Vec<&'static str> {
    let word = |address| {
        let mut bytes = [0; 8];
        guest.read(RealAddress(address), &host.memory, &mut bytes);
        u64::from_be_bytes(bytes)
    };
    let hits_wrap = word(at) == u64::MAX;
    let (ticks, ticks_wrap) = word(at + 8).overflowing_add(hit.ticks);
    let kinds = [
        (hit.ticks == 0, "no ticks"),
        (hit.ticks == u64::MAX, "2^64-1 ticks"),
        (hits_wrap, "hits wrap"),
        (ticks_wrap, "ticks wrap"),
        (ticks_wrap && ticks == 0, "ticks come to 2^64"),
        (hits_wrap && ticks_wrap, "both wrap"),
    ];
    kinds
        .into_iter()
        .filter(|(is, _)| *is)
        .map(|(_, kind)| kind)
        .collect()
}

/// How the buffers of other cpus lie to it.
fn others(tables: &Tables, (guest, cpu): Who, at: u64) -> Vec<&'static str> {
    let buffers = |guest: usize| tables.guests[guest].cpus.iter().map(|cpu| cpu.statistics);
    let buffer = tables.guests[guest].cpus[cpu].statistics;
    let own = buffers(guest)
        .enumerate()
        .filter(|&(other, there)| other != cpu && there != 0);
    let mut kinds: Vec<&'static str> = own
        .map(|(_, there)| match there.abs_diff(buffer) {
            0 => "another cpu has the same buffer",
            BUFFER_SIZE.. => "another cpu's buffer is elsewhere",
            _ if at.wrapping_sub(there) < BUFFER_SIZE => "another cpu's buffer has these words too",
            _ => "another cpu's buffer has other words of it",
        })
        .collect();
    if kinds.is_empty() {
        kinds.push("the only buffer of its guest");
    }
    let mut rest = (0..tables.guests.len()).filter(|&other| other != guest);
    if rest.any(|other| buffers(other).any(|there| there == buffer)) {
        kinds.push("another guest has the same address");
    }
    kinds
}

/// What of the rings that take entries the words lie in.
fn entries(guest: &Guest, at: u64) -> Vec<&'static str> {
    let mut kinds = Vec::new();
    for cpu in &guest.cpus {
        let names = [
            ["in an entry of 3c", "in the next entry of 3c"],
            ["in an entry of 3d", "in the next entry of 3d"],
        ];
        for (ring, [held, next]) in cpu.queues.iter().zip(names) {
            let Some(ring) = ring.filter(|ring| at.wrapping_sub(ring.base.0) < ring.size) else {
                continue;
            };
            let entry = (at - ring.base.0) / 64 * 64;
            if ring.forward(entry) < ring.forward(ring.tail) {
                kinds.push(held);
            } else if entry == ring.tail {
                kinds.push(next);
            }
        }
    }
    kinds
}

/// On which side of a seam of the buffer the words lie.
fn seam(guest: &Guest, buffer: u64, at: u64) -> Option<String> {
    let pieces: Vec<Piece> = guest.pieces(RealAddress(buffer), BUFFER_SIZE).collect();
    let &[first, second] = pieces.as_slice() else {
        return None;
    };
    let (end, next) = (first.bytes().end, second.bytes().start);
    let order = ORDERS[usize::from(next != end) + usize::from(next < end)];
    let side = match at - buffer < first.length {
        true => "before",
        false => "behind",
    };
    Some(seam_kind(side, order))
}
