//! Which faults the images of a generated session have: all of them, and not
//! only the one that is told. They are found by a reader of its own that goes
//! on behind a bad count; the least of them is compared with the answer.

use super::answers;
use crate::coverage::generated;
use crate::session::{parse, Line};
use std::collections::{BTreeMap, BTreeSet};

/// In each of the gate's sessions each kind occurs at least so often.
const LEAST: u64 = 3;
const SEEDS: std::ops::RangeInclusive<u64> = 1..=4;
const LINES: u64 = 50_000;

const NUMBERS: u64 = 0x70;
const ORDER: u64 = 0x71;
const SHARED: u64 = 0x72;
const TWICE: u64 = 0x73;
const END: u64 = 0x74;

/// Of so many places at least a session's faults are told: those of 111 are the
/// guests, those of 116 their numbers, and the first of all clashes with none.
const PLACES: [(u64, usize); 7] = [
    (0x6e, 1),
    (0x6f, 4),
    (NUMBERS, 22),
    (ORDER, 18),
    (SHARED, 20),
    (TWICE, 30),
    (END, 4),
];

/// What an image finds: a refusal has something to lose, or not.
const GUESTS: &str = "where there are guests";
const NO_GUEST: &str = "where there is none";

/// Status, guest and position: what is told is the least.
type Fault = (u64, u64, u64);

/// Guest and position.
type Place = (u64, u64);

#[derive(Default)]
struct Found {
    /// Headers and counts outside their limits, as they are read: the guest,
    /// and of what it is the count.
    counts: Vec<(u64, &'static str)>,
    /// The guest whose bits are missing.
    short: Option<u64>,
    /// What breaks the rules after the last field, as far as it was read. A
    /// clash is one of the later of the two.
    faults: BTreeSet<Fault>,
    /// The pairs that clash, by status, the earlier of the two first.
    clashes: BTreeSet<(u64, [Place; 2])>,
}

#[test]
fn generated_sessions_have_every_kind_of_fault() {
    for seed in SEEDS {
        let text = generated(seed, LINES).expect("memory");
        let (kinds, places) = kinds_of(&text);
        for kind in asked_for() {
            let count = kinds.get(&kind).copied().unwrap_or(0);
            assert!(count >= LEAST, "seed {seed}, {kind}: {count} times");
        }
        for (status, least) in PLACES {
            let count = places.get(&status).map_or(0, BTreeSet::len);
            assert!(count >= least, "seed {seed}, {status:x}: {count} places");
        }
    }
}

fn asked_for() -> Vec<String> {
    let mut kinds: Vec<String> = [
        "71 in one guest",
        "71 in one guest, not of the earliest pair",
        "bad edition",
        "bad guests",
        "a bad header before a bad count",
        "two bad counts in one guest",
        "bad counts in two guests",
        "a bad count behind a bad extent",
        "missing bits behind a bad count",
        "missing bits behind a bad extent",
    ]
    .map(str::to_owned)
    .into();
    for status in [0].into_iter().chain(0x6e..=END) {
        for before in [GUESTS, NO_GUEST] {
            kinds.push(format!("{status:x} {before}"));
        }
    }
    for guest in 0..4 {
        kinds.push(format!("missing bits in guest {guest}"));
        for what in ["cpus", "extents", "sources"] {
            kinds.push(format!("bad {what} in guest {guest}"));
        }
    }
    for told in NUMBERS..END {
        for other in told + 1..END {
            kinds.push(format!("{told:x}, {other:x} in a guest before it"));
            kinds.push(format!("{told:x}, {other:x} in its guest or behind it"));
        }
        kinds.push(format!("{told:x}, {END:x}"));
        kinds.push(format!("{told:x}, {told:x} in its guest"));
        kinds.push(format!("{told:x}, {told:x} behind its guest"));
    }
    for status in [SHARED, TWICE] {
        for what in ["in one guest", "between guests"] {
            kinds.push(format!("{status:x} {what}"));
            kinds.push(format!("{status:x} {what}, not of the earliest pair"));
        }
    }
    kinds
}

/// How often each kind occurs, and what places are told with each status.
fn kinds_of(text: &[u8]) -> (BTreeMap<String, u64>, BTreeMap<u64, BTreeSet<Place>>) {
    let mut kinds = BTreeMap::new();
    let mut places: BTreeMap<u64, BTreeSet<Place>> = BTreeMap::new();
    let mut before = NO_GUEST;
    let lines = text.split(|&byte| byte == b'\n');
    for (line, answer) in lines.zip(answers(text)) {
        let Some(Line::Image(image)) = parse(line) else {
            continue;
        };
        let found = Found::in_image(&image);
        let (status, guest, position) = found.told();
        assert_eq!(answer, format!("{status:x} {guest:x} {position:x}"));
        let mut new = found.kinds();
        new.push(format!("{status:x} {before}"));
        before = GUESTS;
        if status != 0 {
            before = NO_GUEST;
            places.entry(status).or_default().insert((guest, position));
        }
        for kind in new {
            *kinds.entry(kind).or_default() += 1;
        }
    }
    (kinds, places)
}

/// The bits that are not read yet, the next one last.
struct Bits(Vec<bool>);

impl Bits {
    fn field(&mut self, width: usize) -> Option<u64> {
        let rest = self.0.len().checked_sub(width)?;
        let bits = self.0.split_off(rest);
        let bits = bits.into_iter().rev();
        Some(bits.fold(0, |value, bit| 2 * value + u64::from(bit)))
    }
}

/// An extent's real page, page count and host page.
type Extent = (Place, [u64; 3]);
/// A source's devhandle and devino.
type Source = (Place, [u64; 2]);

impl Found {
    fn in_image(image: &[u8]) -> Found {
        let bits = image
            .iter()
            .flat_map(|byte| (0..8).rev().map(move |i| byte >> i & 1 == 1));
        let mut bits: Vec<bool> = bits.collect();
        bits.reverse();
        let mut bits = Bits(bits);
        let mut found = Found::default();
        let (mut extents, mut sources) = (Vec::new(), Vec::new());
        match found.read(&mut bits, &mut extents, &mut sources) {
            Some(guests) => {
                let Bits(rest) = bits;
                if rest.len() >= 8 || rest.contains(&true) {
                    found.faults.insert((END, guests, 0));
                }
            }
            None => found.short = Some(found.short.unwrap_or(0)),
        }
        found.judge(&extents, &sources);
        found
    }

    /// The number of guests, or None when bits are missing.
    fn read(
        &mut self,
        bits: &mut Bits,
        extents: &mut Vec<Extent>,
        sources: &mut Vec<Source>,
    ) -> Option<u64> {
        let mut count = |bits: &mut Bits, width, least, most, guest, what| {
            let count = bits.field(width)?;
            if !(least..=most).contains(&count) {
                self.counts.push((guest, what));
            }
            Some(count)
        };
        count(bits, 4, 1, 1, 0, "edition")?;
        let guests = count(bits, 4, 1, 4, 0, "guests")?;
        for guest in 0..guests {
            self.short = Some(guest);
            count(bits, 4, 1, 8, guest, "cpus")?;
            let extent_count = count(bits, 3, 1, 7, guest, "extents")?;
            let source_count = count(bits, 5, 0, 16, guest, "sources")?;
            for position in 0..extent_count {
                let numbers = [bits.field(28)?, bits.field(16)?, bits.field(16)?];
                extents.push(((guest, position), numbers));
            }
            for position in 0..source_count {
                let [devhandle, devino, _] = [bits.field(28)?, bits.field(7)?, bits.field(1)?];
                sources.push(((guest, position), [devhandle, devino]));
            }
        }
        self.short = None;
        Some(guests)
    }

    fn judge(&mut self, extents: &[Extent], sources: &[Source]) {
        for (later, &(place, [real, count, host])) in extents.iter().enumerate() {
            if count == 0 || real + count > 1 << 28 || host + count > 1 << 16 {
                self.faults.insert((NUMBERS, place.0, place.1));
            }
            for &(earlier, [real_before, count_before, host_before]) in &extents[..later] {
                if earlier.0 == place.0 && real < real_before + count_before {
                    self.clash(ORDER, [earlier, place]);
                }
                let first = host.max(host_before);
                let behind = (host + count).min(host_before + count_before);
                if first < behind {
                    self.clash(SHARED, [earlier, place]);
                }
            }
        }
        for (later, &(place, name)) in sources.iter().enumerate() {
            for &(earlier, name_before) in &sources[..later] {
                if name == name_before {
                    self.clash(TWICE, [earlier, place]);
                }
            }
        }
    }

    fn clash(&mut self, status: u64, pair: [Place; 2]) {
        let [_, (guest, position)] = pair;
        self.faults.insert((status, guest, position));
        self.clashes.insert((status, pair));
    }

    /// The answer: a count as it is read, missing bits as they are missed, and
    /// then the first rule with a fault, and its first place.
    fn told(&self) -> Fault {
        match (self.counts.first(), self.short, self.faults.first()) {
            (Some(&(guest, _)), _, _) => (0x6f, guest, 0),
            (None, Some(_), _) => (0x6e, 0, 0),
            (None, None, Some(&fault)) => fault,
            (None, None, None) => (0, 0, 0),
        }
    }

    fn kinds(&self) -> Vec<String> {
        match self.told().0 {
            0x6f => self.count_kinds(),
            0x6e => self.short_kinds(),
            NUMBERS..=END => self.rule_kinds(),
            _ => Vec::new(),
        }
    }

    fn count_kinds(&self) -> Vec<String> {
        let is_header = |what| matches!(what, "edition" | "guests");
        let (guest, what) = self.counts[0];
        let mut kinds = vec![match is_header(what) {
            true => format!("bad {what}"),
            false => format!("bad {what} in guest {guest}"),
        }];
        let mut add = |is_so: bool, kind: &str| kinds.extend(is_so.then(|| kind.to_owned()));
        let counts: Vec<_> = self.counts.iter().filter(|c| !is_header(c.1)).collect();
        let header = counts.len() < self.counts.len();
        let twice = counts.windows(2).any(|pair| pair[0].0 == pair[1].0);
        let apart = counts.windows(2).any(|pair| pair[0].0 != pair[1].0);
        let extent_before = self.faults.iter().any(|&(_, before, _)| before < guest);
        add(
            header && !counts.is_empty(),
            "a bad header before a bad count",
        );
        add(!header && twice, "two bad counts in one guest");
        add(!header && apart, "bad counts in two guests");
        add(!header && extent_before, "a bad count behind a bad extent");
        add(self.short.is_some(), "missing bits behind a bad count");
        kinds
    }

    fn short_kinds(&self) -> Vec<String> {
        let guest = self.short.unwrap_or(0);
        let mut kinds = vec![format!("missing bits in guest {guest}")];
        if !self.faults.is_empty() {
            kinds.push("missing bits behind a bad extent".to_owned());
        }
        kinds
    }

    fn rule_kinds(&self) -> Vec<String> {
        let (told, guest, position) = self.told();
        let mut kinds = BTreeSet::new();
        for &(other, other_guest, other_position) in &self.faults {
            let place = match (other == told, other_guest.cmp(&guest)) {
                _ if other == END => "",
                (true, _) if other_position == position && other_guest == guest => continue,
                (true, std::cmp::Ordering::Equal) => " in its guest",
                (true, _) => " behind its guest",
                (false, std::cmp::Ordering::Less) => " in a guest before it",
                (false, _) => " in its guest or behind it",
            };
            kinds.insert(format!("{told:x}, {other:x}{place}"));
        }
        let clashes = self.clashes.iter().filter(|(status, _)| *status == told);
        let place = (guest, position);
        let earliest = clashes.clone().next().map(|(_, [_, later])| *later);
        for (_, [earlier, _]) in clashes.filter(|(_, [_, later])| *later == place) {
            let what = match earlier.0 == guest {
                true => "in one guest",
                false => "between guests",
            };
            kinds.insert(format!("{told:x} {what}"));
            if earliest != Some(place) {
                kinds.insert(format!("{told:x} {what}, not of the earliest pair"));
            }
        }
        kinds.into_iter().collect()
    }
}
