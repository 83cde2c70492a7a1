//! Partition images: sound ones of many shapes.

mod damage;
mod faults;
mod numbers;
mod spread;

pub use damage::{spoil_bytes, stub};
pub use numbers::{CHOICES, NUMBERS};

use super::random::Random;
use crate::tables::EXTENT_LIMIT;

const REAL_PAGES: u64 = 1 << 28;
const HOST_PAGES: u64 = 1 << 16;
const MEMORY_PAGES: u64 = 4;

#[derive(Clone, Copy)]
pub struct Extent {
    real_page: u64,
    pages: u64,
    host_page: u64,
}

#[derive(Clone, Copy)]
pub struct Source {
    devhandle: u64,
    devino: u64,
    cookie_support: u64,
}

/// The counts are kept apart from the lists, so that they can be wrong.
#[derive(Clone)]
pub struct Guest {
    cpus: u64,
    extent_count: u64,
    source_count: u64,
    extents: Vec<Extent>,
    sources: Vec<Source>,
}

#[derive(Clone)]
pub struct Partition {
    edition: u64,
    guest_count: u64,
    guests: Vec<Guest>,
}

/// A run of host pages: the first and how many.
type Run = (u64, u64);

impl Partition {
    /// A sound partition whose host pages all lie in the lent memory.
    pub fn in_memory(random: &mut Random) -> Partition {
        let shares = shares_in_memory(random);
        Partition::over(&shares, random)
    }

    /// A sound partition in memory of one or two guests whose extents touch in
    /// real pages, all of them or all but one, on host pages that ascend,
    /// descend, leap forward or are mixed.
    pub fn touching(random: &mut Random) -> Partition {
        let mut runs: Vec<Run> = (0..MEMORY_PAGES).map(|page| (page, 1)).collect();
        match random.below(4) {
            0 => runs = runs_in_memory(random),
            // Two pages in one of three extents.
            1 => {
                let place = random.index(runs.len() - 1);
                runs.remove(place + 1);
                runs[place].1 = 2;
            }
            _ => (),
        }
        match random.below(5) {
            0 => (),
            1 => runs.reverse(),
            // Every other one, and then those between them.
            2 => runs.sort_by_key(|(page, _)| page % 2),
            _ => random.shuffle(&mut runs),
        }
        let second = match random.one_in(3) {
            true => runs.split_off(runs.len().div_ceil(2)),
            false => Vec::new(),
        };
        let mut shares = vec![runs, second];
        shares.retain(|share| !share.is_empty());
        let mut partition = Partition::over(&shares, random);
        for guest in &mut partition.guests {
            guest.close_up(random);
        }
        partition
    }

    /// A sound partition of which one extent lies behind the lent memory, or
    /// all those of one guest that come after the ones in it.
    pub fn reaching_out(random: &mut Random) -> Partition {
        let mut shares = shares_in_memory(random);
        if random.one_in(2) {
            let guest = random.index_or_last(shares.len());
            add_behind_memory(&mut shares[guest], random);
            return Partition::over(&shares, random);
        }
        let mut partition = Partition::over(&shares, random);
        let guest = partition.some_guest(random);
        let place = random.index_or_last(guest.extents.len());
        if let Some(extent) = guest.extents.get_mut(place) {
            let last = HOST_PAGES - extent.pages;
            extent.host_page = random.pick(&[MEMORY_PAGES, MEMORY_PAGES + 1, last]);
        }
        partition
    }

    /// A sound partition whose host pages may lie anywhere.
    pub fn anywhere(random: &mut Random) -> Partition {
        let runs = runs_anywhere(random);
        let shares = shared_out(runs, random);
        Partition::over(&shares, random)
    }

    /// A sound partition in which every guest has as many extents as the lent
    /// memory has pages, or more.
    pub fn crowded(random: &mut Random) -> Partition {
        let guests = random.pick(&[1, 2, 3, 3, 4, 4, 4, 4]);
        let counts: Vec<usize> = (0..guests).map(|_| most_or_fewer(random)).collect();
        let mut runs = runs_from(
            random.pick(&[0, 0, 0, 1, 1000]),
            counts.iter().sum(),
            random,
        );
        if random.one_in(2) {
            random.shuffle(&mut runs);
        }
        let mut rest = runs.into_iter();
        let shares: Vec<Vec<Run>> = counts
            .into_iter()
            .map(|count| rest.by_ref().take(count).collect())
            .collect();
        Partition::over(&shares, random)
    }

    /// A guest for each share of the host pages.
    fn over(shares: &[Vec<Run>], random: &mut Random) -> Partition {
        let mut names = Vec::new();
        let guests: Vec<Guest> = shares
            .iter()
            .map(|share| sound_guest(share, &mut names, random))
            .collect();
        Partition {
            edition: 1,
            guest_count: guests.len() as u64,
            guests,
        }
    }

    pub fn pack(&self) -> Vec<u8> {
        self.bits().bytes()
    }

    fn bits(&self) -> BitWriter {
        let mut bits = BitWriter::default();
        bits.field(self.edition, 4);
        bits.field(self.guest_count, 4);
        for guest in &self.guests {
            guest.pack(&mut bits);
        }
        bits
    }

    fn some_guest(&mut self, random: &mut Random) -> &mut Guest {
        let place = random.index_or_last(self.guests.len());
        &mut self.guests[place]
    }
}

impl Guest {
    /// Every extent just behind the one before it; often a gap of a page or
    /// two at one place.
    fn close_up(&mut self, random: &mut Random) {
        let gap = random.index(2 * self.extents.len());
        let Some(first) = self.extents.first() else {
            return;
        };
        let mut page = first.real_page;
        for (place, extent) in self.extents.iter_mut().enumerate() {
            if place > 0 && place == gap {
                page += 1 + random.below(2);
            }
            // Never further up than it was.
            page = page.min(extent.real_page);
            extent.real_page = page;
            page += extent.pages;
        }
    }

    fn pack(&self, bits: &mut BitWriter) {
        bits.field(self.cpus, 4);
        bits.field(self.extent_count, 3);
        bits.field(self.source_count, 5);
        for extent in &self.extents {
            bits.field(extent.real_page, 28);
            bits.field(extent.pages, 16);
            bits.field(extent.host_page, 16);
        }
        for source in &self.sources {
            bits.field(source.devhandle, 28);
            bits.field(source.devino, 7);
            bits.field(source.cookie_support, 1);
        }
    }
}

fn shares_in_memory(random: &mut Random) -> Vec<Vec<Run>> {
    let runs = match random.below(8) {
        0..=2 => (0..MEMORY_PAGES).map(|page| (page, 1)).collect(),
        3 => vec![(0, MEMORY_PAGES)],
        _ => runs_in_memory(random),
    };
    shared_out(runs, random)
}

fn runs_in_memory(random: &mut Random) -> Vec<Run> {
    let mut runs = Vec::new();
    let mut page = 0;
    while page < MEMORY_PAGES {
        let left = MEMORY_PAGES - page;
        let pages = if random.one_in(2) {
            1
        } else {
            1 + random.below(left)
        };
        // Some pages stay in no run, but never all of them.
        if !random.one_in(8) || (runs.is_empty() && left == pages) {
            runs.push((page, pages));
        }
        page += pages;
    }
    runs
}

/// More runs for one guest, behind the lent memory, up to the most that it has.
fn add_behind_memory(share: &mut Vec<Run>, random: &mut Random) {
    let room = EXTENT_LIMIT as usize - share.len();
    let count = 1 + random.index_or_last(room);
    share.extend(runs_from(MEMORY_PAGES, count, random));
}

/// How many extents a crowded guest has: the most, or up to three fewer.
fn most_or_fewer(random: &mut Random) -> usize {
    EXTENT_LIMIT as usize - random.index(4)
}

/// So many runs from a page on, often touching.
fn runs_from(mut page: u64, count: usize, random: &mut Random) -> Vec<Run> {
    let mut runs = Vec::new();
    for _ in 0..count {
        let pages = random.pick(&[1, 1, 1, 2, 3]);
        runs.push((page, pages));
        page += pages + random.pick(&[0, 0, 0, 1]);
    }
    runs
}

fn runs_anywhere(random: &mut Random) -> Vec<Run> {
    let mut runs = Vec::new();
    let mut page = random.pick(&[0, 0, 1, 3, 4, 1000]);
    for _ in 0..1 + random.below(9) {
        let pages = random.pick(&[1, 1, 2, 3, 5, 64, 4096, 16384]);
        if page + pages > HOST_PAGES {
            break;
        }
        runs.push((page, pages));
        page += pages + random.pick(&[0, 0, 1, 7, 5000]);
    }
    if random.one_in(4) && page < HOST_PAGES {
        runs.push((page, HOST_PAGES - page));
    }
    runs
}

/// Some guests, and which runs fall to each. Those that follow each other may
/// fall to one, so that its extents touch in real and in host pages.
fn shared_out(mut runs: Vec<Run>, random: &mut Random) -> Vec<Vec<Run>> {
    let most = runs.len().min(4);
    let count = match random.below(5) {
        0 | 1 => most,
        2 => 1,
        _ => 1 + random.index(most),
    };
    let in_order = !random.one_in(3);
    if !in_order {
        random.shuffle(&mut runs);
    }
    let length = runs.len();
    let mut shares: Vec<Vec<Run>> = vec![Vec::new(); count];
    for (i, run) in runs.into_iter().enumerate() {
        let share = match in_order {
            true => i * count / length,
            false if i < count => i,
            false => random.index(count),
        };
        if shares[share].len() < EXTENT_LIMIT as usize {
            shares[share].push(run);
        }
    }
    // Host pages that descend while real pages ascend.
    if in_order && random.one_in(3) {
        shares.iter_mut().for_each(|share| share.reverse());
    }
    shares
}

fn sound_guest(runs: &[Run], names: &mut Vec<(u64, u64)>, random: &mut Random) -> Guest {
    let extents = sound_extents(runs, random);
    let count = random.pick(&[0, 1, 1, 2, 4, 6, 9, 16, 16, 16]);
    let sources: Vec<Source> = (0..count).map(|_| sound_source(names, random)).collect();
    Guest {
        cpus: random.pick(&[1, 2, 2, 3, 3, 4, 5, 7, 8, 8, 8]),
        extent_count: extents.len() as u64,
        source_count: sources.len() as u64,
        extents,
        sources,
    }
}

/// Real pages ascend, often touching, anywhere up to the last real page.
fn sound_extents(runs: &[Run], random: &mut Random) -> Vec<Extent> {
    let mut extents = Vec::new();
    let mut span = 0;
    for &(host_page, pages) in runs {
        extents.push(Extent {
            real_page: span,
            pages,
            host_page,
        });
        span += pages;
        span += random.pick(&[0, 0, 0, 1, 2, 100]);
    }
    let start = match random.below(6) {
        0..=2 => 0,
        3 => 1 + random.below(16),
        4 => random.below(REAL_PAGES - span),
        _ => REAL_PAGES - span,
    };
    for extent in &mut extents {
        extent.real_page += start;
    }
    extents
}

/// A name not given before. Parts of names are often shared, or one bit apart.
fn sound_source(names: &mut Vec<(u64, u64)>, random: &mut Random) -> Source {
    loop {
        let (devhandle, devino) = match names.last() {
            Some(&(devhandle, devino)) if random.one_in(4) => match random.one_in(3) {
                true => (devhandle, devino ^ 1 << random.below(7)),
                false => (devhandle ^ 1 << random.index_or_last(28), devino),
            },
            _ => any_name(random),
        };
        if !names.contains(&(devhandle, devino)) {
            names.push((devhandle, devino));
            let cookie_support = u64::from(!random.one_in(5));
            return Source {
                devhandle,
                devino,
                cookie_support,
            };
        }
    }
}

fn any_name(random: &mut Random) -> (u64, u64) {
    let devhandle = match random.below(4) {
        0 => random.below(1 << 28),
        _ => random.pick(&[0, 1, 0x100, 0x200, 0x300, 0xfff_ffff]),
    };
    let devino = match random.below(2) {
        0 => random.below(128),
        _ => random.pick(&[0, 1, 5, 63, 64, 127]),
    };
    (devhandle, devino)
}

/// Writes fields without gaps, most significant bit first.
#[derive(Default)]
struct BitWriter(Vec<u8>);

impl BitWriter {
    fn field(&mut self, value: u64, width: u32) {
        self.0
            .extend((0..width).rev().map(|place| (value >> place & 1) as u8));
    }

    /// How many bits of the last byte no field has.
    fn fill(&self) -> usize {
        self.0.len().next_multiple_of(8) - self.0.len()
    }

    /// Zero bits fill the last byte.
    fn bytes(&self) -> Vec<u8> {
        self.0.chunks(8).map(pack_byte).collect()
    }
}

fn pack_byte(bits: &[u8]) -> u8 {
    bits.iter()
        .enumerate()
        .fold(0, |byte, (place, bit)| byte | bit << (7 - place))
}
