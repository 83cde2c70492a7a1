//! Sound partitions of every size, with pages all over the host.

use super::{sound_extents, sound_source, Extent, Guest, Partition, Run, HOST_PAGES, REAL_PAGES};
use crate::generate::random::Random;
use crate::tables::{EXTENT_LIMIT, GUEST_LIMIT, SOURCE_LIMIT};
use std::collections::BTreeSet;

const CPU_LIMIT: u64 = 8;
/// The most pages that an extent's field tells.
const MOST_PAGES: u64 = 0xffff;

/// How many extents and sources a guest has.
type Counts = (u64, u64);

impl Partition {
    /// A sound partition of a kind by its turn: often of any size, also the
    /// smallest and the largest, and those that sessions are made of.
    pub fn by_turns(turn: u64, random: &mut Random) -> Partition {
        match turn % 10 {
            0 => Partition::of(&[(1, 0)], random),
            1 => Partition::largest(random),
            2 => Partition::in_memory(random),
            3 => Partition::touching(random),
            4 => Partition::anywhere(random),
            5 => Partition::crowded(random),
            6 => Partition::reaching_out(random),
            _ => Partition::of_any_size(random),
        }
    }

    pub fn largest(random: &mut Random) -> Partition {
        let mut partition = Partition::of(&[(EXTENT_LIMIT, SOURCE_LIMIT); 4], random);
        for guest in &mut partition.guests {
            guest.cpus = CPU_LIMIT;
        }
        partition
    }

    /// Every count is as likely as the others.
    pub fn of_any_size(random: &mut Random) -> Partition {
        let guests = 1 + random.below(GUEST_LIMIT);
        let counts: Vec<Counts> = (0..guests)
            .map(|_| {
                let extents = 1 + random.below(EXTENT_LIMIT);
                (extents, random.below(SOURCE_LIMIT + 1))
            })
            .collect();
        Partition::of(&counts, random)
    }

    fn of(counts: &[Counts], random: &mut Random) -> Partition {
        let extents = counts.iter().map(|&(extents, _)| extents as usize).sum();
        let mut runs = runs_all_over(extents, random).into_iter();
        let mut names = Vec::new();
        let guests = counts.iter().map(|&(extents, sources)| Guest {
            cpus: 1 + random.below(CPU_LIMIT),
            extent_count: extents,
            source_count: sources,
            extents: extents_apart(runs.by_ref().take(extents as usize), random),
            sources: (0..sources)
                .map(|_| sound_source(&mut names, random))
                .collect(),
        });
        Partition {
            edition: 1,
            guest_count: counts.len() as u64,
            guests: guests.collect(),
        }
    }
}

/// So many runs between the first and the last host page, which touch or lie
/// apart, in their order or mixed.
fn runs_all_over(count: usize, random: &mut Random) -> Vec<Run> {
    let touch = random.one_in(2);
    let wanted = if touch { count + 1 } else { 2 * count };
    let mut borders = BTreeSet::new();
    while borders.len() < wanted {
        borders.insert(match random.below(3) {
            0 => random.below(HOST_PAGES + 1),
            1 => random.below(64),
            _ => HOST_PAGES - random.below(64),
        });
    }
    let borders: Vec<u64> = borders.into_iter().collect();
    let step = if touch { 1 } else { 2 };
    let between = |ends: &[u64]| (ends[0], (ends[1] - ends[0]).min(MOST_PAGES));
    let mut runs: Vec<Run> = borders.windows(2).step_by(step).map(between).collect();
    if random.one_in(2) {
        random.shuffle(&mut runs);
    }
    runs
}

/// Often with a gap in real pages before one of them, of any size.
fn extents_apart(runs: impl Iterator<Item = Run>, random: &mut Random) -> Vec<Extent> {
    let mut extents = sound_extents(&runs.collect::<Vec<Run>>(), random);
    let end = extents.last().map_or(0, |last| last.real_page + last.pages);
    let gap = random.below(REAL_PAGES - end + 1);
    let place = random.index(2 * extents.len());
    for extent in extents.iter_mut().skip(place) {
        extent.real_page += gap;
    }
    extents
}
