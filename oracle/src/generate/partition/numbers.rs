//! Partitions as the lines of a plan, and with a number at its limits.

use super::{sound_source, Extent, Guest, Partition, Source, HOST_PAGES, REAL_PAGES};
use crate::generate::plans::line;
use crate::generate::random::Random;

/// The numbers of a plan.
#[derive(Clone, Copy, Debug, PartialEq)]
pub enum Number {
    Cpus,
    RealPage,
    Pages,
    HostPage,
    Devhandle,
    Devino,
    Support,
}

pub const NUMBERS: [Number; 7] = [
    Number::Cpus,
    Number::RealPage,
    Number::Pages,
    Number::HostPage,
    Number::Devhandle,
    Number::Devino,
    Number::Support,
];

/// How many values `choose` takes for a number.
pub const CHOICES: u64 = 9;

impl Number {
    /// The most that a rule allows it in its place, beside these pages.
    fn limit(self, extent: &Extent) -> u64 {
        match self {
            Number::Cpus => 8,
            Number::RealPage => REAL_PAGES - extent.pages,
            Number::Pages => REAL_PAGES
                .saturating_sub(extent.real_page)
                .min(HOST_PAGES - extent.host_page),
            Number::HostPage => HOST_PAGES - extent.pages,
            Number::Devhandle => (1 << 28) - 1,
            Number::Devino => 127,
            Number::Support => 1,
        }
    }

    /// How many bits tables have for it.
    fn width(self) -> u64 {
        match self {
            Number::RealPage | Number::Devhandle => 32,
            Number::Pages | Number::HostPage => 16,
            Number::Cpus | Number::Devino => 8,
            Number::Support => 1,
        }
    }

    fn place(self, guest: &mut Guest, extent: usize, source: usize) -> &mut u64 {
        match self {
            Number::Cpus => &mut guest.cpus,
            Number::RealPage => &mut guest.extents[extent].real_page,
            Number::Pages => &mut guest.extents[extent].pages,
            Number::HostPage => &mut guest.extents[extent].host_page,
            Number::Devhandle => &mut guest.sources[source].devhandle,
            Number::Devino => &mut guest.sources[source].devino,
            Number::Support => &mut guest.sources[source].cookie_support,
        }
    }
}

impl Partition {
    /// Gives a number somewhere a value at or past one of its limits: that of a
    /// rule, and that of the tables. Past the latter it may look right in its
    /// low bits.
    pub fn choose(&mut self, number: Number, choice: u64, random: &mut Random) {
        let mut names = self.names();
        let guest = self.some_guest(random);
        if guest.sources.is_empty() {
            guest.sources.push(sound_source(&mut names, random));
        }
        let extent = random.index_or_last(guest.extents.len());
        let source = random.index_or_last(guest.sources.len());
        let limit = number.limit(&guest.extents[extent]);
        let held = 1 << number.width();
        let value = number.place(guest, extent, source);
        *value = match choice % CHOICES {
            0 => 0,
            1 => limit,
            2 => limit + 1,
            3 => held - 1,
            4 => held,
            5 => held | *value,
            6 => 1 << 63 | *value,
            7 => random.below(held),
            _ => u64::MAX,
        };
    }

    fn names(&self) -> Vec<(u64, u64)> {
        let sources = self.guests.iter().flat_map(|guest| &guest.sources);
        sources.map(|s| (s.devhandle, s.devino)).collect()
    }

    /// Takes all extents from a guest.
    pub fn strip(&mut self, random: &mut Random) {
        self.some_guest(random).extents.clear();
    }

    /// One guest, extent or source more than tables have places for, or almost.
    pub fn overfill(&mut self, random: &mut Random) {
        let guest = self.some_guest(random);
        match random.below(3) {
            0 => {
                let last = guest.clone();
                self.guests.resize(4 + random.index(3), last);
            }
            1 => {
                let last = guest.extents[0];
                guest.extents.resize(7 + random.index(3), last);
            }
            _ => {
                let source = Source {
                    devhandle: 1,
                    devino: 2,
                    cookie_support: 1,
                };
                guest.sources.resize(16 + random.index(3), source);
            }
        }
    }

    /// The lines of its plan. Extents and sources of a guest may stand in any
    /// order among each other.
    pub fn plan(&self, random: &mut Random) -> Vec<Vec<u8>> {
        let mixed = random.one_in(2);
        let mut lines = Vec::new();
        for guest in &self.guests {
            lines.push(line("guest", &[guest.cpus], random));
            guest.plan(mixed, &mut lines, random);
        }
        lines
    }
}

impl Guest {
    fn plan(&self, mixed: bool, lines: &mut Vec<Vec<u8>>, random: &mut Random) {
        let extent = |e: &Extent| ("extent", [e.real_page, e.pages, e.host_page]);
        let source = |s: &Source| ("source", [s.devhandle, s.devino, s.cookie_support]);
        let mut extents = self.extents.iter().map(extent);
        let mut sources = self.sources.iter().map(source);
        let mut turns = vec![true; extents.len()];
        turns.resize(extents.len() + sources.len(), false);
        if mixed {
            random.shuffle(&mut turns);
        }
        for of_extent in turns {
            let next = match of_extent {
                true => extents.next(),
                false => sources.next(),
            };
            lines.extend(next.map(|(word, numbers)| line(word, &numbers, random)));
        }
    }
}
