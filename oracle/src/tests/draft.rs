//! Tables that were changed by hand, as docs/session/beyond.txt numbers their
//! records and fields, and whether they break a rule. The model's own tables
//! cannot: they have no room for a fifth guest or an `enabled` of 2.

use crate::model::Host;
use crate::tables::{Extent, Group, Guest, Ring, Source, TsbDescriptor, EXTENT_LIMIT, PAGE_SIZE};
use std::collections::HashMap;

const COUNTS: u64 = 0;
const VERSIONS: u64 = 1;
const EXTENTS: u64 = 2;
const SOURCES: u64 = 5;
const RING: u64 = 8;
const ABSENT_RING: u64 = 9;
const TSBS: u64 = 0xa;
const OTHER_TSBS: u64 = 0xc;
const STATISTICS: u64 = 0xd;
const ABSENT_STATISTICS: u64 = 0xe;
const ABSENT_GUEST: u64 = 0xf;
const LATER_EXTENTS: u64 = 0x10;
const BLANK_SOURCE: [u64; 7] = [0; 7];

/// A field that is not here is 0. Rings that were never set have no field.
#[derive(Default)]
pub struct Draft(HashMap<(u64, u64), u64>);

impl Draft {
    pub fn of(host: &Host) -> Draft {
        let mut draft = Draft::default();
        draft.set(COUNTS, 0, host.tables.guests.len() as u64);
        if let Some(guest) = host.tables.guests.first() {
            draft.take_guest(guest);
        }
        draft
    }

    pub fn set(&mut self, record: u64, field: u64, value: u64) {
        // Both places of the first list have its count.
        let record = if (record, field) == (TSBS + 1, 6) {
            TSBS
        } else {
            record
        };
        self.0.insert((record, field), value);
    }

    fn set_all(&mut self, record: u64, values: &[u64]) {
        for (field, &value) in values.iter().enumerate() {
            self.set(record, field as u64, value);
        }
    }

    fn get(&self, record: u64, field: u64) -> u64 {
        self.0.get(&(record, field)).copied().unwrap_or(0)
    }

    fn take_guest(&mut self, guest: &Guest) {
        let counts = [guest.cpus.len(), guest.extents.len(), guest.sources.len()];
        (1..)
            .zip(counts)
            .for_each(|(field, count)| self.set(COUNTS, field, count as u64));
        let groups = [
            Group::Sun4v,
            Group::Core,
            Group::Interrupts,
            Group::Statistics,
        ];
        self.set_all(VERSIONS, &groups.map(|group| guest.major(group)));
        for (place, e) in (0..).zip(&guest.extents) {
            self.set_all(extent_record(place), &[e.real_page, e.pages, e.host_page]);
        }
        for (place, s) in (SOURCES..).zip(&guest.sources) {
            self.take_source(place, s);
        }
        let cpu = &guest.cpus[0];
        if let Some(Ring {
            base,
            size,
            head,
            tail,
        }) = cpu.queues[0]
        {
            self.set_all(RING, &[base.0, size, head, tail]);
        }
        self.take_tsbs(TSBS, &cpu.tsb_lists[0][..2]);
        self.take_tsbs(OTHER_TSBS, &cpu.tsb_lists[1][..1]);
        self.set(STATISTICS, 0, cpu.statistics);
    }

    fn take_source(&mut self, place: u64, s: &Source) {
        let flags = [s.cookie_support, s.enabled].map(u64::from);
        let [support, enabled] = flags;
        let (state, target) = (s.state as u64, s.target as u64);
        self.set_all(
            place,
            &[
                s.devhandle,
                s.devino,
                support,
                enabled,
                state,
                target,
                s.cookie,
            ],
        );
    }

    fn take_tsbs(&mut self, first: u64, places: &[Option<TsbDescriptor>]) {
        for (place, t) in (first..).zip(places.iter().flatten()) {
            let (index, entries) = (u64::from(t.page_index), u64::from(t.entries));
            self.set_all(
                place,
                &[index, 1, entries, 0, u64::from(t.page_mask), t.base.0],
            );
        }
        self.set(first, 6, places.iter().flatten().count() as u64);
    }

    /// Guest 1 and what of guest 0 no record names are the host's, and sound.
    pub fn breaks_a_rule(&self, host: &Host) -> bool {
        let guests = self.get(COUNTS, 0);
        let neighbour = host.tables.guests.get(1);
        let absent_blank = (0..3).all(|field| self.get(ABSENT_GUEST, field) == 0);
        let first_right = match guests {
            0 => self.get(COUNTS, 1) == 0,
            _ => self.guest_right(host),
        };
        let second_right = (guests >= 2) == neighbour.is_some();
        !(guests <= 2 && absent_blank && first_right && second_right)
            || neighbour.is_some_and(|guest| self.clashes(guest))
    }

    fn extents(&self) -> Vec<Extent> {
        let count = self.get(COUNTS, 2).min(EXTENT_LIMIT);
        let extent = |[real_page, pages, host_page]: [u64; 3]| Extent {
            real_page,
            pages,
            host_page,
        };
        (0..count).map(|i| extent(self.extent(i))).collect()
    }

    fn extent(&self, place: u64) -> [u64; 3] {
        [0, 1, 2].map(|field| self.get(extent_record(place), field))
    }

    fn clashes(&self, neighbour: &Guest) -> bool {
        let pages = self
            .extents()
            .iter()
            .any(|a| neighbour.extents.iter().any(|b| share(a, b)));
        let named = |i, s: &Source| s.is_named(self.source(i)[0], self.source(i)[1]);
        let sources = self.get(COUNTS, 3).min(16);
        pages || (0..sources).any(|i| neighbour.sources.iter().any(|s| named(i, s)))
    }

    fn guest_right(&self, host: &Host) -> bool {
        let [cpus, extents, sources] = [1, 2, 3].map(|field| self.get(COUNTS, field));
        let majors = [0, 1, 2, 3].map(|field| self.get(VERSIONS, field));
        (1..=8).contains(&cpus)
            && (1..=EXTENT_LIMIT).contains(&extents)
            && sources <= 16
            && majors
                .iter()
                .zip([1, 1, 2, 1])
                .all(|(&major, most)| major <= most)
            && self.extents_right(extents)
            && self.sources_right(sources, cpus, majors[2])
            && self.cpus_right(cpus, host)
    }

    fn extents_right(&self, count: u64) -> bool {
        let there = self.extents();
        let fits = |e: &Extent| {
            e.pages >= 1 && e.real_page + e.pages <= 1 << 28 && e.host_page + e.pages <= 1 << 16
        };
        let apart = |(i, a): (usize, &Extent)| {
            there[i + 1..]
                .iter()
                .all(|b| a.real_page + a.pages <= b.real_page && !share(a, b))
        };
        there.iter().all(fits)
            && there.iter().enumerate().all(apart)
            && (count..EXTENT_LIMIT).all(|i| self.extent(i) == [0, 0, 0])
    }

    /// The places from the fourth on have no record, and are blank.
    fn source(&self, place: u64) -> [u64; 7] {
        match place {
            0..3 => [0, 1, 2, 3, 4, 5, 6].map(|field| self.get(SOURCES + place, field)),
            _ => BLANK_SOURCE,
        }
    }

    fn sources_right(&self, count: u64, cpus: u64, major: u64) -> bool {
        let right = |[devhandle, devino, support, enabled, state, target, cookie]: [u64; 7]| {
            devhandle < 1 << 28
                && devino < 128
                && enabled <= 1
                && state <= 2
                && target < cpus
                && (cookie == 0 || cookie > 2047 && major == 2 && support == 1)
                && (enabled == 0 || major == 1 || major == 2 && cookie != 0)
        };
        let same = |i, j| self.source(i)[..2] == self.source(j)[..2];
        (0..count).all(|i| right(self.source(i)) && !(0..i).any(|j| same(i, j)))
            && (count..16).all(|i| self.source(i) == BLANK_SOURCE)
    }

    /// Page by page, since extents have whole pages. No record asks for many.
    fn valid(&self, start: u64, length: u64) -> bool {
        let extents = self.extents();
        let held = |page: u64| {
            extents
                .iter()
                .any(|e| page.wrapping_sub(e.real_page) < e.pages)
        };
        let last = start.checked_add(length - 1);
        last.is_some_and(|last| (start / PAGE_SIZE..=last / PAGE_SIZE).all(held))
    }

    fn cpus_right(&self, cpus: u64, host: &Host) -> bool {
        let devices = host.tables.guests[0].cpus[0].queues[1];
        let absent_blank = self.get(ABSENT_STATISTICS, 0) == 0 && !self.has_ring(ABSENT_RING);
        (!self.has_ring(RING) || self.ring_right(RING))
            && devices.is_none_or(|ring| self.valid(ring.base.0, ring.size))
            && self.list_right(TSBS, 2)
            && self.list_right(OTHER_TSBS, 1)
            && self.statistics_right(self.get(STATISTICS, 0))
            && (absent_blank || cpus >= 3 && self.statistics_right(self.get(ABSENT_STATISTICS, 0)))
    }

    fn has_ring(&self, record: u64) -> bool {
        self.0.keys().any(|&(there, _)| there == record)
    }

    fn ring_right(&self, record: u64) -> bool {
        let [base, size, head, tail] = [0, 1, 2, 3].map(|field| self.get(record, field));
        [2, 4, 8, 16, 32, 64, 128, 256]
            .map(|n| 64 * n)
            .contains(&size)
            && base.is_multiple_of(size)
            && self.valid(base, size)
            && [head, tail]
                .iter()
                .all(|&at| at < size && at.is_multiple_of(64))
    }

    fn list_right(&self, first: u64, places: u64) -> bool {
        let count = self.get(first, 6);
        // The places behind those that have a record are blank.
        count <= places
            && (0..places).all(|i| match i < count {
                true => self.tsb_right(first + i),
                false => (0..6).all(|field| self.get(first + i, field) == 0),
            })
    }

    fn tsb_right(&self, record: u64) -> bool {
        let fields = [0, 1, 2, 3, 4, 5].map(|field| self.get(record, field));
        let [index, associativity, entries, context, mask, base] = fields;
        [0, 1, 3, 5].contains(&index)
            && mask != 0
            && mask & 0x2b == mask
            && associativity == 1
            && (9..=20).any(|power| entries == 1 << power)
            && context == 0
            && index == u64::from(mask.trailing_zeros())
            && base.is_multiple_of(16 * entries)
            && self.valid(base, 16 * entries)
    }

    fn statistics_right(&self, address: u64) -> bool {
        address == 0 || address.is_multiple_of(64) && self.valid(address, 512)
    }
}

/// The record that has a place of the guest's extents.
fn extent_record(place: u64) -> u64 {
    match place {
        0..3 => EXTENTS + place,
        _ => LATER_EXTENTS + place - 3,
    }
}

fn share(a: &Extent, b: &Extent) -> bool {
    a.host_page < b.host_page + b.pages && b.host_page < a.host_page + a.pages
}
