//! Steps on rings: configuring, head writes and mondos.

use super::Generator;
use crate::queues::CPU_MONDO;
use crate::tables::Ring;

/// Words of ring sizes; small ones fill sooner.
const RING_SIZES: [u64; 12] = [2, 2, 2, 4, 4, 4, 8, 8, 16, 64, 128, 256];

impl Generator {
    pub(super) fn prepare_rings(&mut self, guest: usize) {
        for cpu in 0..self.guest(guest).cpus.len() {
            for queue in 0x3c..=0x3f {
                // Most of those that take entries, few of the others.
                let rare = self.random.one_in(4);
                if rare == (queue > 0x3d) {
                    self.configure_well((guest, cpu), queue);
                }
            }
        }
    }

    /// Bases are few, so that rings of different cpus overlap.
    fn configure_well(&mut self, who: (usize, usize), queue: u64) {
        let n = self.random.pick(&RING_SIZES);
        let base = self.ring_base(who.0, 64 * n);
        self.call(who, 0x14, &[queue, base, n]);
    }

    /// On a multiple of the size; it may not fit if the size is large.
    pub(super) fn ring_base(&mut self, guest: usize, size: u64) -> u64 {
        let (start, room) = self.some_row(guest);
        let first = start.next_multiple_of(size);
        let places = (start + room).saturating_sub(first) / size;
        match self.random.below(4) {
            0 => first + places.saturating_sub(1) * size,
            1 => first + self.random.below(places) * size,
            _ => first + self.random.below(places.min(4)) * size,
        }
    }

    pub(super) fn configure_step(&mut self) {
        let who = self.someone();
        let queue = self.random.pick(&[0x3c, 0x3c, 0x3d, 0x3d, 0x3e, 0x3f]);
        let n = self.random.pick(&RING_SIZES);
        let base = self.ring_base(who.0, 64 * n);
        match self.random.below(12) {
            0 => {
                let queue = self
                    .random
                    .pick(&[0, 0x3b, 0x40, 0x13c, 1 << 32 | 0x3c, u64::MAX]);
                let n = self.random.pick(&[0, 1, 2]);
                self.call(who, 0x14, &[queue, base, n]);
            }
            1 => {
                let base = self.edge_number();
                self.call(who, 0x14, &[queue, base, 0]);
            }
            2 => {
                let n = self.random.pick(&[
                    1,
                    3,
                    5,
                    6,
                    12,
                    96,
                    255,
                    257,
                    258,
                    512,
                    1 << 32 | 2,
                    1 << 32 | 16,
                    1 << 58,
                    1 << 63,
                    u64::MAX,
                ]);
                self.call(who, 0x14, &[queue, base, n]);
            }
            3 => {
                let n = self.random.pick(&[n, n, 256]);
                let base = self.ring_base(who.0, 64 * n);
                let off = self.random.pick(&[1, 8, 32, 64, 32 * n, 64 * n - 64]);
                self.call(who, 0x14, &[queue, base.wrapping_add(off), n]);
            }
            4 | 5 => {
                let n = self.random.pick(&[2, 4, 128, 256]);
                let around = self.around(who.0);
                let base = around - around % (64 * n);
                self.call(who, 0x14, &[queue, base, n]);
            }
            6 => self.call(who, 0x14, &[queue, base, 0]),
            _ => self.configure_well(who, queue),
        }
        self.look_at_queues(who);
    }

    /// What stands in some record of the cpu. A head write to where head is
    /// leaves it there, and is refused if it is elsewhere.
    pub(super) fn look_at_queues(&mut self, who: (usize, usize)) {
        let queue = self.random.index_or_last(4);
        let number = 0x3c + queue as u64;
        let record = self.guest(who.0).cpus[who.1].queues[queue];
        match record {
            Some(ring) if self.random.one_in(2) => self.head(who, number, ring.head),
            _ => self.call(who, 0x15, &[number]),
        }
    }

    pub(super) fn queue_information_step(&mut self) {
        let who = self.someone();
        let queue = match self.random.below(8) {
            0 => self
                .random
                .pick(&[0, 0x3b, 0x40, 0x13c, 1 << 32 | 0x3d, u64::MAX]),
            _ => 0x3c + self.random.below(4),
        };
        self.call(who, 0x15, &[queue]);
    }

    pub(super) fn cpuid_step(&mut self) {
        let who = self.someone();
        self.call(who, 0x16, &[]);
    }

    /// The set rings with their guest, cpu and queue number.
    fn rings(&self) -> Vec<((usize, usize), u64, Ring)> {
        let mut rings = Vec::new();
        for (guest, record) in self.host.tables.guests.iter().enumerate() {
            for (cpu, record) in record.cpus.iter().enumerate() {
                for (number, ring) in (0x3c..).zip(record.queues) {
                    rings.extend(ring.map(|ring| ((guest, cpu), number, ring)));
                }
            }
        }
        rings
    }

    /// A set ring, rather one that holds entries.
    pub(super) fn some_ring(&mut self) -> Option<((usize, usize), u64, Ring)> {
        let rings = self.rings();
        let mut found = None;
        for _ in 0..3 {
            found = rings.get(self.random.index(rings.len())).copied();
            if found.is_some_and(|(_, _, ring)| ring.head != ring.tail) {
                break;
            }
        }
        found
    }

    pub(super) fn head_step(&mut self) {
        let Some((who, queue, ring)) = self.some_ring() else {
            return self.head(self.favourite, 0x3c, 0);
        };
        let held = ring.forward(ring.tail) / 64;
        match self.random.below(10) {
            0 => {
                let queue = self
                    .random
                    .pick(&[0, 0x3b, 0x40, queue | 1 << 32, queue | 0x100]);
                let value = self.random.pick(&[0, ring.tail, 1]);
                self.head(who, queue, value);
            }
            1 => {
                let someone = self.someone();
                let queue = 0x3c + self.random.below(4);
                let value = self.random.pick(&[0, ring.tail, ring.tail + 1]);
                self.head(someone, queue, value);
            }
            2..=4 => {
                let value = self.head_value(&ring);
                self.head(who, queue, value);
            }
            5 => self.head(who, queue, ring.tail),
            _ => {
                let forward = 64 * self.random.below(held + 1);
                self.head(who, queue, (ring.head + forward) % ring.size);
            }
        }
    }

    pub(super) fn head(&mut self, who: (usize, usize), queue: u64, value: u64) {
        let fields = [self.guest_number(who.0), self.cpu_number(who), queue, value];
        self.event("head", &fields);
    }

    /// At and around every bound of the ring.
    fn head_value(&mut self, ring: &Ring) -> u64 {
        let bound = self.random.pick(&[0, ring.head, ring.tail, ring.size]);
        match self.random.below(8) {
            0 => bound,
            1 => bound.wrapping_add(64),
            2 => bound.wrapping_sub(64),
            3 => (bound + 64) % ring.size,
            4 => (bound + ring.size - 64) % ring.size,
            5 => bound.wrapping_add(self.random.pick(&[1, 8, 32, 63, u64::MAX])),
            6 => bound | self.random.pick(&[1 << 16, 1 << 32, 1 << 63]),
            _ => 64 * self.random.below(ring.size / 64),
        }
    }

    // Mondos.

    pub(super) fn mondo_step(&mut self) {
        let who = self.someone();
        let count = self.mondo_count();
        let list = self.list_address(who.0, count);
        let data = self.data_address(who.0, list);
        if self.random.one_in(3) {
            self.write_data(who.0, data);
        }
        if !self.random.one_in(10) {
            self.write_list(who, list, count);
        }
        self.call(who, 0x42, &[count, list, data]);
        self.look_at_mondo(who.0, list, data);
        // Once more, which passes over the entries that were marked.
        if self.random.one_in(4) {
            self.call(who, 0x42, &[count, list, data]);
        }
    }

    fn mondo_count(&mut self) -> u64 {
        match self.random.below(24) {
            0 => self
                .random
                .pick(&[0, 65, 66, 128, 1 << 32 | 1, 1 << 63, u64::MAX]),
            1 | 2 => self.random.pick(&[64, 63, 20, 9]),
            _ => 1 + self.random.below(5),
        }
    }

    /// Anywhere, at the end of an extent, or where a ring will be written.
    fn list_address(&mut self, guest: usize, count: u64) -> u64 {
        match self.random.below(20) {
            0 => self.around(guest),
            1 => self.inside(guest, 2) + 1,
            2..=5 => {
                let (start, size) = self.some_extent(guest);
                let length = 2 * count.min(64);
                start + size - length + self.random.pick(&[0, 0, 0, 2])
            }
            6..=12 => self.near_tail(guest, 2),
            _ => self.inside(guest, 2),
        }
    }

    fn data_address(&mut self, guest: usize, list: u64) -> u64 {
        match self.random.below(20) {
            0 => self.around(guest),
            1 => self.inside(guest, 64) + self.random.pick(&[1, 8, 32, 63]),
            2 => {
                let around = self.around(guest);
                around - around % 64
            }
            3..=5 => list - list % 64,
            6..=10 => self.near_tail(guest, 64),
            _ => self.inside(guest, 64),
        }
    }

    /// In or beside the next entries of a ring that takes mondos.
    fn near_tail(&mut self, guest: usize, boundary: u64) -> u64 {
        let cpu = self.random.index(self.guest(guest).cpus.len());
        match self.guest(guest).cpus[cpu].queues[CPU_MONDO] {
            Some(ring) => {
                let off = self.random.below(192 / boundary) * boundary;
                ring.base.0 + (ring.tail + off) % ring.size
            }
            None => self.inside(guest, boundary),
        }
    }

    pub(super) fn write_data(&mut self, guest: usize, data: u64) {
        let words = self.random.pick(&[1, 1, 1, 2, 8]);
        let data = data - data % 8;
        let bytes: Vec<u8> = (0..8 * words).map(|_| self.random.next() as u8).collect();
        self.write(guest, data, &bytes);
    }

    pub(super) fn write_list(&mut self, who: (usize, usize), list: u64, count: u64) {
        let mut entries = self.other_cpus(who, count.min(64));
        let spoilt = self.random.index_or_last(entries.len());
        let caller = who.1 as u16;
        let no_cpu = self.no_cpu(who);
        match self.random.below(12) {
            0 => set(&mut entries, spoilt, caller),
            1 => set(&mut entries, spoilt, no_cpu),
            2 => {
                let second = self.random.index(entries.len());
                set(&mut entries, spoilt, no_cpu);
                set(&mut entries, second, caller);
            }
            _ => (),
        }
        if self.random.one_in(4) {
            self.mark_some(&mut entries);
        }
        self.write_entries(who.0, list, &entries);
    }

    pub(super) fn write_entries(&mut self, guest: usize, list: u64, entries: &[u16]) {
        let bytes: Vec<u8> = entries
            .iter()
            .flat_map(|entry| entry.to_be_bytes())
            .collect();
        self.write(guest, list, &bytes);
    }

    /// Often the same cpu more than once.
    pub(super) fn other_cpus(&mut self, (guest, cpu): (usize, usize), count: u64) -> Vec<u16> {
        let others = self.guest(guest).cpus.len() as u64 - 1;
        let same = self.random.one_in(4);
        let step = 1 + self.random.below(others);
        let mut entries = Vec::new();
        for _ in 0..count {
            let step = if same {
                step
            } else {
                1 + self.random.below(others)
            };
            entries.push(((cpu as u64 + step) % (others + 1)) as u16);
        }
        entries
    }

    pub(super) fn no_cpu(&mut self, (guest, cpu): (usize, usize)) -> u16 {
        let cpus = self.guest(guest).cpus.len() as u16;
        self.random.pick(&[
            cpus,
            8,
            0xfffe,
            0xff,
            0x100,
            cpu as u16 | 0x100,
            0x8000,
            cpus << 8,
        ])
    }

    pub(super) fn look_at_mondo(&mut self, guest: usize, list: u64, data: u64) {
        let (list, data) = (list - list % 8, data - data % 8);
        self.load(guest, list);
        if self.random.one_in(3) {
            self.load(guest, list.wrapping_add(8));
            self.load(guest, data);
        }
        let cpu = self.random.index(self.guest(guest).cpus.len());
        if let Some(ring) = self.guest(guest).cpus[cpu].queues[CPU_MONDO] {
            let last = (ring.tail + ring.size - 64) % ring.size;
            let word = 8 * self.random.below(8);
            self.load(guest, ring.base.0 + last + word);
        }
    }
}

pub(super) fn set(entries: &mut [u16], place: usize, value: u16) {
    if let Some(entry) = entries.get_mut(place) {
        *entry = value;
    }
}
