//! Steps on memory: words, scrub and sync, TSB lists, statistics.

use super::Generator;

/// A TSB descriptor's fields.
struct Descriptor {
    page_index: u16,
    associativity: u16,
    entries: u32,
    context_index: u32,
    page_mask: u32,
    base: u64,
    reserved: u64,
}

impl Descriptor {
    fn bytes(&self) -> Vec<u8> {
        let mut bytes = Vec::with_capacity(32);
        bytes.extend(self.page_index.to_be_bytes());
        bytes.extend(self.associativity.to_be_bytes());
        bytes.extend(self.entries.to_be_bytes());
        bytes.extend(self.context_index.to_be_bytes());
        bytes.extend(self.page_mask.to_be_bytes());
        bytes.extend(self.base.to_be_bytes());
        bytes.extend(self.reserved.to_be_bytes());
        bytes
    }
}

impl Generator {
    pub(super) fn word_step(&mut self) {
        let (guest, _) = self.someone();
        let address = match self.random.below(6) {
            0 | 1 => self.around(guest),
            2 => {
                let around = self.around(guest);
                around - around % 8
            }
            _ => self.inside(guest, 8),
        };
        if self.random.one_in(2) {
            self.load(guest, address);
        } else {
            let value = self.random.next();
            self.store(guest, address, value);
            self.load(guest, address);
        }
    }

    /// All words of some entry, or the words around the bounds.
    pub(super) fn sweep_step(&mut self) {
        let (guest, cpu) = self.someone();
        let queue = self.random.index(2);
        let start = match self.guest(guest).cpus[cpu].queues[queue] {
            Some(ring) => ring.base.0 + 64 * self.random.below(ring.size / 64),
            None => self.inside(guest, 64),
        };
        for word in 0..8 {
            self.load(guest, start + 8 * word);
        }
    }

    pub(super) fn scrub_step(&mut self) {
        let who = self.someone();
        let function = self.random.pick(&[0x31, 0x32, 0x32]);
        let (start, size) = self.some_extent(who.0);
        let mut address = match self.random.one_in(2) {
            true => start,
            false => start + 8192 * self.random.below(size / 8192),
        };
        // To the end of the extent, one page, or too far.
        let mut length = match self.random.below(4) {
            0 => 8192 * self.random.pick(&[1, 2, 3, 4, 5]),
            1 => 8192,
            _ => start + size - address,
        };
        match self.random.below(14) {
            0 => length = 0,
            1 => length = self.random.pick(&[1, 64, 4096, 8191, 8193, 12288]),
            2 => address += self.random.pick(&[1, 64, 4096]),
            3 => address = self.around(who.0),
            4 => address = 8192 * self.random.below(1 << 51),
            5 => {
                length = self.random.pick(&[
                    1 << 32,
                    1 << 63,
                    0u64.wrapping_sub(8192),
                    0u64.wrapping_sub(address),
                ])
            }
            6 => address = 0u64.wrapping_sub(8192),
            _ => (),
        }
        self.call(who, function, &[address, length]);
        // The last word of the range, and the first of this or another extent.
        let last = address.wrapping_add(length).wrapping_sub(8);
        self.load(who.0, last - last % 8);
        let (start, _) = self.some_extent(who.0);
        self.load(who.0, start);
    }

    pub(super) fn statistics_step(&mut self) {
        let who = self.someone();
        let address = match self.random.below(10) {
            0 => 0,
            1 => self.inside(who.0, 64) + self.random.pick(&[1, 8, 32, 63]),
            2..=4 => {
                let around = self.around(who.0);
                around - around % 64
            }
            5 => self.around(who.0),
            _ => self.inside(who.0, 64),
        };
        self.call(who, 0x102, &[address]);
        if !self.random.one_in(3) {
            self.call(who, 0x103, &[]);
        }
    }

    // TSB lists.

    pub(super) fn tsb_step(&mut self) {
        let who = self.someone();
        let function = self.random.pick(&[0x20, 0x21]);
        let ntsb = match self.random.below(12) {
            0 => self
                .random
                .pick(&[5, 6, 1 << 32, 1 << 32 | 1, 1 << 59, u64::MAX]),
            1 => 0,
            2 => 4,
            _ => 1 + self.random.below(4),
        };
        let pointer = self.tsb_pointer(who.0, ntsb.min(4));
        if !self.random.one_in(12) {
            let list = self.tsb_list(who.0, ntsb.min(4));
            self.write(who.0, pointer - pointer % 8, &list);
        }
        self.call(who, function, &[ntsb, pointer]);
        // One descriptor less, so that the first bad one counts or does not.
        if self.random.one_in(4) {
            self.call(who, function, &[ntsb.wrapping_sub(1), pointer]);
        }
        for _ in 0..self.random.below(6) {
            self.spoil_list(who, function, ntsb.min(4), pointer - pointer % 8);
        }
    }

    /// Another descriptor in one place of a list: with one fault, with two,
    /// or sound again.
    pub(super) fn spoil_list(
        &mut self,
        who: (usize, usize),
        function: u64,
        ntsb: u64,
        pointer: u64,
    ) {
        let place = self.random.index_or_last(ntsb as usize) as u64;
        let mut descriptor = self.sound_descriptor(who.0);
        for _ in 0..self.random.pick(&[0, 1, 1, 2, 2]) {
            self.spoil_descriptor(who.0, &mut descriptor);
        }
        let at = pointer.wrapping_add(32 * place);
        self.write(who.0, at, &descriptor.bytes());
        self.call(who, function, &[ntsb, pointer]);
    }

    fn tsb_pointer(&mut self, guest: usize, ntsb: u64) -> u64 {
        let (start, size) = self.some_extent(guest);
        match self.random.below(10) {
            0 => self.around(guest),
            1 => self.inside(guest, 8) + self.random.pick(&[1, 2, 4]),
            2 | 3 => start + size - 32 * ntsb + self.random.pick(&[0, 0, 8]),
            _ => start + 8 * self.random.below((size - 128) / 8),
        }
    }

    pub(super) fn tsb_list(&mut self, guest: usize, ntsb: u64) -> Vec<u8> {
        let spoilt = self.random.below(2 * ntsb);
        let mut bytes = Vec::new();
        for place in 0..ntsb {
            let mut descriptor = self.sound_descriptor(guest);
            if place == spoilt {
                self.spoil_descriptor(guest, &mut descriptor);
                // A second fault shows which is looked at first.
                if self.random.one_in(2) {
                    self.spoil_descriptor(guest, &mut descriptor);
                }
            }
            bytes.extend(descriptor.bytes());
        }
        bytes
    }

    fn sound_descriptor(&mut self, guest: usize) -> Descriptor {
        let page_index = self.random.pick(&[0, 1, 3, 5]);
        let above = (!0 << page_index) & self.random.next() as u32;
        let entries = self.random.pick(&[512, 512, 512, 1024, 2048]);
        let (start, size) = self.some_row(guest);
        let entries = if 16 * entries > size { 512 } else { entries };
        let first = start.next_multiple_of(16 * entries);
        let places = (start + size).saturating_sub(first) / (16 * entries);
        Descriptor {
            page_index,
            associativity: 1,
            entries: entries as u32,
            context_index: 0,
            page_mask: 1 << page_index | above & 0x2b,
            base: first + self.random.below(places) * 16 * entries,
            reserved: self.random.pick(&[0, 0, u64::MAX]),
        }
    }

    fn spoil_descriptor(&mut self, guest: usize, descriptor: &mut Descriptor) {
        let random = &mut self.random;
        match random.below(9) {
            0 => descriptor.page_index = random.pick(&[2, 4, 6, 7, 9, 32, 0x100, 0xffff]),
            1 => descriptor.page_mask = 0,
            2 => descriptor.page_mask |= random.pick(&[4, 0x10, 0x40, 0x80, 0x100, 1 << 31]),
            3 => descriptor.associativity = random.pick(&[0, 2, 3, 0x100, 0xffff]),
            4 => {
                descriptor.entries = random.pick(&[
                    0,
                    256,
                    511,
                    513,
                    768,
                    1 << 20,
                    1 << 20,
                    (1 << 20) + 512,
                    1 << 21,
                    1 << 21,
                    1 << 31,
                ]);
                // Aligned, so that the entries alone decide.
                if random.one_in(2) {
                    descriptor.base = random.pick(&[0, 1 << 24, 1 << 63]);
                }
            }
            5 => descriptor.context_index = random.pick(&[1, 2, 0x100, 1 << 31, !0]),
            6 => descriptor.page_index = random.pick(&[0, 1, 3, 5]),
            7 => {
                let half = 8 * u64::from(descriptor.entries);
                descriptor.base = descriptor
                    .base
                    .wrapping_add(random.pick(&[1, 16, half, half]));
            }
            _ => {
                let around = self.around(guest);
                descriptor.base = around - around % (16 * u64::from(descriptor.entries.max(1)));
            }
        }
    }
}
