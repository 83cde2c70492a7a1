//! Steps that lead to a limit: all sources of a guest on its way to 2.0, and
//! rings that hold more than 8,192 bytes.

use super::Generator;
use crate::tables::Group;

const PAGE: u64 = 8192;

/// What the longest ring asks for.
const TWO_PAGES: u64 = 2 * PAGE;

impl Generator {
    // Going to 2.0.

    /// All sources of a guest enabled, and room for what they raise; then 2.0,
    /// and a look at each.
    pub(super) fn upgrade_step(&mut self) {
        let guests = 0..self.host.tables.guests.len();
        let ready: Vec<usize> = guests
            .filter(|&g| self.guest(g).major(Group::Interrupts) == 1)
            .filter(|&g| !self.guest(g).sources.is_empty())
            .collect();
        let Some(&guest) = ready.get(self.random.index(ready.len())) else {
            return self.source_step();
        };
        let cpu = self.random.index(self.guest(guest).cpus.len());
        let base = self.inside(guest, 64 * 32);
        self.call((guest, cpu), 0x14, &[0x3d, base, 32]);
        let sources = self.guest(guest).sources.len();
        for sysino in 0..sources {
            self.set((guest, cpu), sysino, 0xae, cpu as u64);
            self.set((guest, cpu), sysino, 0xaa, 1);
            let state = self.random.pick(&[0, 0, 1, 2]);
            self.set((guest, cpu), sysino, 0xac, state);
        }
        self.call_trap((guest, cpu), 0xff, 0, &[2, 2, 0]);
        for sysino in 0..sources {
            self.look_after_upgrade((guest, cpu), sysino);
        }
    }

    /// Whether it is disabled shows by a get, without cookie support only by
    /// a raise. Enabled again, it goes to the target that it had.
    fn look_after_upgrade(&mut self, who: (usize, usize), sysino: usize) {
        let cookie_support = self.guest(who.0).sources[sysino].cookie_support;
        if cookie_support {
            self.set(who, sysino, 0xa9, 0);
            let get = self.random.pick(&[0xa7, 0xab, 0xad]);
            self.set(who, sysino, get, 0);
        }
        self.raise_source(who.0, sysino);
        if cookie_support && self.random.one_in(2) {
            self.enable(who, sysino);
            self.raise_source(who.0, sysino);
            self.serve(who.0, sysino);
        }
    }

    // The longest rings.

    /// The guests with two cpus and room for a ring of 256, and its base: in
    /// one extent, or in two that touch.
    fn long_rings(&self) -> Vec<(usize, u64)> {
        let mut rows = self.rows();
        rows.retain(|row| self.guest(row.guest).cpus.len() > 1);
        let rings = rows.iter();
        rings
            .filter_map(|row| Some((row.guest, row.room(TWO_PAGES)?)))
            .collect()
    }

    pub(super) fn long_ring_step(&mut self) {
        let rings = self.long_rings();
        let Some(&(guest, base)) = rings.get(self.random.index(rings.len())) else {
            return self.mondo_step();
        };
        let to = self.random.index_or_last(self.guest(guest).cpus.len());
        self.fill_long_ring((guest, to), base);
    }

    /// Mondos past the middle of the ring and round its end. The data is a
    /// list of 32, so that any two entries are a list of 64.
    pub(super) fn fill_long_ring(&mut self, (guest, to): (usize, usize), base: u64) {
        let from = (guest, (to + 1) % self.guest(guest).cpus.len());
        self.call((guest, to), 0x14, &[0x3c, base, 256]);
        let last = base + TWO_PAGES - 64;
        let list = (to as u16).to_be_bytes().repeat(32);
        self.write(guest, last, &list);
        self.call(from, 0x42, &[32, last, last]);
        for round in 0..2 + self.random.below(5) {
            self.call(from, 0x42, &[64, base + 256 * round, base + 128]);
            if !self.random.one_in(3) {
                self.pass_some((guest, to));
            }
        }
        // The entries before and behind the middle, where a seam may be.
        self.load(guest, base + PAGE - 64);
        self.load(guest, base + PAGE);
    }

    /// The head moves on, or is tried behind the tail; then a look at the end.
    pub(super) fn pass_some(&mut self, who: (usize, usize)) {
        let Some(ring) = self.guest(who.0).cpus[who.1].queues[0] else {
            return;
        };
        let forward = match self.random.below(4) {
            0 => ring.forward(ring.tail) + 64,
            1 => ring.forward(ring.tail),
            _ => 64 * self.random.below(ring.forward(ring.tail) / 64 + 1),
        };
        self.head(who, 0x3c, (ring.head + forward) % ring.size);
        let end = (ring.tail + ring.size - 64) % ring.size;
        self.load(who.0, ring.base.0 + end);
    }
}
