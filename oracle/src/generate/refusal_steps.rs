//! Events of which each number is sound or not, so that often two refusals
//! compete and their order shows.

use super::Generator;
use crate::tables::Group;

impl Generator {
    pub(super) fn refusal_step(&mut self) {
        let who = self.someone_with_sources();
        match self.random.below(12) {
            0 | 1 => self.doubtful_queue(who),
            2 => self.doubtful_head(),
            3 | 4 => self.doubtful_mondo(who),
            5 => {
                let function = self.random.pick(&[0x31, 0x32]);
                let address = self.doubtful(who.0, 8192);
                let length = self.random.pick(&[0, 0, 1, 8192, 8193, 1 << 40]);
                self.call(who, function, &[address, length]);
            }
            6 => {
                let function = self.random.pick(&[0x20, 0x21]);
                let ntsb = self.random.pick(&[1, 4, 5, 5]);
                let pointer = self.doubtful(who.0, 8);
                self.call(who, function, &[ntsb, pointer]);
            }
            7 => {
                let address = self.doubtful(who.0, 64);
                self.call(who, 0x102, &[address]);
                self.call(who, 0x103, &[]);
            }
            8 => {
                let group = self.random.pick(&[0, 1, 2, 3, 0x200, 0x201]);
                let major = self.random.pick(&[0, 1, 1, 3]);
                self.call_trap(who, 0xff, 0, &[group, major]);
            }
            _ => self.doubtful_source(who),
        }
    }

    /// On the boundary or not, inside an extent or far behind all of them.
    fn doubtful(&mut self, guest: usize, boundary: u64) -> u64 {
        let address = match self.random.below(3) {
            0 => 1 << 50,
            _ => self.inside(guest, boundary),
        };
        match self.random.one_in(2) {
            true => address,
            false => address + self.random.pick(&[1, boundary / 2]),
        }
    }

    fn doubtful_queue(&mut self, who: (usize, usize)) {
        let queue = match self.random.one_in(4) {
            true => self.random.pick(&[0, 0x3b, 0x40]),
            false => 0x3c + self.random.below(4),
        };
        let n = self.random.pick(&[0, 1, 2, 3, 4, 128, 257, 512]);
        let base = self.doubtful(who.0, 64 * n.clamp(2, 128));
        self.call(who, 0x14, &[queue, base, n]);
        self.call(who, 0x15, &[queue]);
    }

    fn doubtful_head(&mut self) {
        let (who, queue) = match self.some_ring() {
            Some((who, queue, _)) if !self.random.one_in(3) => (who, queue),
            _ => (self.someone(), 0x3b + self.random.below(6)),
        };
        let value = self.random.pick(&[0, 1, 0x20, 0x4000, 0x4001, 1 << 32]);
        self.head(who, queue, value);
    }

    fn doubtful_mondo(&mut self, who: (usize, usize)) {
        let count = self.random.pick(&[0, 1, 2, 9, 64, 65]);
        let list = self.doubtful(who.0, 2);
        let data = self.doubtful(who.0, 64);
        self.call(who, 0x42, &[count, list, data]);
    }

    /// One's own, one without cookie support, a neighbour's or a missing one;
    /// with a value that is sound or not.
    fn doubtful_source(&mut self, who: (usize, usize)) {
        let stray = self.random.one_in(2);
        if self.guest(who.0).major(Group::Interrupts) == 1 {
            let function = self.random.pick(&[0xa1, 0xa2, 0xa4, 0xa6]);
            let sysino = match self.random.one_in(3) {
                true => self.guest(who.0).sources.len() as u64,
                false => self.sysino(who.0),
            };
            let value = self.source_value(who.0, function, stray);
            self.call(who, function, &[sysino, value]);
            return self.look_at_source(who, function, &[sysino]);
        }
        let function = self
            .random
            .pick(&[0xa7, 0xa8, 0xa8, 0xa9, 0xaa, 0xac, 0xae]);
        let value = self.source_value(who.0, function, stray);
        let sources = self.guest(who.0).sources.iter();
        let plain: Vec<[u64; 2]> = sources
            .filter(|s| !s.cookie_support)
            .map(|s| [s.devhandle, s.devino])
            .collect();
        let (devhandle, devino) = match plain.get(self.random.index(plain.len())) {
            Some(&[devhandle, devino]) if self.random.one_in(2) => (devhandle, devino),
            _ => self.neighbours_or_own(who.0),
        };
        self.call(who, function, &[devhandle, devino, value]);
        self.look_at_source(who, function, &[devhandle, devino]);
    }

    fn neighbours_or_own(&mut self, guest: usize) -> (u64, u64) {
        let guests = self.host.tables.guests.len();
        let owner = match self.random.one_in(2) {
            true => self.random.index(guests),
            false => guest,
        };
        self.source_name(owner)
    }
}
