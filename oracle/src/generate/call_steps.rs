//! What stands at the start on a new image, and the steps of versions, unknown
//! calls, calls of no plan and malformed lines.

use super::{malformed, Generator};
use crate::tables::Group;

impl Generator {
    /// Most guests negotiate most groups, in any order; then rings and sources.
    /// A hit asks for no group.
    pub(super) fn prepare(&mut self) {
        for guest in 0..self.host.tables.guests.len() {
            if self.random.one_in(4) {
                self.hit_new(guest);
            }
            let mut groups = [(0, 1), (1, 1), (2, self.random.pick(&[1, 2])), (0x200, 1)];
            self.random.shuffle(&mut groups);
            for (group, major) in groups {
                if self.random.one_in(12) {
                    continue;
                }
                let cpu = self.random.index(self.guest(guest).cpus.len());
                if self.random.one_in(4) {
                    self.call_trap((guest, cpu), 0xff, 3, &[group]);
                }
                self.call_trap((guest, cpu), 0xff, 0, &[group, major, 0]);
            }
            self.look_at_new(guest);
            self.prepare_rings(guest);
            self.prepare_sources(guest);
        }
    }

    /// After loading all is unset, disabled, idle and 0.
    fn look_at_new(&mut self, guest: usize) {
        let cpus = self.guest(guest).cpus.len();
        for cpu in 0..cpus {
            let who = (guest, cpu);
            match self.random.below(6) {
                0 => self.call(who, 0x103, &[]),
                1 => {
                    let queue = 0x3c + self.random.below(4);
                    self.call(who, 0x15, &[queue]);
                }
                2 => self.look_at_any_source(who),
                _ => (),
            }
        }
    }

    pub(super) fn version_step(&mut self) {
        let who = self.someone();
        let group = match self.random.below(8) {
            0 => self.random.pick(&[
                3,
                0x100,
                0x201,
                0x202,
                0x300,
                1 << 32,
                1 << 32 | 1,
                u64::MAX,
            ]),
            _ => self.random.pick(&[0, 1, 2, 0x200]),
        };
        if self.random.one_in(3) {
            return self.call_trap(who, 0xff, 3, &[group]);
        }
        let major = match self.random.below(6) {
            0 => self.random.pick(&[0, 3, 4, 1 << 32, 1 << 32 | 1, u64::MAX]),
            // Rarely, because there is no way back from 2.0.
            1 => self.random.pick(&[1, 2]),
            // Repeating a version changes nothing.
            _ => Group::numbered(group).map_or(1, |g| self.guest(who.0).major(g).max(1)),
        };
        let minor = self.random.pick(&[0, 0, 1, u64::MAX]);
        self.call_trap(who, 0xff, 0, &[group, major, minor]);
        match group {
            1 => self.look_at_queues(who),
            2 => self.look_at_any_source(who),
            0x200 => self.call(who, 0x103, &[]),
            _ => (),
        }
    }

    pub(super) fn unknown_step(&mut self) {
        let who = self.someone();
        let known = self
            .random
            .pick(&[0, 3, 0x14, 0x16, 0x42, 0xa1, 0xa7, 0x103]);
        let argument = self.edge_number();
        match self.random.below(4) {
            0 => {
                let trap =
                    self.random
                        .pick(&[0, 0x7f, 0x81, 0xfe, 0x100, 0x180, 0x1_0000_0080, u64::MAX]);
                self.call_trap(who, trap, known, &[argument]);
            }
            1 => {
                let function =
                    self.random
                        .pick(&[1, 2, 4, 5, 0x14, 0xa0, 1 << 32, 1 << 32 | 3, u64::MAX]);
                self.call_trap(who, 0xff, function, &[1, 1]);
            }
            2 => {
                let function = self.random.pick(&[
                    0, 3, 0x10, 0x13, 0x17, 0x1f, 0x22, 0x30, 0x33, 0x41, 0x43, 0x9f, 0xaf, 0x101,
                    0x104,
                ]);
                self.call(who, function, &[argument]);
            }
            _ => {
                let wide = self.random.pick(&[1 << 16, 1 << 32, 1 << 63]);
                self.call(who, known | wide, &[argument]);
            }
        }
    }

    /// Every function with arguments of no plan.
    pub(super) fn any_call_step(&mut self) {
        let who = self.someone();
        let function = match self.random.below(3) {
            0 => self
                .random
                .pick(&[0x14, 0x15, 0x16, 0x20, 0x21, 0x31, 0x32, 0x42, 0x102, 0x103]),
            1 => 0xa0 + self.random.below(16),
            _ => self.random.below(0x110),
        };
        let arguments: Vec<u64> = (0..self.random.below(6))
            .map(|_| self.edge_number())
            .collect();
        self.call(who, function, &arguments);
    }

    pub(super) fn malformed_step(&mut self) {
        let line = if self.random.one_in(3) {
            malformed::special(&mut self.random)
        } else {
            self.spoilt_line()
        };
        self.emit(&line);
    }

    fn spoilt_line(&mut self) -> Vec<u8> {
        let (guest, cpu) = self.someone();
        let (guest_number, cpu) = (guest as u64, cpu as u64);
        let address = self.inside(guest, 8);
        let mut line = match self.random.below(6) {
            0 => {
                let fields = [guest_number, cpu, 0x80, 0x14, 0x3c, address, 2, 0, 0];
                let count = self.random.pick(&[4, 5, 6, 7, 8, 9, 9]);
                self.line("call", &fields[..count])
            }
            1 => self.line("head", &[guest_number, cpu, 0x3c, 0x40]),
            2 => self.line("raise", &[0x100, 5]),
            3 => self.line("load", &[guest_number, address]),
            4 => self.line("hit", &[guest_number, cpu, 1, 1, 3, 5]),
            _ => self.line("store", &[guest_number, address, 0xbad]),
        };
        malformed::spoil(&mut line, &mut self.random);
        line
    }
}
