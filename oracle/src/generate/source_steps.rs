//! Steps on interrupt sources: the calls of both versions, and raises.

use super::Generator;
use crate::queues::DEVICE_MONDO;
use crate::tables::Group;

impl Generator {
    /// Most sources are enabled. The target of some is chosen before, of some
    /// after it and a raise, of some never.
    pub(super) fn prepare_sources(&mut self, guest: usize) {
        for sysino in 0..self.guest(guest).sources.len() {
            if self.random.one_in(5) {
                continue;
            }
            let who = self.someone_of(guest);
            if self.random.one_in(3) {
                self.set(who, sysino, 0xad, 0);
            }
            let chosen = self.random.below(4);
            if chosen < 2 {
                self.set(who, sysino, 0xae, who.1 as u64);
            }
            self.enable(who, sysino);
            if chosen == 2 {
                self.raise_source(guest, sysino);
                self.set(who, sysino, 0xae, who.1 as u64);
            }
        }
    }

    /// Under 2.0 with a new cookie.
    pub(super) fn enable(&mut self, who: (usize, usize), sysino: usize) {
        if self.guest(who.0).major(Group::Interrupts) == 2 {
            let cookie = self.good_cookie();
            self.set(who, sysino, 0xa8, cookie);
        }
        self.set(who, sysino, 0xaa, 1);
    }

    /// A source that the guest's version can enable.
    pub(super) fn ready_source(&mut self, guest: usize) -> Option<usize> {
        let major = self.guest(guest).major(Group::Interrupts);
        let sources = self.guest(guest).sources.iter().enumerate();
        let ready = sources.filter(|(_, s)| major == 1 || s.cookie_support);
        let ready: Vec<usize> = ready.map(|(sysino, _)| sysino).collect();
        ready.get(self.random.index_or_last(ready.len())).copied()
    }

    fn good_cookie(&mut self) -> u64 {
        match self.random.below(3) {
            0 => 0x800 + self.random.below(3),
            1 => self.random.next() | 0x800,
            _ => self
                .random
                .pick(&[0x800, 0x1000, 1 << 32, 1 << 63, u64::MAX]),
        }
    }

    /// The call with the number of 2.0, in the form of the guest's version.
    pub(super) fn set(&mut self, who: (usize, usize), sysino: usize, function: u64, value: u64) {
        let guest = self.guest(who.0);
        let (devhandle, devino) = (
            guest.sources[sysino].devhandle,
            guest.sources[sysino].devino,
        );
        if guest.major(Group::Interrupts) == 1 {
            self.call(who, function - 8, &[sysino as u64, value]);
        } else {
            self.call(who, function, &[devhandle, devino, value]);
        }
    }

    pub(super) fn source_step(&mut self) {
        let who = self.someone_with_sources();
        let by_sysino = match self.guest(who.0).major(Group::Interrupts) {
            0 => self.random.one_in(2),
            1 => !self.random.one_in(30),
            _ => self.random.one_in(30),
        };
        if by_sysino {
            self.step_by_sysino(who);
        } else {
            self.step_by_handle(who);
        }
    }

    fn step_by_sysino(&mut self, who: (usize, usize)) {
        if self.random.one_in(3) {
            let (devhandle, devino) = self.source_name(who.0);
            return self.call(who, 0xa0, &[devhandle, devino]);
        }
        let function = 0xa1 + self.random.below(6);
        let sysino = self.sysino(who.0);
        let stray = self.random.one_in(6);
        let value = self.source_value(who.0, function, stray);
        self.call(who, function, &[sysino, value]);
        self.look_at_source(who, function, &[sysino]);
    }

    fn step_by_handle(&mut self, who: (usize, usize)) {
        let function = 0xa7 + self.random.below(8);
        let (devhandle, devino) = self.source_name(who.0);
        let stray = self.random.one_in(6);
        let value = self.source_value(who.0, function, stray);
        self.call(who, function, &[devhandle, devino, value]);
        self.look_at_source(who, function, &[devhandle, devino]);
    }

    /// After a set often the get, whose number is one lower, or the get of
    /// what has to stay; after a new cookie also whether it is enabled.
    pub(super) fn look_at_source(&mut self, who: (usize, usize), function: u64, name: &[u64]) {
        let is_set = matches!(function, 0xa2 | 0xa4 | 0xa6 | 0xa8 | 0xaa | 0xac | 0xae);
        if is_set && self.random.one_in(2) {
            self.call(who, function - 1, name);
        }
        if function == 0xa8 {
            self.call(who, 0xa9, name);
        }
        if is_set && self.random.one_in(2) {
            let get = match function <= 0xa6 {
                true => self.random.pick(&[0xa1, 0xa3, 0xa5]),
                false => self.random.pick(&[0xa7, 0xa9, 0xab, 0xad]),
            };
            self.call(who, get, name);
        }
    }

    /// Any get, of any source, in the form of the guest's version.
    pub(super) fn look_at_any_source(&mut self, who: (usize, usize)) {
        let sources = self.guest(who.0).sources.len();
        if sources > 0 {
            let sysino = self.random.index_or_last(sources);
            let get = self.random.pick(&[0xa9, 0xab, 0xad]);
            self.set(who, sysino, get, 0);
        }
    }

    pub(super) fn sysino(&mut self, guest: usize) -> u64 {
        let count = self.guest(guest).sources.len() as u64;
        let sysino = self.random.index_or_last(count as usize) as u64;
        match self.random.below(12) {
            0 => self.random.pick(&[
                count,
                count + 1,
                16,
                1 << 32 | sysino,
                1 << 8 | sysino,
                u64::MAX,
            ]),
            _ => sysino,
        }
    }

    /// Rather one of the guest's own; else a neighbour's or a missing one.
    pub(super) fn source_name(&mut self, guest: usize) -> (u64, u64) {
        let all = self.host.tables.guests.len();
        let owner = if self.random.one_in(12) {
            self.random.index(all)
        } else {
            guest
        };
        let sources = &self.guest(owner).sources;
        let count = sources.len();
        let place = self.random.index_or_last(count);
        let Some(source) = self.guest(owner).sources.get(place) else {
            return (self.random.pick(&[0, 1, 0x100, 0x200, 0x300]), 5);
        };
        let (devhandle, devino) = (source.devhandle, source.devino);
        match self.random.below(60) {
            0 => (devhandle, devino ^ 1 << self.random.below(7)),
            1 => (devhandle ^ 1 << self.random.below(28), devino),
            2 => (devhandle | 1 << 28, devino),
            3 => (devhandle | 1 << 32, devino),
            4 => (devhandle, devino | 1 << 7),
            5 => (devhandle, devino | 1 << 32),
            6 => (devino, devhandle),
            7 => (u64::MAX, u64::MAX),
            _ => (devhandle, devino),
        }
    }

    pub(super) fn source_value(&mut self, guest: usize, function: u64, stray: bool) -> u64 {
        let cpus = self.guest(guest).cpus.len() as u64;
        match function {
            0xa2 | 0xaa if stray => {
                self.random
                    .pick(&[2, 3, 0x100, 0x101, 1 << 32, 1 << 32 | 1, u64::MAX])
            }
            0xa2 | 0xaa => self.random.pick(&[0, 1, 1, 1]),
            0xa4 | 0xac if stray => {
                self.random
                    .pick(&[3, 4, 0x100, 0x101, 1 << 32, 1 << 32 | 2, u64::MAX])
            }
            0xa4 | 0xac => self.random.pick(&[0, 0, 1, 2]),
            0xa6 | 0xae if stray => {
                self.random
                    .pick(&[cpus, cpus + 1, 8, 0x100, 1 << 32, 1 << 32 | 1, u64::MAX])
            }
            // Often back to the first.
            0xa6 | 0xae if self.random.one_in(4) => 0,
            0xa6 | 0xae => self.random.index_or_last(cpus as usize) as u64,
            0xa8 if self.random.one_in(6) => 0,
            0xa8 if stray => self.random.pick(&[0, 0, 1, 2, 0x400, 0x7fe, 0x7ff]),
            _ => self.good_cookie(),
        }
    }

    // Raises.

    pub(super) fn raise_step(&mut self) {
        let (owner, _) = self.someone_with_sources();
        let (devhandle, devino) = self.raise(owner);
        if let Some(sysino) = self.guest(owner).sysino(devhandle, devino) {
            self.serve(owner, sysino);
        }
    }

    /// Returns which source, that may be another guest's or missing.
    pub(super) fn raise(&mut self, owner: usize) -> (u64, u64) {
        let (devhandle, devino) = self.source_name(owner);
        self.event("raise", &[devhandle, devino]);
        (devhandle, devino)
    }

    pub(super) fn raise_source(&mut self, guest: usize, sysino: usize) {
        let source = &self.guest(guest).sources[sysino];
        let name = [source.devhandle, source.devino];
        self.event("raise", &name);
    }

    /// What a driver does after an interrupt, more or less.
    pub(super) fn serve(&mut self, owner: usize, sysino: usize) {
        let target = self.guest(owner).sources[sysino].target;
        let who = (owner, target);
        if let Some(ring) = self.guest(owner).cpus[target].queues[DEVICE_MONDO] {
            let last = (ring.tail + ring.size - 64) % ring.size;
            if self.random.one_in(2) {
                self.load(owner, ring.base.0 + last);
            }
            if self.random.one_in(4) {
                let word = 8 * (1 + self.random.index_or_last(7) as u64);
                self.load(owner, ring.base.0 + last + word);
            }
            if self.random.one_in(4) {
                self.event(
                    "head",
                    &[
                        owner as u64,
                        target as u64,
                        0x3d,
                        (ring.head + 64) % ring.size,
                    ],
                );
            }
        }
        match self.random.below(6) {
            0..=2 => self.set(who, sysino, 0xac, 0),
            3 => self.set(who, sysino, 0xab, 0),
            _ => (),
        }
    }
}
