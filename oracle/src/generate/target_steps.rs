//! Steps on sources that are raised before they can be delivered.

use super::Generator;
use crate::tables::{Group, Guest};

impl Generator {
    /// A raise that finds no way; then what was missing, by which nothing is
    /// delivered, nor by a new cookie; then a raise that delivers. Sometimes to
    /// a target that was moved away before, and back.
    pub(super) fn target_step(&mut self) {
        let wanted =
            |guest: &Guest| !guest.sources.is_empty() && guest.major(Group::Interrupts) != 0;
        let who = self.someone_rather(wanted);
        let Some(sysino) = self.ready_source(who.0) else {
            return self.source_step();
        };
        self.enable(who, sysino);
        self.set(who, sysino, 0xac, 0);
        if self.random.one_in(4) {
            let away = self.someone_of(who.0);
            self.set(who, sysino, 0xae, away.1 as u64);
            self.set(who, sysino, 0xae, 0);
        }
        let target = (who.0, self.guest(who.0).sources[sysino].target);
        match self.random.below(4) {
            0 => self.enabled_later(who, sysino),
            1 => self.ring_later(target, sysino),
            2 => self.room_later(target, sysino),
            _ => self.target_later(target, sysino),
        }
        if self.random.one_in(3) {
            self.enable(who, sysino);
        }
        self.set(who, sysino, 0xab, 0);
        if self.random.one_in(2) {
            self.set(who, sysino, 0xad, 0);
        }
        self.raise_source(who.0, sysino);
        self.serve(who.0, sysino);
    }

    fn enabled_later(&mut self, who: (usize, usize), sysino: usize) {
        self.set(who, sysino, 0xaa, 0);
        self.raise_source(who.0, sysino);
        self.set(who, sysino, 0xaa, 1);
    }

    fn ring_later(&mut self, target: (usize, usize), sysino: usize) {
        self.call(target, 0x14, &[0x3d, 0, 0]);
        self.raise_source(target.0, sysino);
        self.short_ring(target);
    }

    /// The ring is full of an entry of its own.
    fn room_later(&mut self, target: (usize, usize), sysino: usize) {
        self.short_ring(target);
        self.raise_source(target.0, sysino);
        self.set(target, sysino, 0xac, 0);
        self.raise_source(target.0, sysino);
        self.head(target, 0x3d, 64);
    }

    /// Another cpu's ring has room.
    fn target_later(&mut self, target: (usize, usize), sysino: usize) {
        let other = match self.random.one_in(2) {
            true => (target.0, 0),
            false => self.someone_of(target.0),
        };
        self.short_ring(other);
        if other != target {
            self.call(target, 0x14, &[0x3d, 0, 0]);
        }
        self.raise_source(target.0, sysino);
        self.set(target, sysino, 0xae, other.1 as u64);
    }

    /// It holds one entry.
    fn short_ring(&mut self, who: (usize, usize)) {
        let base = self.ring_base(who.0, 128);
        self.call(who, 0x14, &[0x3d, base, 2]);
    }
}
