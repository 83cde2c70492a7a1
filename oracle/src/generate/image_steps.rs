//! Images: refused ones, those that ask for more memory, and sound ones.

use super::partition::{self, Partition};
use super::{malformed, Generator};
use crate::session;

impl Generator {
    /// A refused image leaves no guest, so that the next finds nothing, unless a
    /// sound one comes between them.
    pub(super) fn bad_images(&mut self) {
        for _ in 0..19 + self.random.below(38) {
            let reloaded = !self.last_image.is_empty() && self.random.one_in(8);
            if reloaded {
                self.image(&self.last_image.clone());
            }
            self.damaged_image();
            if reloaded {
                self.event("load", &[0, 0]);
            }
            self.blind_events(2);
        }
        if self.random.one_in(3) {
            let partition = match self.random.below(2) {
                0 => Partition::anywhere(&mut self.random),
                _ => Partition::crowded(&mut self.random),
            };
            self.image(&partition.pack());
            self.blind_events(20);
        }
        for _ in 0..1 + self.random.below(4) {
            let partition = Partition::reaching_out(&mut self.random);
            self.image(&partition.pack());
            self.event("load", &[0, 0]);
            self.blind_events(4);
        }
    }

    fn image(&mut self, image: &[u8]) {
        let digits: String = image.iter().map(|byte| format!("{byte:02x}")).collect();
        let mut line = b"image ".to_vec();
        let style = self.random.below(4);
        for (place, digit) in digits.bytes().enumerate() {
            let space = match style {
                0 => place % 2 == 0,
                1 => self.random.one_in(5),
                _ => false,
            };
            if space {
                line.push(b' ');
            }
            line.push(if style == 2 {
                digit.to_ascii_uppercase()
            } else {
                digit
            });
        }
        if self.random.one_in(10) {
            line = malformed::padded(&line, b' ', session::LINE_LIMIT);
        }
        self.emit(&line);
    }

    pub(super) fn sound_image(&mut self) {
        if self.last_image.is_empty() || self.random.one_in(2) {
            let partition = match self.random.below(2) {
                0 => Partition::touching(&mut self.random),
                _ => Partition::in_memory(&mut self.random),
            };
            self.last_image = partition.pack();
        }
        self.image(&self.last_image.clone());
        let guest = self.random.index_or_last(self.host.tables.guests.len());
        let cpus = self
            .host
            .tables
            .guests
            .get(guest)
            .map_or(0, |g| g.cpus.len());
        self.favourite = (guest, self.random.index_or_last(cpus));
    }

    fn damaged_image(&mut self) {
        if !self.random.one_in(3) {
            return self.faulty_image();
        }
        let partition = match self.random.below(3) {
            0 => Partition::in_memory(&mut self.random),
            1 => Partition::anywhere(&mut self.random),
            _ => Partition::crowded(&mut self.random),
        };
        let image = match self.random.below(3) {
            0 => {
                let mut image = partition.pack();
                partition::spoil_bytes(&mut image, &mut self.random);
                image
            }
            1 if self.random.one_in(3) => partition::stub(&mut self.random),
            _ => partition.damaged(&mut self.random),
        };
        self.image(&image);
    }

    /// Rather with many extents, so that there are many places for a fault.
    fn faulty_image(&mut self) {
        let partition = match self.random.below(4) {
            0 => Partition::anywhere(&mut self.random),
            _ => Partition::crowded(&mut self.random),
        };
        let image = partition.faulty(&mut self.random);
        self.image(&image);
    }

    /// Events that do not look at the tables: there may be no guest, or its
    /// memory may not be lent.
    fn blind_events(&mut self, most: u64) {
        for _ in 0..self.random.below(most) {
            let guest = self.random.pick(&[0, 0, 0, 1, 2, 3, 4, u64::MAX]);
            let cpuid = self.random.pick(&[0, 0, 1, 8]);
            match self.random.below(8) {
                0 => self.event("call", &[guest, cpuid, 0xff, 0, 1, 1, 0]),
                1 => self.event("call", &[guest, cpuid, 0x80, 0x16]),
                2 => self.event("head", &[guest, cpuid, 0x3c, 0]),
                3 => self.event("raise", &[0x100, 5]),
                4 => self.event("load", &[guest, 0]),
                5 => self.event("store", &[guest, 8, 0x1234]),
                6 => {
                    let mark = self.random.pick(&[0, 1, 2]);
                    self.event("hit", &[guest, cpuid, mark, 0, 0, 5]);
                }
                _ if self.host.tables.guests.is_empty() => self.event("raise", &[0, 0]),
                _ => drop(self.raise(0)),
            }
        }
    }
}
