//! TSB hits, which are counted in the statistics buffer of their cpu.

use crate::calls::Caller;
use crate::model::{Outcome, Status, DONE};
use crate::tables::{HostOffset, RealAddress};

/// The ticks word stands behind the hits word.
const TICKS: u64 = 8;

/// A hit as it is told, before any test.
#[derive(Clone, Copy, Debug, PartialEq, Eq)]
pub struct Hit {
    /// 0 is the instruction side, 1 the data side.
    pub side: u64,
    /// 0 is context zero, 1 another.
    pub context: u64,
    /// Of the page: 0, 1, 3 or 5.
    pub index: u64,
    pub ticks: u64,
}

impl Hit {
    /// Where its two words stand in the buffer (003, section 2.3).
    pub fn place(&self) -> Option<u64> {
        let side = match self.side {
            0 => 0,
            1 => 0x100,
            _ => return None,
        };
        let context = match self.context {
            0 => 0,
            1 => 0x80,
            _ => return None,
        };
        let page = match self.index {
            0 => 0,
            1 => 0x10,
            3 => 0x30,
            5 => 0x50,
            _ => return None,
        };
        Some(side + context + page)
    }
}

impl Caller<'_> {
    /// It is no call, so no group is asked for.
    pub fn count_hit(&mut self, hit: &Hit) -> Outcome {
        let place = hit.place().ok_or(Status::EINVAL)?;
        let buffer = self.guest.cpus[self.cpuid].statistics;
        if buffer != 0 {
            self.add(RealAddress(buffer + place), 1);
            self.add(RealAddress(buffer + place + TICKS), hit.ticks);
        }
        DONE
    }

    /// Each word is on 8 and is looked for by itself: the buffer may lie over
    /// a seam.
    fn add(&mut self, address: RealAddress, amount: u64) {
        let Some(HostOffset(at)) = self.guest.place(address) else {
            return;
        };
        let mut word = [0; 8];
        word.copy_from_slice(&self.memory[at..at + 8]);
        let sum = u64::from_be_bytes(word).wrapping_add(amount);
        self.memory[at..at + 8].copy_from_slice(&sum.to_be_bytes());
    }
}
