//! Which calls exist, versions, and the calls on memory and statistics.

use crate::model::{value, Outcome, Status, DONE};
use crate::tables::{Group, Guest, RealAddress, PAGE_SIZE};

/// At most this much is zeroed by one scrub.
const SCRUB_LIMIT: u64 = 32_768;
const STATISTICS_SIZE: u64 = 512;

/// The guest and cpu that an event names, and the lent memory.
pub struct Caller<'a> {
    pub guest: &'a mut Guest,
    pub cpuid: usize,
    pub memory: &'a mut [u8],
}

impl Guest {
    pub fn accept_range(&self, start: RealAddress, length: u64) -> Result<(), Status> {
        match self.is_valid(start, length) {
            true => Ok(()),
            false => Err(Status::ENORADDR),
        }
    }
}

impl Caller<'_> {
    /// The number picks the group before any argument is looked at.
    pub fn call(&mut self, trap: u64, function: u64, arguments: [u64; 5]) -> Outcome {
        match (trap, function) {
            (0xff, 0) => self.set_version(arguments[0], arguments[1]),
            (0xff, 3) => self.get_version(arguments[0]),
            (0x80, 0x14..=0x16 | 0x20 | 0x21 | 0x31 | 0x32 | 0x42) => {
                self.need(Group::Core)?;
                self.core_call(function, arguments)
            }
            (0x80, 0xa0..=0xae) => self.interrupt_call(function, arguments),
            (0x80, 0x102 | 0x103) => {
                self.need(Group::Statistics)?;
                self.statistics_call(function, RealAddress(arguments[0]))
            }
            _ => Err(Status::EBADTRAP),
        }
    }

    fn need(&self, group: Group) -> Result<(), Status> {
        match self.guest.major(group) {
            0 => Err(Status::EBADTRAP),
            _ => Ok(()),
        }
    }

    fn core_call(&mut self, function: u64, [first, second, third, ..]: [u64; 5]) -> Outcome {
        match function {
            0x14 => self.configure_queue(first, RealAddress(second), third),
            0x15 => self.queue_information(first),
            0x16 => value(self.cpuid as u64),
            0x20 => self.set_tsb_list(0, first, RealAddress(second)),
            0x21 => self.set_tsb_list(1, first, RealAddress(second)),
            0x31 => self.scrub(RealAddress(first), second),
            0x32 => self.sync(RealAddress(first), second),
            0x42 => self.send_mondo(first, RealAddress(second), RealAddress(third)),
            _ => Err(Status::EBADTRAP),
        }
    }

    /// The minor asked for is ignored: it is always 0.
    fn set_version(&mut self, group: u64, major: u64) -> Outcome {
        let group = Group::numbered(group).ok_or(Status::EINVAL)?;
        let current = self.guest.major(group);
        if major == 0 || major > group.highest_major() || major < current {
            return Err(Status::ENOTSUPPORTED);
        }
        if major == 2 && current != 2 {
            self.guest.disable_sources();
        }
        self.guest.set_major(group, major);
        DONE
    }

    fn get_version(&self, group: u64) -> Outcome {
        let group = Group::numbered(group).ok_or(Status::EINVAL)?;
        match self.guest.major(group) {
            0 => Err(Status::EINVAL),
            major => value(major),
        }
    }

    fn scrub(&mut self, address: RealAddress, length: u64) -> Outcome {
        self.accept_pages(address, length)?;
        let scrubbed = length.min(SCRUB_LIMIT);
        for piece in self.guest.pieces(address, scrubbed) {
            self.memory[piece.bytes()].fill(0);
        }
        value(scrubbed)
    }

    fn sync(&self, address: RealAddress, length: u64) -> Outcome {
        self.accept_pages(address, length)?;
        value(length)
    }

    fn accept_pages(&self, address: RealAddress, length: u64) -> Result<(), Status> {
        if length == 0 {
            return Err(Status::EINVAL);
        }
        if !address.is_on(PAGE_SIZE) || !length.is_multiple_of(PAGE_SIZE) {
            return Err(Status::EBADALIGN);
        }
        self.guest.accept_range(address, length)
    }

    fn statistics_call(&mut self, function: u64, address: RealAddress) -> Outcome {
        if function == 0x102 {
            self.set_statistics(address)
        } else {
            value(self.guest.cpus[self.cpuid].statistics)
        }
    }

    /// A refused address turns the statistics off, as address 0 does.
    fn set_statistics(&mut self, address: RealAddress) -> Outcome {
        let accepted = self.accept_statistics(address);
        let kept = if accepted.is_ok() { address.0 } else { 0 };
        let before = std::mem::replace(&mut self.guest.cpus[self.cpuid].statistics, kept);
        accepted.and(value(before))
    }

    fn accept_statistics(&self, address: RealAddress) -> Result<(), Status> {
        if address.0 == 0 {
            return Ok(());
        }
        if !address.is_on(64) {
            return Err(Status::EBADALIGN);
        }
        self.guest.accept_range(address, STATISTICS_SIZE)
    }
}
