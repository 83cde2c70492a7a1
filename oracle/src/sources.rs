//! Interrupt sources: the calls of group 2, and raises.

use crate::calls::Caller;
use crate::model::{value, Outcome, Status, DONE};
use crate::queues::{Entry, DEVICE_MONDO};
use crate::tables::{Group, Guest, SourceState};

/// Cookies from 1 to this one are refused.
const LAST_BAD_COOKIE: u64 = 2047;

impl Guest {
    /// The position in the guest's own list.
    pub fn sysino(&self, devhandle: u64, devino: u64) -> Option<usize> {
        self.sources
            .iter()
            .position(|s| s.is_named(devhandle, devino))
    }

    pub fn disable_sources(&mut self) {
        for source in &mut self.sources {
            source.enabled = false;
        }
    }

    /// Returns the state after.
    pub fn raise(&mut self, sysino: usize, memory: &mut [u8]) -> SourceState {
        if self.sources[sysino].state != SourceState::Delivered {
            self.sources[sysino].state = SourceState::Received;
            if self.deliver_interrupt(sysino, memory) {
                self.sources[sysino].state = SourceState::Delivered;
            }
        }
        self.sources[sysino].state
    }

    fn deliver_interrupt(&mut self, sysino: usize, memory: &mut [u8]) -> bool {
        let source = &self.sources[sysino];
        if !source.enabled {
            return false;
        }
        let word = match self.major(Group::Interrupts) {
            2 => source.cookie,
            _ => sysino as u64,
        };
        let mut entry: Entry = [0; 64];
        entry[..8].copy_from_slice(&word.to_be_bytes());
        self.append(source.target, DEVICE_MONDO, &entry, memory)
    }
}

impl Caller<'_> {
    pub fn interrupt_call(&mut self, function: u64, arguments: [u64; 5]) -> Outcome {
        let by_sysino = function <= 0xa6;
        match (self.guest.major(Group::Interrupts), by_sysino) {
            (1, true) => self.call_by_sysino(function, arguments),
            (2, false) => self.call_by_handle(function, arguments),
            (2, true) => Err(Status::ENOTSUPPORTED),
            _ => Err(Status::EBADTRAP),
        }
    }

    /// 0xa0 to 0xa6. They do not look at cookie support.
    fn call_by_sysino(&mut self, function: u64, [first, second, ..]: [u64; 5]) -> Outcome {
        if function == 0xa0 {
            let sysino = self.guest.sysino(first, second).ok_or(Status::EINVAL)?;
            return value(sysino as u64);
        }
        if first >= self.guest.sources.len() as u64 {
            return Err(Status::EINVAL);
        }
        self.source_call(function - 0xa1, first as usize, second)
    }

    /// 0xa7 to 0xae.
    fn call_by_handle(&mut self, function: u64, [first, second, third, ..]: [u64; 5]) -> Outcome {
        let sysino = self.guest.sysino(first, second).ok_or(Status::EINVAL)?;
        if !self.guest.sources[sysino].cookie_support {
            return Err(Status::ENOTSUPPORTED);
        }
        match function {
            0xa7 => value(self.guest.sources[sysino].cookie),
            0xa8 => self.set_cookie(sysino, third),
            _ => self.source_call(function - 0xa9, sysino, third),
        }
    }

    /// The six calls that both versions have, in the order of their numbers.
    fn source_call(&mut self, which: u64, sysino: usize, new: u64) -> Outcome {
        let source = &self.guest.sources[sysino];
        match which {
            0 => value(u64::from(source.enabled)),
            1 => self.set_enabled(sysino, new),
            2 => value(source.state as u64),
            3 => self.set_state(sysino, new),
            4 => value(source.target as u64),
            _ => self.set_target(sysino, new),
        }
    }

    fn set_enabled(&mut self, sysino: usize, new: u64) -> Outcome {
        if new > 1 {
            return Err(Status::EINVAL);
        }
        let needs_cookie = self.guest.major(Group::Interrupts) == 2;
        let source = &mut self.guest.sources[sysino];
        if new == 1 && needs_cookie && source.cookie == 0 {
            return Err(Status::EINVAL);
        }
        source.enabled = new == 1;
        DONE
    }

    fn set_state(&mut self, sysino: usize, new: u64) -> Outcome {
        self.guest.sources[sysino].state = match new {
            0 => SourceState::Idle,
            1 => SourceState::Received,
            2 => SourceState::Delivered,
            _ => return Err(Status::EINVAL),
        };
        DONE
    }

    fn set_target(&mut self, sysino: usize, new: u64) -> Outcome {
        let target = self.guest.cpu_numbered(new).ok_or(Status::ENOCPU)?;
        self.guest.sources[sysino].target = target;
        DONE
    }

    fn set_cookie(&mut self, sysino: usize, new: u64) -> Outcome {
        if (1..=LAST_BAD_COOKIE).contains(&new) {
            return Err(Status::EINVAL);
        }
        let source = &mut self.guest.sources[sysino];
        source.cookie = new;
        if new == 0 {
            source.enabled = false;
        }
        DONE
    }
}
