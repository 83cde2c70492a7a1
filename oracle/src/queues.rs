//! Queues, head writes and mondos.

use crate::calls::Caller;
use crate::model::{Outcome, Status, DONE};
use crate::tables::{Guest, HostOffset, RealAddress, Ring, ENTRY_SIZE};

/// Positions in a cpu's record of the queues 0x3c and 0x3d.
pub const CPU_MONDO: usize = 0;
pub const DEVICE_MONDO: usize = 1;

/// What a list entry becomes once its mondo is sent, so that a list that is
/// sent again passes over it.
pub const SENT: u16 = 0xffff;

/// The most entries of a list.
const LIST_LIMIT: usize = 64;

const ENTRY_BYTES: usize = ENTRY_SIZE as usize;

pub type Entry = [u8; ENTRY_BYTES];

/// The position of a queue number in a cpu's record.
fn queue_numbered(queue: u64) -> Result<usize, Status> {
    match queue {
        0x3c..=0x3f => Ok((queue - 0x3c) as usize),
        _ => Err(Status::EINVAL),
    }
}

impl Guest {
    /// Writes an entry at the tail, if the ring exists and has room.
    pub fn append(&mut self, cpu: usize, queue: usize, entry: &Entry, memory: &mut [u8]) -> bool {
        let Some(ring) = self.cpus[cpu].queues[queue] else {
            return false;
        };
        if ring.is_full() {
            return false;
        }
        let at = RealAddress(ring.base.0 + ring.tail);
        let Some(HostOffset(at)) = self.place(at) else {
            return false;
        };
        memory[at..at + ENTRY_BYTES].copy_from_slice(entry);
        let tail = (ring.tail + ENTRY_SIZE) % ring.size;
        self.cpus[cpu].queues[queue] = Some(Ring { tail, ..ring });
        true
    }
}

impl Caller<'_> {
    pub fn configure_queue(&mut self, queue: u64, base: RealAddress, n: u64) -> Outcome {
        let queue = queue_numbered(queue)?;
        let ring = self.new_ring(base, n)?;
        self.guest.cpus[self.cpuid].queues[queue] = ring;
        DONE
    }

    fn new_ring(&self, base: RealAddress, n: u64) -> Result<Option<Ring>, Status> {
        if n == 0 {
            return Ok(None);
        }
        if !n.is_power_of_two() || !(2..=256).contains(&n) {
            return Err(Status::EINVAL);
        }
        let size = ENTRY_SIZE * n;
        if !base.is_on(size) {
            return Err(Status::EBADALIGN);
        }
        self.guest.accept_range(base, size)?;
        Ok(Some(Ring {
            base,
            size,
            head: 0,
            tail: 0,
        }))
    }

    pub fn queue_information(&self, queue: u64) -> Outcome {
        match self.guest.cpus[self.cpuid].queues[queue_numbered(queue)?] {
            Some(ring) => Ok([ring.base.0, ring.size / ENTRY_SIZE, 0, 0]),
            None => DONE,
        }
    }

    pub fn write_head(&mut self, queue: u64, value: u64) -> Outcome {
        let record = &mut self.guest.cpus[self.cpuid].queues[queue_numbered(queue)?];
        let ring = record.as_mut().ok_or(Status::EINVAL)?;
        if !value.is_multiple_of(ENTRY_SIZE) {
            return Err(Status::EBADALIGN);
        }
        if value >= ring.size || ring.forward(value) > ring.forward(ring.tail) {
            return Err(Status::EINVAL);
        }
        ring.head = value;
        DONE
    }

    pub fn send_mondo(&mut self, count: u64, list: RealAddress, data: RealAddress) -> Outcome {
        if count == 0 || count > LIST_LIMIT as u64 {
            return Err(Status::EINVAL);
        }
        if !data.is_on(ENTRY_SIZE) || !list.is_on(2) {
            return Err(Status::EBADALIGN);
        }
        self.guest.accept_range(data, ENTRY_SIZE)?;
        self.guest.accept_range(list, 2 * count)?;

        // Both are read before any write, because they and the rings may overlap.
        let mut cpus = [0; LIST_LIMIT];
        let cpus = &mut cpus[..count as usize];
        self.read_list(list, cpus);
        self.accept_list(cpus)?;
        let mut entry = [0; ENTRY_BYTES];
        self.guest.read(data, self.memory, &mut entry);
        self.deliver(list, cpus, &entry)
    }

    fn read_list(&self, list: RealAddress, cpus: &mut [u16]) {
        let mut bytes = [0; 2 * LIST_LIMIT];
        let bytes = &mut bytes[..2 * cpus.len()];
        self.guest.read(list, self.memory, bytes);
        for (cpu, pair) in cpus.iter_mut().zip(bytes.chunks_exact(2)) {
            *cpu = u16::from_be_bytes([pair[0], pair[1]]);
        }
    }

    fn accept_list(&self, cpus: &[u16]) -> Result<(), Status> {
        let others = cpus.iter().filter(|&&cpu| cpu != SENT);
        let mut others = others.map(|&cpu| usize::from(cpu));
        if others.clone().any(|cpu| cpu == self.cpuid) {
            return Err(Status::EINVAL);
        }
        if others.any(|cpu| cpu >= self.guest.cpus.len()) {
            return Err(Status::ENOCPU);
        }
        Ok(())
    }

    /// Each entry is marked where it lies: a seam may be before it.
    fn mark(&mut self, entry: RealAddress) {
        if let Some(HostOffset(at)) = self.guest.place(entry) {
            self.memory[at..at + 2].copy_from_slice(&SENT.to_be_bytes());
        }
    }

    /// In list order, for each entry the data first and then the mark. Nothing
    /// is written for an entry that was read as a mark, and it is not left.
    fn deliver(&mut self, list: RealAddress, cpus: &[u16], entry: &Entry) -> Outcome {
        let mut any_left = false;
        for (position, &cpu) in cpus.iter().enumerate() {
            if cpu == SENT {
                continue;
            }
            if self
                .guest
                .append(usize::from(cpu), CPU_MONDO, entry, self.memory)
            {
                self.mark(RealAddress(list.0 + 2 * position as u64));
            } else {
                any_left = true;
            }
        }
        if any_left {
            Err(Status::EWOULDBLOCK)
        } else {
            DONE
        }
    }
}
