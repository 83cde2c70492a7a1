//! The host: its entry rules and its events.

use crate::calls::Caller;
use crate::hits::Hit;
use crate::image::{self, Fault};
use crate::tables::{Guest, HostOffset, RealAddress, Tables};

/// The lent memory of a session.
pub const MEMORY_SIZE: usize = 32 * 1024;

/// 101 is of writing alone: no call or image leads to tables that break a rule.
#[derive(Clone, Copy, Debug, PartialEq, Eq)]
#[allow(clippy::upper_case_acronyms)] // The names are the paper's.
pub enum Status {
    EOK = 0,
    ENOCPU = 1,
    ENORADDR = 2,
    EBADPGSZ = 4,
    EBADTSB = 5,
    EINVAL = 6,
    EBADTRAP = 7,
    EBADALIGN = 8,
    EWOULDBLOCK = 9,
    ENOTSUPPORTED = 13,
    Tables = 101,
    Memory = 102,
    Caller = 103,
    Source = 104,
    NoGuest = 105,
    Room = 106,
    ImageShort = 110,
    ImageCount = 111,
    ExtentNumbers = 112,
    ExtentOrder = 113,
    HostPagesShared = 114,
    SourceTwice = 115,
    ImageEnd = 116,
}

/// The values of an event that was done, or the status of one that was not.
pub type Outcome = Result<[u64; 4], Status>;

pub const DONE: Outcome = Ok([0; 4]);

/// An outcome with a first value.
pub fn value(first: u64) -> Outcome {
    Ok([first, 0, 0, 0])
}

pub enum Event {
    Call {
        guest: u64,
        cpuid: u64,
        trap: u64,
        function: u64,
        arguments: [u64; 5],
    },
    Head {
        guest: u64,
        cpuid: u64,
        queue: u64,
        value: u64,
    },
    Raise {
        devhandle: u64,
        devino: u64,
    },
    Load {
        guest: u64,
        address: RealAddress,
    },
    Store {
        guest: u64,
        address: RealAddress,
        value: u64,
    },
    Hit {
        guest: u64,
        cpuid: u64,
        hit: Hit,
    },
}

pub struct Host {
    pub tables: Tables,
    pub memory: Vec<u8>,
}

impl Host {
    pub fn new() -> Host {
        Host {
            tables: Tables::default(),
            memory: vec![0; MEMORY_SIZE],
        }
    }

    /// A refused image leaves tables with no guest. Memory stays either way.
    pub fn load_image(&mut self, image: &[u8]) -> Result<(), Fault> {
        self.tables = Tables::default();
        self.tables = image::load(image)?;
        Ok(())
    }

    pub fn event(&mut self, event: &Event) -> Outcome {
        // Comes first: from here on every valid range lies in memory.
        if self.tables.host_end > self.memory.len() as u64 {
            return Err(Status::Memory);
        }
        match *event {
            Event::Call {
                guest,
                cpuid,
                trap,
                function,
                arguments,
            } => self.caller(guest, cpuid)?.call(trap, function, arguments),
            Event::Head {
                guest,
                cpuid,
                queue,
                value,
            } => self.caller(guest, cpuid)?.write_head(queue, value),
            Event::Raise { devhandle, devino } => self.raise(devhandle, devino),
            Event::Load { guest, address } => self.load(guest, address),
            Event::Store {
                guest,
                address,
                value,
            } => self.store(guest, address, value),
            Event::Hit { guest, cpuid, hit } => self.caller(guest, cpuid)?.count_hit(&hit),
        }
    }

    fn caller(&mut self, guest: u64, cpuid: u64) -> Result<Caller<'_>, Status> {
        let guest = numbered(&mut self.tables, guest)?;
        let cpuid = guest.cpu_numbered(cpuid).ok_or(Status::Caller)?;
        Ok(Caller {
            guest,
            cpuid,
            memory: &mut self.memory,
        })
    }

    fn raise(&mut self, devhandle: u64, devino: u64) -> Outcome {
        for guest in &mut self.tables.guests {
            if let Some(sysino) = guest.sysino(devhandle, devino) {
                return value(guest.raise(sysino, &mut self.memory) as u64);
            }
        }
        Err(Status::Source)
    }

    fn load(&mut self, guest: u64, address: RealAddress) -> Outcome {
        let HostOffset(at) = word_place(numbered(&mut self.tables, guest)?, address)?;
        let mut word = [0; 8];
        word.copy_from_slice(&self.memory[at..at + 8]);
        value(u64::from_be_bytes(word))
    }

    fn store(&mut self, guest: u64, address: RealAddress, value: u64) -> Outcome {
        let HostOffset(at) = word_place(numbered(&mut self.tables, guest)?, address)?;
        self.memory[at..at + 8].copy_from_slice(&value.to_be_bytes());
        DONE
    }
}

/// Numbers from outside are 64 bits wide and are not masked.
fn numbered(tables: &mut Tables, guest: u64) -> Result<&mut Guest, Status> {
    let position = usize::try_from(guest).map_err(|_| Status::Caller)?;
    tables.guests.get_mut(position).ok_or(Status::Caller)
}

fn word_place(guest: &Guest, address: RealAddress) -> Result<HostOffset, Status> {
    if !address.is_on(8) {
        return Err(Status::EBADALIGN);
    }
    guest.place(address).ok_or(Status::ENORADDR)
}
