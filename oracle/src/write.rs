//! Writing a partition image from tables.

use crate::image;
use crate::model::Status;
use crate::tables::{Extent, Guest, Source, Tables};

/// Room for every image: the longest has 505 bytes.
pub const ROOM: usize = 1024;

const HEADER_BITS: usize = 8;
const COUNTS_BITS: usize = 12;
const EXTENT_BITS: usize = 60;
const SOURCE_BITS: usize = 36;

/// Writes the image of the tables to the front of `out`, and gives its length,
/// or the status of a refusal, whose length is 0. The bytes behind the image
/// stay, and so do all of them where it is refused.
pub fn write(tables: &Tables, out: &mut [u8]) -> Result<usize, Status> {
    if !image::keep_rules(&tables.guests) {
        return Err(Status::Tables);
    }
    if tables.guests.is_empty() {
        return Err(Status::NoGuest);
    }
    let length = bits_of(tables).div_ceil(8);
    let out = out.get_mut(..length).ok_or(Status::Room)?;
    let mut bits = BitWriter::new(out);
    bits.field(1, 4);
    bits.field(tables.guests.len() as u64, 4);
    for guest in &tables.guests {
        write_guest(guest, &mut bits);
    }
    bits.fill();
    Ok(length)
}

fn bits_of(tables: &Tables) -> usize {
    let of_guest = |guest: &Guest| {
        COUNTS_BITS + EXTENT_BITS * guest.extents.len() + SOURCE_BITS * guest.sources.len()
    };
    HEADER_BITS + tables.guests.iter().map(of_guest).sum::<usize>()
}

fn write_guest(guest: &Guest, bits: &mut BitWriter) {
    bits.field(guest.cpus.len() as u64, 4);
    bits.field(guest.extents.len() as u64, 3);
    bits.field(guest.sources.len() as u64, 5);
    for extent in &guest.extents {
        write_extent(extent, bits);
    }
    for source in &guest.sources {
        write_source(source, bits);
    }
}

fn write_extent(extent: &Extent, bits: &mut BitWriter) {
    bits.field(extent.real_page, 28);
    bits.field(extent.pages, 16);
    bits.field(extent.host_page, 16);
}

/// Nothing of what the guest configured.
fn write_source(source: &Source, bits: &mut BitWriter) {
    bits.field(source.devhandle, 28);
    bits.field(source.devino, 7);
    bits.field(u64::from(source.cookie_support), 1);
}

/// Puts fields without gaps into bytes, most significant bit first. Of the bits
/// that were put in, the last `waiting` stand in no byte yet.
struct BitWriter<'a> {
    out: &'a mut [u8],
    length: usize,
    bits: u64,
    waiting: u32,
}

impl BitWriter<'_> {
    fn new(out: &mut [u8]) -> BitWriter<'_> {
        BitWriter {
            out,
            length: 0,
            bits: 0,
            waiting: 0,
        }
    }

    /// The number must fit into the width, which is at most 56.
    fn field(&mut self, number: u64, width: u32) {
        self.bits = self.bits << width | number;
        self.waiting += width;
        while self.waiting >= 8 {
            self.waiting -= 8;
            self.out[self.length] = (self.bits >> self.waiting) as u8;
            self.length += 1;
        }
    }

    /// Zero bits up to the end of a byte.
    fn fill(&mut self) {
        self.field(0, (8 - self.waiting) % 8);
    }
}
