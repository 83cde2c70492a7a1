//! Loading a partition image, where a bad one is bad, and whether tables keep
//! the rules that loading goes by.

use crate::model::Status;
use crate::tables::{Extent, Guest, Source, Tables};
use crate::tables::{EXTENT_LIMIT, GUEST_LIMIT, SOURCE_LIMIT};
use std::ops::RangeInclusive;

const REAL_PAGES: u64 = 1 << 28;
const HOST_PAGES: u64 = 1 << 16;
const MOST_PAGES: u64 = 0xffff;
const DEVHANDLES: u64 = 1 << 28;
const DEVINOS: u64 = 1 << 7;

/// The limits of the counts.
const GUESTS: RangeInclusive<u64> = 1..=GUEST_LIMIT;
const CPUS: RangeInclusive<u64> = 1..=8;
const EXTENTS: RangeInclusive<u64> = 1..=EXTENT_LIMIT;
const SOURCES: RangeInclusive<u64> = 0..=SOURCE_LIMIT;

/// A guest, and the position of an extent or source in it.
#[derive(Clone, Copy, Debug, PartialEq, Eq)]
pub struct Place {
    pub guest: u64,
    pub position: u64,
}

impl Place {
    /// What is no extent or source has position 0.
    fn of_guest(guest: u64) -> Place {
        Place { guest, position: 0 }
    }
}

/// Why an image is refused, and where.
#[derive(Clone, Copy, Debug, PartialEq, Eq)]
pub struct Fault {
    pub status: Status,
    pub place: Place,
}

/// Reads fields without gaps, most significant bit first.
struct BitReader<'a> {
    bytes: &'a [u8],
    position: usize,
}

impl BitReader<'_> {
    fn rest(&self) -> usize {
        self.bytes.len() * 8 - self.position
    }

    /// Missing bits have no place.
    fn field(&mut self, width: usize) -> Result<u64, Fault> {
        if self.rest() < width {
            return Err(Fault {
                status: Status::ImageShort,
                place: Place::of_guest(0),
            });
        }
        let mut value = 0;
        for bit in self.position..self.position + width {
            let byte = self.bytes[bit / 8];
            value = value << 1 | u64::from(byte >> (7 - bit % 8) & 1);
        }
        self.position += width;
        Ok(value)
    }

    /// A count of the guest: outside its limits nothing more is read. The
    /// header is told as guest 0.
    fn limited(
        &mut self,
        width: usize,
        limits: RangeInclusive<u64>,
        guest: u64,
    ) -> Result<u64, Fault> {
        let value = self.field(width)?;
        if limits.contains(&value) {
            Ok(value)
        } else {
            Err(Fault {
                status: Status::ImageCount,
                place: Place::of_guest(guest),
            })
        }
    }
}

pub fn load(image: &[u8]) -> Result<Tables, Fault> {
    let mut bits = BitReader {
        bytes: image,
        position: 0,
    };
    let guests = read_guests(&mut bits)?;
    try_rules(&guests)?;
    let count = Place::of_guest(guests.len() as u64);
    refuse(Status::ImageEnd, (!ends_well(&mut bits)).then_some(count))?;
    Ok(Tables::new(guests))
}

/// Whether guests that came from no image could have come from one: their
/// numbers may be too wide for its fields. No guest is fine.
pub fn keep_rules(guests: &[Guest]) -> bool {
    let few = guests.len() as u64 <= *GUESTS.end();
    few && guests.iter().all(fields_hold) && try_rules(guests).is_ok()
}

/// The counts are within their limits, and the fields have room for the numbers
/// that no other rule bounds.
fn fields_hold(guest: &Guest) -> bool {
    let named = |source: &Source| source.devhandle < DEVHANDLES && source.devino < DEVINOS;
    CPUS.contains(&(guest.cpus.len() as u64))
        && EXTENTS.contains(&(guest.extents.len() as u64))
        && SOURCES.contains(&(guest.sources.len() as u64))
        && guest
            .extents
            .iter()
            .all(|extent| extent.pages <= MOST_PAGES)
        && guest.sources.iter().all(named)
}

fn read_guests(bits: &mut BitReader) -> Result<Vec<Guest>, Fault> {
    bits.limited(4, 1..=1, 0)?;
    let count = bits.limited(4, GUESTS, 0)?;
    (0..count).map(|number| read_guest(bits, number)).collect()
}

fn read_guest(bits: &mut BitReader, number: u64) -> Result<Guest, Fault> {
    let cpus = bits.limited(4, CPUS, number)?;
    let extents = bits.limited(3, EXTENTS, number)?;
    let sources = bits.limited(5, SOURCES, number)?;
    let extents = (0..extents)
        .map(|_| read_extent(bits))
        .collect::<Result<_, _>>()?;
    let sources = (0..sources)
        .map(|_| read_source(bits))
        .collect::<Result<_, _>>()?;
    Ok(Guest::new(cpus, extents, sources))
}

fn read_extent(bits: &mut BitReader) -> Result<Extent, Fault> {
    let real_page = bits.field(28)?;
    let pages = bits.field(16)?;
    let host_page = bits.field(16)?;
    Ok(Extent {
        real_page,
        pages,
        host_page,
    })
}

fn read_source(bits: &mut BitReader) -> Result<Source, Fault> {
    let devhandle = bits.field(28)?;
    let devino = bits.field(7)?;
    let cookie_support = bits.field(1)? == 1;
    Ok(Source::new(devhandle, devino, cookie_support))
}

/// After the last field: one rule after another, each over all guests.
fn try_rules(guests: &[Guest]) -> Result<(), Fault> {
    let extents = in_order(guests, |guest| &guest.extents);
    let sources = in_order(guests, |guest| &guest.sources);
    let misfit = extents.iter().find(|(_, extent)| !numbers_fit(extent));
    refuse(Status::ExtentNumbers, misfit.map(|(place, _)| *place))?;
    refuse(Status::ExtentOrder, first_clash(&extents, out_of_order))?;
    refuse(Status::HostPagesShared, first_clash(&extents, share_pages))?;
    refuse(Status::SourceTwice, first_clash(&sources, same_name))
}

fn refuse(status: Status, place: Option<Place>) -> Result<(), Fault> {
    match place {
        Some(place) => Err(Fault { status, place }),
        None => Ok(()),
    }
}

/// An extent or source, and where it stands.
type Placed<'a, T> = (Place, &'a T);

/// All that the guests have of a kind, in the image's order.
fn in_order<T>(guests: &[Guest], list: fn(&Guest) -> &Vec<T>) -> Vec<Placed<'_, T>> {
    let mut all = Vec::new();
    for (guest, record) in (0..).zip(guests) {
        for (position, item) in (0..).zip(list(record)) {
            all.push((Place { guest, position }, item));
        }
    }
    all
}

/// The earliest that clashes with one before it. Which one that is, and how
/// many there are, does not matter.
fn first_clash<T>(items: &[Placed<T>], clash: fn(&Placed<T>, &Placed<T>) -> bool) -> Option<Place> {
    let clashes = |&later: &usize| {
        let mut before = items[..later].iter();
        before.any(|earlier| clash(earlier, &items[later]))
    };
    let first = (0..items.len()).find(clashes)?;
    Some(items[first].0)
}

fn numbers_fit(extent: &Extent) -> bool {
    extent.pages >= 1
        && extent.real_page + extent.pages <= REAL_PAGES
        && extent.host_page + extent.pages <= HOST_PAGES
}

/// Of one guest's extents. Touching is allowed.
fn out_of_order((place, earlier): &Placed<Extent>, (other, later): &Placed<Extent>) -> bool {
    place.guest == other.guest && earlier.real_page + earlier.pages > later.real_page
}

/// Of any guests' extents. Touching is allowed.
fn share_pages((_, a): &Placed<Extent>, (_, b): &Placed<Extent>) -> bool {
    a.host_page < b.host_page + b.pages && b.host_page < a.host_page + a.pages
}

/// Cookie support does not tell two sources apart.
fn same_name((_, a): &Placed<Source>, (_, b): &Placed<Source>) -> bool {
    a.is_named(b.devhandle, b.devino)
}

/// Only zero bits are left, and less than a byte of them.
fn ends_well(bits: &mut BitReader) -> bool {
    let fill = bits.rest();
    fill < 8 && bits.field(fill) == Ok(0)
}
