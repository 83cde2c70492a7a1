//! Damaged images: one fault, or two, and what is just not one.

use super::{Extent, Partition, Source, HOST_PAGES, REAL_PAGES};
use crate::generate::random::Random;

impl Partition {
    /// The image of this partition with one fault, or sometimes two.
    pub fn damaged(mut self, random: &mut Random) -> Vec<u8> {
        self.spoil(random);
        if random.one_in(6) {
            self.spoil(random);
        }
        let mut image = self.pack();
        if random.one_in(4) {
            spoil_bytes(&mut image, random);
        }
        image
    }

    fn spoil(&mut self, random: &mut Random) {
        match random.below(13) {
            0 => self.spoil_header(random),
            1..=3 => self.spoil_count(random),
            4..=6 => self.spoil_extent(random),
            7 | 8 => self.spoil_order(random),
            9 | 10 => self.share_host_page(random),
            _ => self.name_twice(random),
        }
    }

    pub(super) fn spoil_header(&mut self, random: &mut Random) {
        if random.one_in(3) {
            self.edition = random.pick(&[0, 2, 3, 8, 15]);
        } else {
            self.guest_count = random.pick(&[0, 5, 5, 6, 8, 15]);
        }
    }

    pub(super) fn spoil_count(&mut self, random: &mut Random) {
        let guest = self.some_guest(random);
        match random.below(4) {
            0 => guest.cpus = random.pick(&[0, 9, 10, 15]),
            // With no list behind a count of 0, the count alone is wrong. Every
            // other count is right by itself, and not that of the list.
            1 => (guest.extent_count, guest.extents) = (0, Vec::new()),
            2 => guest.extent_count = random.pick(&[0, 0, 1, 4, 5, 6, 7]),
            _ => guest.source_count = random.pick(&[17, 18, 24, 31]),
        }
    }

    /// Numbers at and past their bounds; at the bound the image stays sound.
    fn spoil_extent(&mut self, random: &mut Random) {
        let guest = self.some_guest(random);
        let place = random.index_or_last(guest.extents.len());
        let Some(extent) = guest.extents.get_mut(place) else {
            return;
        };
        let past = random.pick(&[0, 1, 1, 1]);
        match random.below(5) {
            0 | 1 => extent.pages = 0,
            2 => extent.real_page = (REAL_PAGES - extent.pages + past).min(REAL_PAGES - 1),
            3 => extent.host_page = (HOST_PAGES - extent.pages + past).min(HOST_PAGES - 1),
            _ => extent.pages = 0xffff,
        }
    }

    /// Extents of one guest that overlap by a page, are equal or descend.
    pub fn spoil_order(&mut self, random: &mut Random) {
        let Some(guest) = self
            .guests
            .iter_mut()
            .max_by_key(|guest| guest.extents.len())
        else {
            return;
        };
        let place = random.index_or_last(guest.extents.len().saturating_sub(1));
        let [first, second, ..] = &mut guest.extents[place..] else {
            return;
        };
        match random.below(5) {
            0 | 1 => second.real_page = (first.real_page + first.pages).saturating_sub(1),
            2 => first.pages = second.real_page.saturating_sub(first.real_page) + random.below(2),
            3 => second.real_page = first.real_page,
            _ => guest.extents.reverse(),
        }
    }

    pub fn share_host_page(&mut self, random: &mut Random) {
        let all: Vec<Extent> = self.guests.iter().flat_map(|g| g.extents.clone()).collect();
        let Some(&given) = all.get(random.index(all.len())) else {
            return;
        };
        let guest = self.some_guest(random);
        let place = random.index_or_last(guest.extents.len());
        let Some(taker) = guest.extents.get_mut(place) else {
            return;
        };
        // Shared from the front, from the back, or just touching.
        taker.host_page = match random.below(3) {
            0 => given.host_page,
            1 => (given.host_page + given.pages)
                .saturating_sub(1)
                .min(HOST_PAGES - 1),
            _ => (given.host_page + given.pages).min(HOST_PAGES - 1),
        };
    }

    /// Copies a source's name to another, in the same guest or elsewhere. A
    /// copy of one part of the name alone leaves the image sound.
    pub fn name_twice(&mut self, random: &mut Random) {
        let all: Vec<Source> = self.guests.iter().flat_map(|g| g.sources.clone()).collect();
        if all.is_empty() {
            return self.spoil_extent(random);
        }
        let named = random.pick(&all);
        let guest = self.some_guest(random);
        let place = random.index_or_last(guest.sources.len());
        let Some(source) = guest.sources.get_mut(place) else {
            return;
        };
        match random.below(6) {
            0 => source.devhandle = named.devhandle,
            1 => source.devino = named.devino,
            _ => (source.devhandle, source.devino) = (named.devhandle, named.devino),
        }
    }
}

/// Faults of the bytes alone: cut short, fill bits, bytes behind, a bit off.
pub fn spoil_bytes(image: &mut Vec<u8>, random: &mut Random) {
    match random.below(6) {
        0 | 1 => image.truncate(random.index(image.len())),
        2 => image.truncate(image.len() - 1),
        // The fields end at a half byte or at a whole one.
        3 => *image.last_mut().unwrap_or(&mut 0) |= 1 << random.below(4),
        4 => image.push(random.pick(&[0, 0, 1, 0x80, 0xff])),
        _ => {
            let place = random.index(image.len());
            image[place] ^= 1 << random.below(8);
        }
    }
}

/// The first bytes of an image and no more, or none.
pub fn stub(random: &mut Random) -> Vec<u8> {
    let header = random.pick(&[0x00, 0x01, 0x10, 0x11, 0x12, 0x14, 0x15, 0x1f, 0x21, 0xf1]);
    let counts = random.pick(&[
        0x00, 0x02, 0x10, 0x12, 0x13, 0x18, 0x1a, 0x1e, 0x82, 0x92, 0xf2,
    ]);
    let mut image = vec![header, counts, random.pick(&[0x00, 0x10, 0xf0]), 0];
    image.truncate(random.index(5));
    image
}
