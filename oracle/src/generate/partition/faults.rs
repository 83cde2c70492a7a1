//! Images with several faults, of one rule or of more, so that it shows which
//! rule is tried first and which place is told.

use super::{Extent, Guest, Partition, Source, HOST_PAGES, REAL_PAGES};
use crate::generate::random::Random;
use std::ops::Range;

/// The number of a guest, and a position in it.
type Place = (usize, usize);

/// The rules that are tried after the last field, in their order.
#[derive(Clone, Copy, PartialEq)]
enum Rule {
    Numbers,
    Order,
    Shared,
    Twice,
    End,
}

/// Those that tell a place in a guest.
const PLACED: [Rule; 4] = [Rule::Numbers, Rule::Order, Rule::Shared, Rule::Twice];

/// The earlier ones hide the others, so that they need not come as often.
const OFTEN: [Rule; 14] = [
    Rule::Numbers,
    Rule::Numbers,
    Rule::Order,
    Rule::Order,
    Rule::Shared,
    Rule::Shared,
    Rule::Shared,
    Rule::Twice,
    Rule::Twice,
    Rule::Twice,
    Rule::Twice,
    Rule::Twice,
    Rule::End,
    Rule::End,
];

impl Partition {
    /// The image of this partition with several faults; often with bad counts,
    /// too, and now and then without its end.
    pub fn faulty(mut self, random: &mut Random) -> Vec<u8> {
        let bad_end = match random.one_in(3) {
            true => self.break_backwards(random),
            false => self.break_anywhere(random),
        };
        let bad_counts = random.one_in(3);
        if bad_counts {
            self.break_counts(random);
        }
        let bits = self.bits();
        let mut image = bits.bytes();
        if bad_end {
            break_end(&mut image, bits.fill(), random);
        }
        if random.one_in(if bad_counts { 4 } else { 15 }) {
            image.truncate(random.index(image.len()));
        }
        image
    }

    /// Faults of two rules, or two of one, and sometimes one more. Says whether
    /// the end is to be bad: that is a matter of the bytes.
    fn break_anywhere(&mut self, random: &mut Random) -> bool {
        let mut rules = vec![random.pick(&OFTEN), random.pick(&OFTEN)];
        if random.one_in(4) {
            rules.push(random.pick(&OFTEN));
        }
        for &rule in &rules {
            self.break_rule(rule, 0..self.guests.len(), random);
        }
        rules.contains(&Rule::End)
    }

    /// What is tried first is broken in a later guest than what comes after it.
    fn break_backwards(&mut self, random: &mut Random) -> bool {
        let first = random.index(PLACED.len() - 1);
        let then = first + 1 + random.index(PLACED.len() - first - 1);
        let border = 1 + random.index(self.guests.len() - 1);
        self.break_rule(PLACED[then], 0..border, random);
        self.break_rule(PLACED[first], border..self.guests.len(), random);
        random.one_in(4)
    }

    fn break_rule(&mut self, rule: Rule, guests: Range<usize>, random: &mut Random) {
        match rule {
            Rule::Numbers => self.break_numbers(guests, random),
            Rule::Order => self.break_order(guests, random),
            Rule::Shared => self.share_pages(guests, random),
            Rule::Twice => self.repeat_names(guests, random),
            Rule::End => (),
        }
    }

    /// One count or two, in one guest or in two; sometimes the header as well,
    /// and sometimes the image ends with them.
    fn break_counts(&mut self, random: &mut Random) {
        self.spoil_count(random);
        if random.one_in(3) {
            self.spoil_count(random);
        }
        if random.one_in(6) {
            self.spoil_header(random);
        }
        if random.one_in(3) {
            let last = random.index_or_last(self.guests.len());
            self.guests.truncate(last + 1);
            self.guests[last].extents.clear();
            self.guests[last].sources.clear();
        }
    }

    /// No page, or a page too many for the real or for the host pages.
    fn break_numbers(&mut self, guests: Range<usize>, random: &mut Random) {
        let places = self.places(guests, |guest| guest.extents.len());
        for place in one_or_two(&places, random) {
            let extent = self.extent(place);
            match random.below(3) {
                0 => extent.pages = 0,
                1 => {
                    extent.pages = extent.pages.max(2);
                    extent.real_page = REAL_PAGES - extent.pages + 1;
                }
                _ => {
                    extent.pages = extent.pages.max(2);
                    extent.host_page = HOST_PAGES - extent.pages + 1;
                }
            }
        }
    }

    /// An extent that begins before the end of one that comes before it.
    fn break_order(&mut self, guests: Range<usize>, random: &mut Random) {
        let mut places = self.places(guests, |guest| guest.extents.len());
        places.retain(|&(_, position)| position > 0);
        for (guest, position) in one_or_two(&places, random) {
            let extents = &mut self.guests[guest].extents;
            let before = extents[position - 1];
            let earlier = extents[random.index(position)];
            let first = extents[0];
            match random.below(5) {
                0 => {
                    let end = before.real_page + before.pages;
                    extents[position].real_page = end.saturating_sub(1);
                }
                1 => extents[position].real_page = earlier.real_page,
                2 => extents.swap(position - 1, position),
                // And behind it one that clashes with the first.
                kind => {
                    extents[position].real_page = before.real_page;
                    if let (3, Some(next)) = (kind, extents.get_mut(position + 1)) {
                        next.real_page = first.real_page;
                    }
                }
            }
        }
    }

    /// The one that moves is the earlier or the later. It comes to the other's
    /// first page or its last, or reaches just into it.
    fn share_pages(&mut self, guests: Range<usize>, random: &mut Random) {
        for pair in pairs(self.places(guests, |guest| guest.extents.len()), random) {
            let [given, taker] = either_way(pair, random);
            let Extent {
                host_page, pages, ..
            } = *self.extent(given);
            let taker = self.extent(taker);
            let page = match random.below(3) {
                0 => host_page,
                1 => host_page + pages.saturating_sub(1),
                _ => (host_page + 1).saturating_sub(taker.pages),
            };
            taker.host_page = page.min(HOST_PAGES - taker.pages.max(1));
        }
    }

    /// Cookie support stays, and does not tell the two apart.
    fn repeat_names(&mut self, guests: Range<usize>, random: &mut Random) {
        for pair in pairs(self.places(guests, |guest| guest.sources.len()), random) {
            let [given, taker] = either_way(pair, random);
            let Source {
                devhandle, devino, ..
            } = *self.source(given);
            let taker = self.source(taker);
            (taker.devhandle, taker.devino) = (devhandle, devino);
        }
    }

    /// Where these guests have extents, or sources.
    fn places(&self, guests: Range<usize>, length: fn(&Guest) -> usize) -> Vec<Place> {
        let mut places = Vec::new();
        for guest in guests {
            places.extend((0..length(&self.guests[guest])).map(|position| (guest, position)));
        }
        places
    }

    fn extent(&mut self, (guest, position): Place) -> &mut Extent {
        &mut self.guests[guest].extents[position]
    }

    fn source(&mut self, (guest, position): Place) -> &mut Source {
        &mut self.guests[guest].sources[position]
    }
}

/// Some place, or two, in one guest or in any.
fn one_or_two(places: &[Place], random: &mut Random) -> Vec<Place> {
    let Some(&first) = places.get(random.index(places.len())) else {
        return Vec::new();
    };
    let mut others = places.to_vec();
    if random.one_in(2) {
        others.retain(|place| place.0 == first.0);
    }
    match random.one_in(2) {
        true => vec![first, random.pick(&others)],
        false => vec![first],
    }
}

/// One or two pairs to be made clash, in one guest or in any. Two lie one in
/// the other, cross, or follow each other: in the first case the pair of the
/// earliest of all is not the one that is told.
fn pairs(mut places: Vec<Place>, random: &mut Random) -> Vec<[Place; 2]> {
    if random.one_in(4) && !places.is_empty() {
        let (guest, _) = random.pick(&places);
        places.retain(|place| place.0 == guest);
    }
    random.shuffle(&mut places);
    places.truncate(random.pick(&[2, 4, 4, 4]));
    places.sort();
    match *places {
        [a, b, c, d] => match random.below(5) {
            0..=2 => vec![[a, d], [b, c]],
            3 => vec![[a, c], [b, d]],
            _ => vec![[a, b], [c, d]],
        },
        [a, .., b] => vec![[a, b]],
        _ => Vec::new(),
    }
}

fn either_way([a, b]: [Place; 2], random: &mut Random) -> [Place; 2] {
    match random.one_in(2) {
        true => [a, b],
        false => [b, a],
    }
}

/// A bit of the fill, if there is one, or bytes behind it.
fn break_end(image: &mut Vec<u8>, fill: usize, random: &mut Random) {
    match image.last_mut() {
        Some(last) if fill > 0 && random.one_in(2) => *last |= 1 << random.index(fill),
        _ => image.push(random.pick(&[0, 0, 1, 0x80, 0xff])),
    }
}
