//! The program of the planning desk: it reads a plan and prints its image, or
//! reads an image and prints its plan.

use crate::image::{self, Fault};
use crate::session::{self, Line, LINE_LIMIT};
use crate::tables::{Extent, Guest, Source, Tables};
use crate::tables::{EXTENT_LIMIT, GUEST_LIMIT, SOURCE_LIMIT};
use crate::write::{self, ROOM};
use std::io::{self, BufRead, Write};

/// What the lines so far come to.
enum Desk {
    /// The guests that they draw; before the first line there is none.
    Plan(Vec<Guest>),
    Image(Result<Tables, Fault>),
    /// The number of the first line that is none. No other line is looked at.
    Bad(u64),
}

pub fn run(mut input: impl BufRead, mut output: impl Write) -> io::Result<()> {
    let mut desk = Desk::Plan(Vec::new());
    let mut line = Vec::with_capacity(LINE_LIMIT + 1);
    for number in 1.. {
        if !session::read_line(&mut input, &mut line)? {
            break;
        }
        desk = desk.after(number, &line);
    }
    output.write_all(&desk.text())?;
    output.flush()
}

impl Desk {
    fn after(self, number: u64, line: &[u8]) -> Desk {
        match self {
            Desk::Bad(_) => self,
            // An image is the whole input.
            Desk::Image(_) => Desk::Bad(number),
            Desk::Plan(mut guests) => match session::parse(line) {
                Some(Line::Image(image)) if guests.is_empty() => Desk::Image(image::load(&image)),
                _ => match draw(line, &mut guests) {
                    Some(()) => Desk::Plan(guests),
                    None => Desk::Bad(number),
                },
            },
        }
    }

    fn text(self) -> Vec<u8> {
        let mut text = Vec::new();
        match self {
            Desk::Plan(guests) => put_written(&Tables::new(guests), &mut text),
            Desk::Image(Ok(tables)) => put_plan(&tables, &mut text),
            Desk::Image(Err(fault)) => session::write_loaded(Err(fault), &mut text),
            Desk::Bad(number) => text.extend(format!("bad {number:x}").bytes()),
        }
        text.push(b'\n');
        text
    }
}

/// Adds what a line of a plan says; None if it says nothing, or a number that
/// tables have no bits for, or more than they have places for.
fn draw(line: &[u8], guests: &mut Vec<Guest>) -> Option<()> {
    if line.len() > LINE_LIMIT {
        return None;
    }
    let mut words = line.split(|&byte| byte == b' ');
    let word = words.next()?;
    let numbers: Vec<u64> = words.map(session::parse_field).collect::<Option<_>>()?;
    match (word, numbers.as_slice()) {
        (b"guest", &[cpus @ ..=0xff]) => add(
            guests,
            Guest::new(cpus, Vec::new(), Vec::new()),
            GUEST_LIMIT,
        ),
        (b"extent", &[real_page @ ..=0xffff_ffff, pages @ ..=0xffff, host_page @ ..=0xffff]) => {
            let extent = Extent {
                real_page,
                pages,
                host_page,
            };
            add(&mut guests.last_mut()?.extents, extent, EXTENT_LIMIT)
        }
        (b"source", &[devhandle @ ..=0xffff_ffff, devino @ ..=0xff, support @ ..=1]) => {
            let source = Source::new(devhandle, devino, support == 1);
            add(&mut guests.last_mut()?.sources, source, SOURCE_LIMIT)
        }
        _ => None,
    }
}

fn add<T>(list: &mut Vec<T>, item: T, limit: u64) -> Option<()> {
    let room = (list.len() as u64) < limit;
    room.then(|| list.push(item))
}

/// The line of the image, or why there is none; without a line feed.
pub fn put_written(tables: &Tables, text: &mut Vec<u8>) {
    let mut image = [0; ROOM];
    match write::write(tables, &mut image) {
        Ok(length) => put_image(&image[..length], text),
        Err(status) => text.extend(format!("{:x}", status as u64).bytes()),
    }
}

fn put_image(image: &[u8], text: &mut Vec<u8>) {
    const DIGITS: &[u8; 16] = b"0123456789abcdef";
    text.extend(b"image ");
    for byte in image {
        text.push(DIGITS[usize::from(byte >> 4)]);
        text.push(DIGITS[usize::from(byte & 0xf)]);
    }
}

/// The lines of a plan, the last of them without its line feed.
fn put_plan(tables: &Tables, text: &mut Vec<u8>) {
    let mut lines = Vec::new();
    for guest in &tables.guests {
        lines.push(format!("guest {:x}", guest.cpus.len()));
        lines.extend(guest.extents.iter().map(extent_line));
        lines.extend(guest.sources.iter().map(source_line));
    }
    text.extend(lines.join("\n").bytes());
}

fn extent_line(extent: &Extent) -> String {
    let Extent {
        real_page,
        pages,
        host_page,
    } = extent;
    format!("extent {real_page:x} {pages:x} {host_page:x}")
}

fn source_line(source: &Source) -> String {
    let support = u64::from(source.cookie_support);
    format!(
        "source {:x} {:x} {support:x}",
        source.devhandle, source.devino
    )
}
