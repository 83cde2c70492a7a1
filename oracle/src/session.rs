//! The session program: lines in, one line out for each.

use crate::hits::Hit;
use crate::image::Fault;
use crate::model::{Event, Host, Outcome, Status};
use crate::tables::RealAddress;
use std::io::{self, BufRead, Read, Write};

/// The line feed is not one of these bytes.
pub const LINE_LIMIT: usize = 2048;

/// A call has the most: guest, cpuid, trap, function and five arguments.
const MOST_FIELDS: usize = 9;

pub enum Line {
    Image(Vec<u8>),
    Event(Event),
}

/// Answers the whole input, holding no more than one line of it.
pub fn run(mut input: impl BufRead, mut output: impl Write) -> io::Result<()> {
    let mut host = Host::new();
    let mut line = Vec::with_capacity(LINE_LIMIT + 1);
    let mut answer = Vec::with_capacity(128);
    while read_line(&mut input, &mut line)? {
        answer.clear();
        answer_line(&mut host, &line, &mut answer);
        output.write_all(&answer)?;
    }
    output.flush()
}

/// Reads the next line without its feed; false at the end. Of a line that is
/// too long only one byte more than the limit is kept, the rest is skipped.
pub fn read_line(input: &mut impl BufRead, line: &mut Vec<u8>) -> io::Result<bool> {
    line.clear();
    if input
        .by_ref()
        .take(LINE_LIMIT as u64 + 1)
        .read_until(b'\n', line)?
        == 0
    {
        return Ok(false);
    }
    if line.last() == Some(&b'\n') {
        line.pop();
    } else if line.len() > LINE_LIMIT {
        input.skip_until(b'\n')?;
    }
    Ok(true)
}

/// Appends the answer to one line, with its line feed.
pub fn answer_line(host: &mut Host, line: &[u8], answer: &mut Vec<u8>) {
    match parse(line) {
        Some(Line::Image(image)) => write_loaded(host.load_image(&image), answer),
        Some(Line::Event(event)) => write_outcome(host.event(&event), answer),
        None => answer.extend_from_slice(b"bad"),
    }
    answer.push(b'\n');
}

/// A status and two values: where the image is bad, and 0 if it is not.
pub fn write_loaded(loaded: Result<(), Fault>, answer: &mut Vec<u8>) {
    let (status, values) = match loaded {
        Ok(()) => (Status::EOK, [0; 2]),
        Err(Fault { status, place }) => (status, [place.guest, place.position]),
    };
    write_numbers(status, values, answer);
}

/// Refusals return 0 in all four values.
pub fn write_outcome(outcome: Outcome, answer: &mut Vec<u8>) {
    let (status, values) = match outcome {
        Ok(values) => (Status::EOK, values),
        Err(status) => (status, [0; 4]),
    };
    write_numbers(status, values, answer);
}

fn write_numbers<const COUNT: usize>(status: Status, values: [u64; COUNT], answer: &mut Vec<u8>) {
    write_hex(status as u64, answer);
    for value in values {
        answer.push(b' ');
        write_hex(value, answer);
    }
}

fn write_hex(value: u64, answer: &mut Vec<u8>) {
    let digits = (u64::BITS - value.leading_zeros()).div_ceil(4).max(1);
    for place in (0..digits).rev() {
        let digit = value >> (4 * place) & 0xf;
        answer.push(b"0123456789abcdef"[digit as usize]);
    }
}

/// None for a line that prints `bad`.
pub fn parse(line: &[u8]) -> Option<Line> {
    if line.len() > LINE_LIMIT {
        return None;
    }
    let mut words = line.split(|&byte| byte == b' ');
    match words.next()? {
        b"image" => parse_image(&line[b"image".len()..]).map(Line::Image),
        word => parse_event(word, words).map(Line::Event),
    }
}

/// Spaces may stand anywhere in an image, also within a byte.
fn parse_image(text: &[u8]) -> Option<Vec<u8>> {
    let mut image = Vec::with_capacity(text.len() / 2);
    let mut high = None;
    for &byte in text.iter().filter(|&&byte| byte != b' ') {
        let digit = hex_digit(byte)?;
        match high.take() {
            None => high = Some(digit),
            Some(high) => image.push(high << 4 | digit),
        }
    }
    high.is_none().then_some(image)
}

fn parse_event<'a>(word: &[u8], words: impl Iterator<Item = &'a [u8]>) -> Option<Event> {
    let mut fields = [0; MOST_FIELDS];
    let mut count = 0;
    for word in words {
        *fields.get_mut(count)? = parse_field(word)?;
        count += 1;
    }
    let [a, b, c, d, arguments @ ..] = fields;
    let [e, f, ..] = arguments;
    match (word, count) {
        (b"call", 4..) => Some(Event::Call {
            guest: a,
            cpuid: b,
            trap: c,
            function: d,
            arguments,
        }),
        (b"head", 4) => Some(Event::Head {
            guest: a,
            cpuid: b,
            queue: c,
            value: d,
        }),
        (b"raise", 2) => Some(Event::Raise {
            devhandle: a,
            devino: b,
        }),
        (b"load", 2) => Some(Event::Load {
            guest: a,
            address: RealAddress(b),
        }),
        (b"store", 3) => Some(Event::Store {
            guest: a,
            address: RealAddress(b),
            value: c,
        }),
        (b"hit", 6) => Some(Event::Hit {
            guest: a,
            cpuid: b,
            hit: Hit {
                side: c,
                context: d,
                index: e,
                ticks: f,
            },
        }),
        _ => None,
    }
}

/// 1 to 16 hex digits and nothing else.
pub fn parse_field(word: &[u8]) -> Option<u64> {
    if word.is_empty() || word.len() > 16 {
        return None;
    }
    word.iter().try_fold(0, |value, &byte| {
        Some(value << 4 | u64::from(hex_digit(byte)?))
    })
}

fn hex_digit(byte: u8) -> Option<u8> {
    match byte {
        b'0'..=b'9' => Some(byte - b'0'),
        b'a'..=b'f' => Some(byte - b'a' + 10),
        b'A'..=b'F' => Some(byte - b'A' + 10),
        _ => None,
    }
}
