//! What a generated session reaches: how often each kind of line answers with
//! each status, and which numbers its accepted lines name.

use crate::generate::write_session;
use crate::model::Event;
use crate::reach::reach_of;
use crate::session::{self, parse, Line};
use std::collections::BTreeMap;
use std::io::{self, Write};

/// By kind of line and status.
pub type Tally = BTreeMap<(String, String), u64>;

pub fn report(seed: u64, lines: u64, output: &mut impl Write) -> io::Result<()> {
    let text = generated(seed, lines)?;
    for ((kind, status), count) in tally_of(&text)? {
        writeln!(output, "{kind:13} {status:>3} {count:8}")?;
    }
    for ((kind, what), numbers) in reach_of(&text) {
        let numbers: Vec<String> = numbers.iter().map(|n| format!("{n:x}")).collect();
        writeln!(output, "{kind:13} {what:6} {}", numbers.join(" "))?;
    }
    Ok(())
}

pub fn generated(seed: u64, lines: u64) -> io::Result<Vec<u8>> {
    let mut text = Vec::new();
    write_session(seed, lines, &mut text)?;
    Ok(text)
}

/// What a session reaches.
pub fn tally_of(text: &[u8]) -> io::Result<Tally> {
    let mut answers = Vec::new();
    session::run(text, &mut answers)?;
    let answers = String::from_utf8_lossy(&answers);
    let mut tally = Tally::new();
    for (line, answer) in text.split(|&byte| byte == b'\n').zip(answers.lines()) {
        let mut fields = answer.split(' ');
        let status = fields.next().unwrap_or("").to_owned();
        let kind = kind(line, fields.next().unwrap_or(""));
        *tally.entry((kind, status)).or_default() += 1;
    }
    Ok(tally)
}

/// A call by its trap and function, a head write by its queue, a raise by the
/// state after it, a hit by its place in the buffer.
pub fn kind(line: &[u8], first_value: &str) -> String {
    match parse(line) {
        None => "bad".into(),
        Some(Line::Image(_)) => "image".into(),
        Some(Line::Event(Event::Call { trap, function, .. })) => call_kind(trap, function),
        Some(Line::Event(Event::Head {
            queue: queue @ 0x3c..=0x3f,
            ..
        })) => format!("head {queue:x}"),
        Some(Line::Event(Event::Head { .. })) => "head other".into(),
        Some(Line::Event(Event::Raise { .. })) => format!("raise to {first_value}"),
        Some(Line::Event(Event::Load { .. })) => "load".into(),
        Some(Line::Event(Event::Store { .. })) => "store".into(),
        Some(Line::Event(Event::Hit { hit, .. })) => match hit.place() {
            Some(place) => format!("hit {place:x}"),
            None => "hit other".into(),
        },
    }
}

fn call_kind(trap: u64, function: u64) -> String {
    match (trap, function) {
        (0xff, 0 | 3) => format!("call ff/{function:x}"),
        (0xff, _) => "call ff/other".into(),
        (0x80, 0x14..=0x16 | 0x20 | 0x21 | 0x31 | 0x32 | 0x42 | 0xa0..=0xae | 0x102 | 0x103) => {
            format!("call 80/{function:x}")
        }
        (0x80, _) => "call 80/other".into(),
        _ => "call other".into(),
    }
}
