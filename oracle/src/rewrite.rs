//! Loads one image after another and writes each again, to measure the speed of
//! both.

use crate::image;
use crate::plan;
use crate::session::{self, Line, LINE_LIMIT};
use crate::write::ROOM;
use std::io::{self, BufRead, Write};

/// Prints a line for each: the image as it is written from its tables, what
/// loading answers where that refuses it, or `bad`.
pub fn run(mut input: impl BufRead, mut output: impl Write) -> io::Result<()> {
    let mut line = Vec::with_capacity(LINE_LIMIT + 1);
    let mut answer = Vec::with_capacity(2 * ROOM + 16);
    while session::read_line(&mut input, &mut line)? {
        answer.clear();
        answer_line(&line, &mut answer);
        answer.push(b'\n');
        output.write_all(&answer)?;
    }
    output.flush()
}

fn answer_line(line: &[u8], answer: &mut Vec<u8>) {
    match session::parse(line) {
        Some(Line::Image(image)) => match image::load(&image) {
            Ok(tables) => plan::put_written(&tables, answer),
            Err(fault) => session::write_loaded(Err(fault), answer),
        },
        _ => answer.extend_from_slice(b"bad"),
    }
}
