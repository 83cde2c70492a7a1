//! Images for measuring speed, all of which are accepted: shapes by turns, with
//! other numbers each time.

use std::io::{self, Write};

/// How many guests, and how many extents and sources each of them has.
const SHAPES: [[u64; 3]; 12] = [
    [1, 1, 0],
    [2, 1, 1],
    [1, 2, 4],
    [1, 1, 1],
    [4, 1, 0],
    [1, 7, 0],
    [2, 2, 3],
    [1, 1, 16],
    [3, 2, 2],
    [4, 7, 16],
    [1, 3, 2],
    [2, 3, 0],
];

pub fn write_images(count: u64, output: &mut impl Write) -> io::Result<()> {
    for number in 0..count {
        writeln!(output, "image {}", digits(number))?;
    }
    Ok(())
}

/// Every field ends at a digit, but for those that share two digits.
fn digits(number: u64) -> String {
    let [guests, extents, sources] = SHAPES[number as usize % SHAPES.len()];
    let mut digits = format!("1{guests:x}");
    for guest in 0..guests {
        let cpus = 1 + (number + guest) % 8;
        digits += &format!("{cpus:x}{:02x}", extents << 5 | sources);
        for place in 0..extents {
            let pages = 1 + (number + place) % 0x100;
            let real_page = number % 0x800_0000 + 0x100 * place;
            let host_page = 0x100 * (extents * guest + place) + number % 0x8000;
            digits += &format!("{real_page:07x}{pages:04x}{host_page:04x}");
        }
        for place in 0..sources {
            let devhandle = number % 0x800_0000 + 0x100 * guest + place;
            let devino = (number + place) % 0x80;
            digits += &format!("{devhandle:07x}{:02x}", devino << 1 | number & 1);
        }
    }
    if digits.len() % 2 == 1 {
        digits.push('0');
    }
    digits
}
