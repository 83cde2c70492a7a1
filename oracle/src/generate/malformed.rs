//! Lines that print `bad`, made from lines that would not.

use super::random::Random;
use crate::session::LINE_LIMIT;

/// Spoils a sound line that is not an image's.
pub fn spoil(line: &mut Vec<u8>, random: &mut Random) {
    let place = random.index(line.len());
    match random.below(17) {
        0 => line[..4].make_ascii_uppercase(),
        1 => line[0] = line[0].to_ascii_uppercase(),
        2 => line.insert(0, b' '),
        3 => line.push(b' '),
        4 => double_space(line, random),
        5 => replace_space(line, random.pick(b"\t,\0_\r"), random),
        6 => line.push(random.pick(b"\r\t\0.\x0b\x0c\x80\xff\xa0")),
        7 => line[place] = random.pick(b"\0\t\rgGxX:/@`\xc3\x80\xff"),
        8 => line.insert(place, random.pick(b"\0\t\r+-_gx\xff")),
        9 => prefix_field(
            line,
            random.pick(&[b"0x".as_slice(), b"+", b"-", b"#", b"0X"]),
            random,
        ),
        10 => widen_field(line, random),
        11 => drop_fields(line, random),
        12 => line.extend_from_slice(&b" 0 1 0 1 0 1 0 1"[..2 * (1 + random.index(8))]),
        13 => line.clear(),
        14 => replace_word(line, random),
        15 => empty_field(line, random),
        _ => *line = noise(random),
    }
}

/// Whole lines of their own, most of them about images.
pub fn special(random: &mut Random) -> Vec<u8> {
    match random.below(16) {
        0 => random
            .pick(&[
                b"image12".as_slice(),
                b"image1",
                b"images",
                b"imag",
                b"image\t",
            ])
            .to_vec(),
        1 => random
            .pick(&[
                b"Image 11".as_slice(),
                b"IMAGE",
                b" image 11",
                b"image\r",
                b"image\0",
            ])
            .to_vec(),
        2 => random
            .pick(&[
                b"image 1".as_slice(),
                b"image 1 1 1",
                b"image 111",
                b"image  0  0 1",
            ])
            .to_vec(),
        3 => random
            .pick(&[
                b"image 0x11".as_slice(),
                b"image 11\r",
                b"image 1g",
                b"image 11\t12",
            ])
            .to_vec(),
        4 => random
            .pick(&[
                b" ".as_slice(),
                b"  ",
                b"\r",
                b"\0",
                b"call",
                b"call ",
                b"raise",
                b"load ",
                b"hit",
            ])
            .to_vec(),
        5 => padded(b"image 11", b' ', LINE_LIMIT + 1),
        6 => padded(b"image ", b'1', LINE_LIMIT + 1 + random.index(3000)),
        7 => padded(b"call 0 0 ff 3 1", b' ', LINE_LIMIT),
        8 => padded(b"load 0 ", b'0', LINE_LIMIT + random.index(2)),
        9 => padded(b"raise 100 5", b' ', LINE_LIMIT + 1 + random.index(70_000)),
        10 => padded(
            b"",
            random.pick(b"\0 \xff"),
            LINE_LIMIT - 1 + random.index(4),
        ),
        11 => random
            .pick(&[
                b"call 0 0 80".as_slice(),
                b"head 0 0 3c",
                b"raise 100",
                b"load 0",
                b"store 0 0",
            ])
            .to_vec(),
        12 => {
            let longer = [
                b"call 0 0 80 16 0 0 0 0 0 0".as_slice(),
                b"head 0 0 3c 0 0",
                b"load 0 0 0",
                b"store 0 0 0 0",
            ];
            random.pick(&longer).to_vec()
        }
        13 | 14 => hit_of_other_length(random),
        _ => Vec::new(),
    }
}

/// Sound but for the number of its fields.
fn hit_of_other_length(random: &mut Random) -> Vec<u8> {
    let fields = random.pick(&[1, 2, 3, 4, 5, 5, 5, 5, 7, 7, 7, 8, 9, 10]);
    [b"hit".to_vec(), b" 0".repeat(fields)].concat()
}

pub fn padded(line: &[u8], filler: u8, length: usize) -> Vec<u8> {
    let mut line = line.to_vec();
    line.resize(length.max(line.len()), filler);
    line
}

fn some_space(line: &[u8], random: &mut Random) -> Option<usize> {
    let spaces: Vec<usize> = (0..line.len()).filter(|&i| line[i] == b' ').collect();
    spaces.get(random.index(spaces.len())).copied()
}

fn double_space(line: &mut Vec<u8>, random: &mut Random) {
    let place = some_space(line, random).unwrap_or(0);
    line.insert(place, b' ');
}

fn replace_space(line: &mut [u8], other: u8, random: &mut Random) {
    if let Some(place) = some_space(line, random) {
        line[place] = other;
    }
}

fn prefix_field(line: &mut Vec<u8>, prefix: &[u8], random: &mut Random) {
    let place = some_space(line, random).unwrap_or(0) + 1;
    line.splice(place..place, prefix.iter().copied());
}

/// Leaves the spaces of a field and none of its digits.
fn empty_field(line: &mut Vec<u8>, random: &mut Random) {
    let start = some_space(line, random).unwrap_or(0) + 1;
    let digits = line[start..]
        .iter()
        .take_while(|&&byte| byte != b' ')
        .count();
    line.drain(start..start + digits);
}

/// Leading zeros up to 17 digits, or for a sound field up to 16.
fn widen_field(line: &mut Vec<u8>, random: &mut Random) {
    let place = some_space(line, random).unwrap_or(0) + 1;
    let digits = line[place..]
        .iter()
        .take_while(|&&byte| byte != b' ')
        .count();
    let width = random.pick(&[16, 17, 17, 17, 18, 32]);
    let zeros = vec![b'0'; usize::saturating_sub(width, digits)];
    line.splice(place..place, zeros);
}

/// From the end: of a call the first few to go are arguments and may.
fn drop_fields(line: &mut Vec<u8>, random: &mut Random) {
    for _ in 0..=random.below(9) {
        if let Some(place) = line.iter().rposition(|&byte| byte == b' ') {
            line.truncate(place);
        }
    }
}

fn replace_word(line: &mut Vec<u8>, random: &mut Random) {
    let end = line
        .iter()
        .position(|&byte| byte == b' ')
        .unwrap_or(line.len());
    let words = [
        "", "cal", "calls", "heads", "hea", "raised", "loads", "stor", "stored", "load", "hits",
        "quit",
    ];
    line.splice(..end, random.pick(&words).bytes());
}

/// Any bytes but a line feed.
fn noise(random: &mut Random) -> Vec<u8> {
    let length = 1 + random.index(40);
    (0..length)
        .map(|_| random.next() as u8)
        .filter(|&byte| byte != b'\n')
        .collect()
}
