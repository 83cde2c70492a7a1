//! Inputs of the planning desk's program: images, and plans good and bad.

use super::malformed::{padded, spoil};
use super::partition::{spoil_bytes, stub, Partition, CHOICES, NUMBERS};
use super::random::Random;
use crate::session::LINE_LIMIT;
use std::io::{self, Write};

/// Stands behind each input. It is no line of an input.
const BEHIND: &[u8] = b"--";

type Lines = Vec<Vec<u8>>;

/// Each comes in its turn.
const KINDS: [fn(&mut Random) -> Lines; 26] = [
    good_plan,
    largest_plan,
    out_of_order,
    shared_pages,
    source_twice,
    no_extent,
    many_broken,
    overfull,
    before_the_first_guest,
    behind_the_largest,
    spoiled_line,
    spoiled_line,
    spoiled_twice,
    spoiled_and_broken,
    line_in_between,
    empty_line,
    other_number_of_fields,
    long_line,
    good_image,
    refused_image,
    refused_image,
    refused_image,
    refused_image,
    behind_an_image,
    image_behind,
    nothing,
];

/// Images that are accepted, a line each.
pub fn write_images(seed: u64, count: u64, output: &mut impl Write) -> io::Result<()> {
    let mut random = Random::new(seed);
    for turn in 0..count {
        let image = Partition::by_turns(turn, &mut random).pack();
        output.write_all(&image_line(&image))?;
        output.write_all(b"\n")?;
    }
    Ok(())
}

/// Inputs, with a line `--` behind each. Every other one has a number at one of
/// its limits.
pub fn write_plans(seed: u64, count: u64, output: &mut impl Write) -> io::Result<()> {
    let mut random = Random::new(seed);
    for turn in 0..count {
        let mut input = match turn % 2 {
            0 => at_a_limit(turn / 2, &mut random),
            _ => KINDS[(turn / 2) as usize % KINDS.len()](&mut random),
        };
        input.retain(|line| line != BEHIND);
        input.push(BEHIND.to_vec());
        for line in input {
            output.write_all(&line)?;
            output.write_all(b"\n")?;
        }
    }
    Ok(())
}

/// A line of a plan: hex of either case, now and then with leading zeros.
pub fn line(word: &str, numbers: &[u64], random: &mut Random) -> Vec<u8> {
    let mut line = word.to_owned();
    for number in numbers {
        let width = match random.one_in(20) {
            true => 1 + random.index(16),
            false => 1,
        };
        line += &match random.one_in(8) {
            true => format!(" {number:0width$X}"),
            false => format!(" {number:0width$x}"),
        };
    }
    line.into_bytes()
}

fn image_line(image: &[u8]) -> Vec<u8> {
    let digits: String = image.iter().map(|byte| format!("{byte:02x}")).collect();
    format!("image {digits}").into_bytes()
}

fn any_partition(random: &mut Random) -> Partition {
    Partition::by_turns(random.next(), random)
}

fn at_a_limit(turn: u64, random: &mut Random) -> Lines {
    let mut partition = any_partition(random);
    let number = NUMBERS[turn as usize % NUMBERS.len()];
    partition.choose(number, turn / NUMBERS.len() as u64 % CHOICES, random);
    partition.plan(random)
}

fn good_plan(random: &mut Random) -> Lines {
    any_partition(random).plan(random)
}

fn largest_plan(random: &mut Random) -> Lines {
    Partition::largest(random).plan(random)
}

fn broken(random: &mut Random, rule: fn(&mut Partition, &mut Random)) -> Lines {
    let mut partition = any_partition(random);
    rule(&mut partition, random);
    partition.plan(random)
}

fn out_of_order(random: &mut Random) -> Lines {
    broken(random, Partition::spoil_order)
}

fn shared_pages(random: &mut Random) -> Lines {
    broken(random, Partition::share_host_page)
}

fn source_twice(random: &mut Random) -> Lines {
    broken(random, Partition::name_twice)
}

fn no_extent(random: &mut Random) -> Lines {
    broken(random, Partition::strip)
}

fn overfull(random: &mut Random) -> Lines {
    broken(random, Partition::overfill)
}

/// Two numbers and a rule.
fn many_broken(random: &mut Random) -> Lines {
    let mut partition = any_partition(random);
    for _ in 0..2 {
        // None that tables cannot hold.
        partition.choose(random.pick(&NUMBERS), random.below(4), random);
    }
    partition.name_twice(random);
    partition.plan(random)
}

fn before_the_first_guest(random: &mut Random) -> Lines {
    let mut lines = good_plan(random);
    match random.below(3) {
        0 => lines.insert(0, line("extent", &[0, 1, 0], random)),
        1 => lines.insert(0, line("source", &[0x100, 5, 1], random)),
        _ => drop(lines.remove(0)),
    }
    lines
}

/// No plan has a later line than that.
fn behind_the_largest(random: &mut Random) -> Lines {
    let mut lines = largest_plan(random);
    let more = lines[random.index(lines.len())].clone();
    lines.push(more);
    lines
}

/// A line that is shorter than any of a plan is left: it is bad already.
fn spoil_some(lines: &mut Lines, random: &mut Random) {
    let place = random.index_or_last(lines.len());
    if lines[place].len() >= b"guest 1".len() {
        spoil(&mut lines[place], random);
    }
}

fn spoiled_line(random: &mut Random) -> Lines {
    let mut lines = good_plan(random);
    spoil_some(&mut lines, random);
    lines
}

/// The first bad line is told.
fn spoiled_twice(random: &mut Random) -> Lines {
    let mut lines = spoiled_line(random);
    spoil_some(&mut lines, random);
    lines
}

/// The line is told, and not that a rule is broken.
fn spoiled_and_broken(random: &mut Random) -> Lines {
    let mut lines = broken(random, Partition::strip);
    spoil_some(&mut lines, random);
    lines
}

/// A line of a session, or one that is almost of a plan.
fn line_in_between(random: &mut Random) -> Lines {
    const LINES: [&str; 18] = [
        "call 0 0 ff 3 1",
        "raise 100 5",
        "store 0 0 0",
        "hit 0 0 0 0 0 0",
        "Guest 1",
        "GUEST 1",
        "guests 1",
        "gues 1",
        "guest1",
        "guest\t1",
        "guest 1\r",
        "Extent 0 1 0",
        "extents 0 1 0",
        "extent 0,1,0",
        "Source 100 5 1",
        "sources 100 5 1",
        "source 100 5 yes",
        "source 100 5 -1",
    ];
    let mut lines = good_plan(random);
    let place = random.index(lines.len() + 1);
    lines.insert(place, random.pick(&LINES).as_bytes().to_vec());
    lines
}

fn empty_line(random: &mut Random) -> Lines {
    let mut lines = match random.one_in(4) {
        true => good_image(random),
        false => good_plan(random),
    };
    let inside = random.index(lines.len());
    let place = random.pick(&[0, inside, lines.len()]);
    lines.insert(place, Vec::new());
    lines
}

fn other_number_of_fields(random: &mut Random) -> Lines {
    let mut lines = good_plan(random);
    let place = random.index(lines.len());
    let word = random.pick(&["guest", "extent", "source"]);
    let numbers = vec![1; random.index(6)];
    lines[place] = line(word, &numbers, random);
    lines
}

/// At the limit of a line's length, and past it. Only an image can be as long.
fn long_line(random: &mut Random) -> Lines {
    let length = LINE_LIMIT + random.pick(&[0, 0, 1, 2, 70_000]);
    let mut lines = match random.one_in(3) {
        true => good_plan(random),
        false => good_image(random),
    };
    let last = lines.len() - 1;
    let filler = random.pick(b"  0");
    lines[last] = padded(&lines[last], filler, length);
    lines
}

/// As in a session, with digits of either case and spaces anywhere.
fn good_image(random: &mut Random) -> Lines {
    let image = any_partition(random).pack();
    vec![spaced(&image_line(&image), random)]
}

fn spaced(line: &[u8], random: &mut Random) -> Vec<u8> {
    let style = random.below(3);
    let mut spaced = line[..6].to_vec();
    for digit in &line[6..] {
        if style == 1 && random.one_in(5) {
            spaced.push(b' ');
        }
        spaced.push(match style {
            2 => digit.to_ascii_uppercase(),
            _ => *digit,
        });
    }
    spaced
}

fn refused_image(random: &mut Random) -> Lines {
    let partition = any_partition(random);
    let image = match random.below(8) {
        0 => stub(random),
        1 => {
            let mut image = partition.pack();
            spoil_bytes(&mut image, random);
            image
        }
        2..=4 => partition.damaged(random),
        _ => Partition::crowded(random).faulty(random),
    };
    vec![spaced(&image_line(&image), random)]
}

fn behind_an_image(random: &mut Random) -> Lines {
    let mut lines = match random.one_in(2) {
        true => good_image(random),
        false => refused_image(random),
    };
    lines.extend(match random.below(3) {
        0 => good_image(random),
        1 => good_plan(random),
        _ => vec![random.pick(&[b"".as_slice(), b" ", b"load 0 0"]).to_vec()],
    });
    lines
}

fn image_behind(random: &mut Random) -> Lines {
    let mut lines = good_plan(random);
    let place = 1 + random.index(lines.len());
    lines.splice(place..place, good_image(random));
    lines
}

fn nothing(_: &mut Random) -> Lines {
    Vec::new()
}
