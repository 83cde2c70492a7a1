//! Generated plans have each kind of bad line, of broken rule and of limit, in
//! each of the gate's two runs. What is wrong with a plan is worked out by a
//! reader of the tests' own, and the program prints accordingly.

use super::plan::planned;
use crate::generate::write_plans;
use std::collections::BTreeSet;

type Kinds = BTreeSet<String>;

#[derive(Default)]
struct Guest {
    cpus: u64,
    extents: Vec<[u64; 3]>,
    sources: Vec<[u64; 3]>,
}

fn inputs(seed: u64, count: u64) -> Vec<Vec<u8>> {
    let mut text = Vec::new();
    write_plans(seed, count, &mut text).expect("writing to memory");
    let mut inputs = vec![Vec::new()];
    for line in text.split_inclusive(|&byte| byte == b'\n') {
        match line {
            b"--\n" => inputs.push(Vec::new()),
            _ => inputs.last_mut().expect("an input").extend(line),
        }
    }
    assert_eq!(inputs.pop(), Some(Vec::new()));
    inputs
}

/// Why a line is none, or what it adds to the guests.
fn add(line: &[u8], guests: &mut Vec<Guest>) -> Result<(), &'static str> {
    let Ok(text) = std::str::from_utf8(line) else {
        return Err("no text");
    };
    let words: Vec<&str> = text.split(' ').collect();
    let number = |word: &&str| match word.len() {
        0 => Err("no digit"),
        1..=16 => u64::from_str_radix(word.trim_start_matches('+'), 16)
            .ok()
            .filter(|_| !word.starts_with('+'))
            .ok_or("no number"),
        _ => Err("too many digits"),
    };
    if line.is_empty() {
        return Err("empty line");
    }
    if !["guest", "extent", "source"].contains(&words[0]) {
        return Err(match words[0].to_lowercase().as_str() {
            "guest" | "extent" | "source" => "upper-case word",
            "image" => "image among the lines",
            "" => "space in front",
            _ => "other word",
        });
    }
    let numbers: Vec<u64> = words[1..].iter().map(number).collect::<Result<_, _>>()?;
    match (words[0], numbers.len()) {
        ("guest", 1) => add_guest(numbers[0], guests),
        ("extent", 3) => add_extent([numbers[0], numbers[1], numbers[2]], guests),
        ("source", 3) => add_source([numbers[0], numbers[1], numbers[2]], guests),
        ("guest", 0) | ("extent" | "source", 0..=2) => Err("too few numbers"),
        _ => Err("too many numbers"),
    }
}

fn add_guest(cpus: u64, guests: &mut Vec<Guest>) -> Result<(), &'static str> {
    if cpus > 255 {
        return Err("cpus not held");
    }
    if guests.len() == 4 {
        return Err("fifth guest");
    }
    guests.push(Guest {
        cpus,
        ..Guest::default()
    });
    Ok(())
}

fn add_extent(extent: [u64; 3], guests: &mut [Guest]) -> Result<(), &'static str> {
    let [real_page, pages, host_page] = extent;
    if real_page > 0xffff_ffff {
        return Err("real page not held");
    }
    if pages > 0xffff {
        return Err("page count not held");
    }
    if host_page > 0xffff {
        return Err("host page not held");
    }
    let guest = guests.last_mut().ok_or("extent before the first guest")?;
    if guest.extents.len() == 7 {
        return Err("eighth extent");
    }
    guest.extents.push(extent);
    Ok(())
}

fn add_source(source: [u64; 3], guests: &mut [Guest]) -> Result<(), &'static str> {
    let [devhandle, devino, support] = source;
    if devhandle > 0xffff_ffff {
        return Err("devhandle not held");
    }
    if devino > 255 {
        return Err("devino not held");
    }
    if support > 1 {
        return Err("support not held");
    }
    let guest = guests.last_mut().ok_or("source before the first guest")?;
    if guest.sources.len() == 16 {
        return Err("17th source");
    }
    guest.sources.push(source);
    Ok(())
}

/// The rules that guests break.
fn broken(guests: &[Guest]) -> BTreeSet<&'static str> {
    let mut broken = BTreeSet::new();
    let mut note = |rule, is_broken: bool| {
        if is_broken {
            broken.insert(rule);
        }
    };
    for (number, guest) in guests.iter().enumerate() {
        note("no cpu", guest.cpus == 0);
        note("more than 8 cpus", guest.cpus > 8);
        note("no extent", guest.extents.is_empty());
        for (i, a) in guest.extents.iter().enumerate() {
            note("no page", a[1] == 0);
            note("past the real pages", a[0] + a[1] > 1 << 28);
            note("past the host pages", a[2] + a[1] > 1 << 16);
            for b in &guest.extents[..i] {
                note("out of order", b[0] + b[1] > a[0]);
                note("pages shared in a guest", share(a, b));
            }
            let mut others = guests[..number].iter().flat_map(|other| &other.extents);
            note("pages shared by guests", others.any(|b| share(a, b)));
        }
        for (i, a) in guest.sources.iter().enumerate() {
            note("devhandle from 2^28", a[0] >= 1 << 28);
            note("devino from 128", a[1] >= 128);
            let twice = guest.sources[..i].iter().any(|b| a[..2] == b[..2]);
            note("source twice in a guest", twice);
            let mut others = guests[..number].iter().flat_map(|other| &other.sources);
            note("source in two guests", others.any(|b| a[..2] == b[..2]));
        }
    }
    broken
}

/// Of two runs of pages that share one, one begins in the other.
fn share(a: &[u64; 3], b: &[u64; 3]) -> bool {
    let begins_in = |x: &[u64; 3], y: &[u64; 3]| x[1] > 0 && (y[2]..y[2] + y[1]).contains(&x[2]);
    begins_in(a, b) || begins_in(b, a)
}

/// The fields side by side, of which each ends at a digit or shares two.
fn image_line(guests: &[Guest]) -> String {
    let mut digits = format!("1{:x}", guests.len());
    for guest in guests {
        let (extents, sources) = (guest.extents.len(), guest.sources.len());
        digits += &format!("{:x}{:02x}", guest.cpus, 32 * extents + sources);
        for [real_page, pages, host_page] in &guest.extents {
            digits += &format!("{real_page:07x}{pages:04x}{host_page:04x}");
        }
        for [devhandle, devino, support] in &guest.sources {
            digits += &format!("{devhandle:07x}{:02x}", 2 * devino + support);
        }
    }
    let fill = ["", "0"][digits.len() % 2];
    format!("image {digits}{fill}")
}

/// What is at a limit in a plan that keeps every rule.
fn limits(guests: &[Guest]) -> Vec<&'static str> {
    let guest = |test: fn(&Guest) -> bool| guests.iter().any(test);
    let extent = |test: fn(&[u64; 3]) -> bool| guests.iter().any(|g| g.extents.iter().any(test));
    let source = |test: fn(&[u64; 3]) -> bool| guests.iter().any(|g| g.sources.iter().any(test));
    let touch = |pair: &[[u64; 3]]| pair[0][0] + pair[0][1] == pair[1][0];
    [
        ("4 guests", guests.len() == 4),
        ("1 cpu", guest(|g| g.cpus == 1)),
        ("8 cpus", guest(|g| g.cpus == 8)),
        ("1 extent", guest(|g| g.extents.len() == 1)),
        ("7 extents", guest(|g| g.extents.len() == 7)),
        ("no source", guest(|g| g.sources.is_empty())),
        ("16 sources", guest(|g| g.sources.len() == 16)),
        ("last real page", extent(|e| e[0] + e[1] == 1 << 28)),
        ("last host page", extent(|e| e[2] + e[1] == 1 << 16)),
        ("last devhandle", source(|s| s[0] == (1 << 28) - 1)),
        ("last devino", source(|s| s[1] == 127)),
        ("no support", source(|s| s[2] == 0)),
        (
            "touching",
            guests.iter().any(|g| g.extents.windows(2).any(touch)),
        ),
    ]
    .iter()
    .filter_map(|&(name, there)| there.then_some(name))
    .collect()
}

/// What the lines of a plan are to print. A rule is noted if it alone is broken.
fn of_lines(lines: &[&[u8]], kinds: &mut Kinds) -> String {
    let mut guests = Vec::new();
    for (line, number) in lines.iter().zip(1..) {
        let why = match line.len() {
            ..=2048 => add(line, &mut guests).err(),
            _ => Some("long line"),
        };
        if let Some(why) = why {
            let later = lines[number..]
                .iter()
                .any(|line| add(line, &mut guests).is_err());
            kinds.insert(format!("bad: {why}"));
            kinds.insert(format!("bad, and then another: {later}"));
            return format!("bad {number:x}");
        }
    }
    let broken: Vec<&str> = broken(&guests).into_iter().collect();
    match broken[..] {
        _ if guests.is_empty() => {
            kinds.insert("empty".to_owned());
            "69".to_owned()
        }
        [] => {
            kinds.extend(limits(&guests).iter().map(|name| format!("fine: {name}")));
            image_line(&guests)
        }
        _ => {
            if let [alone] = broken[..] {
                kinds.insert(format!("65: {alone}"));
            }
            "65".to_owned()
        }
    }
}

/// What an image alone prints is a matter of other tests.
fn check(input: &[u8], kinds: &mut Kinds) {
    let lines: Vec<&[u8]> = input
        .split_inclusive(|&byte| byte == b'\n')
        .map(|line| line.strip_suffix(b"\n").unwrap_or(line))
        .collect();
    let printed = planned(input);
    let is_image = |line: &&&[u8]| line.starts_with(b"image ") && line.len() <= 2048;
    match (lines.first().filter(is_image), lines.len()) {
        (Some(_), 1) => {
            let status = printed.split([' ', '\n']).next().unwrap_or("");
            kinds.insert(format!("image: {status}"));
        }
        (Some(_), _) => {
            kinds.insert("bad: behind an image".to_owned());
            assert_eq!(printed, "bad 2\n");
        }
        (None, _) => assert_eq!(printed, of_lines(&lines, kinds) + "\n"),
    }
}

const WANTED: [&str; 62] = [
    "65: devhandle from 2^28",
    "65: devino from 128",
    "65: more than 8 cpus",
    "65: no cpu",
    "65: no extent",
    "65: no page",
    "65: out of order",
    "65: pages shared by guests",
    "65: pages shared in a guest",
    "65: past the host pages",
    "65: past the real pages",
    "65: source in two guests",
    "65: source twice in a guest",
    "bad, and then another: false",
    "bad, and then another: true",
    "bad: 17th source",
    "bad: behind an image",
    "bad: cpus not held",
    "bad: devhandle not held",
    "bad: devino not held",
    "bad: eighth extent",
    "bad: empty line",
    "bad: extent before the first guest",
    "bad: fifth guest",
    "bad: host page not held",
    "bad: image among the lines",
    "bad: long line",
    "bad: no digit",
    "bad: no number",
    "bad: no text",
    "bad: other word",
    "bad: page count not held",
    "bad: real page not held",
    "bad: source before the first guest",
    "bad: space in front",
    "bad: support not held",
    "bad: too few numbers",
    "bad: too many digits",
    "bad: too many numbers",
    "bad: upper-case word",
    "empty",
    "fine: 1 cpu",
    "fine: 1 extent",
    "fine: 16 sources",
    "fine: 4 guests",
    "fine: 7 extents",
    "fine: 8 cpus",
    "fine: last devhandle",
    "fine: last devino",
    "fine: last host page",
    "fine: last real page",
    "fine: no source",
    "fine: no support",
    "fine: touching",
    "image: 6e",
    "image: 6f",
    "image: 70",
    "image: 71",
    "image: 72",
    "image: 73",
    "image: 74",
    "image: guest",
];

#[test]
fn every_kind_is_generated_in_the_gate() {
    for seed in [1, 2] {
        let mut kinds = Kinds::new();
        let inputs = inputs(seed, 700);
        assert_eq!(inputs.len(), 700);
        inputs.iter().for_each(|input| check(input, &mut kinds));
        for wanted in WANTED {
            assert!(kinds.contains(wanted), "seed {seed}: {wanted}");
        }
    }
}

#[test]
fn plans_print_as_worked_out() {
    let mut kinds = Kinds::new();
    for input in inputs(3, 6000) {
        check(&input, &mut kinds);
    }
}
