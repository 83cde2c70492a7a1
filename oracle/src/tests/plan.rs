//! The planning desk's program: plans to images, images to plans, and what it
//! prints of what is neither.

use super::answers;
use crate::bench;
use crate::coverage::generated;
use crate::generate;
use crate::plan;
use crate::rewrite;
use crate::session::{parse, Line};
use std::collections::BTreeSet;

const PLAN: &str = "guest 2
extent 0 1 0
source 100 5 1
guest 1
extent 0 1 1
source 200 5 1
";
const IMAGE: &str = "image 1222100000000001000000001000b12100000000001000100002000b\n";

pub fn planned(input: &[u8]) -> String {
    let mut output = Vec::new();
    plan::run(input, &mut output).expect("reading from and writing to memory");
    let output = String::from_utf8(output).expect("text");
    assert!(output.ends_with('\n'));
    output
}

/// Each line is a plan, its lines parted by semicolons, an arrow and what is
/// printed. The fields of an image may stand apart, and its fill be left out.
fn check(script: &str) {
    for line in script.lines() {
        let (plan, expected) = line.split_once(" -> ").expect("an arrow");
        let expected = match expected.strip_prefix("image ") {
            Some(fields) => image_line(fields),
            None => format!("{expected}\n"),
        };
        let input = plan.replace("; ", "\n");
        for end in ["", "\n"] {
            let input = format!("{input}{end}");
            assert_eq!(planned(input.as_bytes()), expected, "{plan}");
        }
    }
}

fn image_line(fields: &str) -> String {
    let digits = fields.replace(' ', "");
    let fill = ["", "0"][digits.len() % 2];
    format!("image {digits}{fill}\n")
}

#[test]
fn the_worked_plan_both_ways() {
    assert_eq!(planned(PLAN.as_bytes()), IMAGE);
    assert_eq!(planned(IMAGE.as_bytes()), PLAN);
    assert_eq!(planned(PLAN.trim_end().as_bytes()), IMAGE);
    assert_eq!(planned(IMAGE.trim_end().as_bytes()), PLAN);
}

#[test]
fn digits_of_either_case_and_leading_zeros() {
    let lower = "guest 8\nextent abcdef 1 a\nsource abcdef b 0\n";
    let image = image_line("11 821 0abcdef 0001 000a 0abcdef 16");
    assert_eq!(planned(lower.as_bytes()), image);
    let upper = "guest 8\nextent ABCDEF 1 A\nsource ABCDEF B 0\n";
    assert_eq!(planned(upper.as_bytes()), image);
    let zeros = "guest 0000000000000008\nextent 00ABCDEF 01 0a\nsource 0aBcDeF 00b 00";
    assert_eq!(planned(zeros.as_bytes()), image);
    assert_eq!(planned(image.as_bytes()), lower);
    let loud = image.replace("abcdef", " ABC D E F  ");
    assert_eq!(planned(loud.as_bytes()), lower);
}

#[test]
fn extents_and_sources_stand_in_any_order() {
    let mixed = "guest 1\nsource 2 1 0\nextent 0 1 0\nsource 1 1 1\nextent 4 2 1\nsource 0 1 0\n";
    let sorted = "guest 1\nextent 0 1 0\nextent 4 2 1\nsource 2 1 0\nsource 1 1 1\nsource 0 1 0\n";
    assert_eq!(planned(mixed.as_bytes()), planned(sorted.as_bytes()));
    assert_eq!(planned(planned(mixed.as_bytes()).as_bytes()), sorted);
}

#[test]
fn nothing_and_next_to_nothing() {
    assert_eq!(planned(b""), "69\n");
    assert_eq!(planned(b"\n"), "bad 1\n");
    assert_eq!(planned(b"\n\n"), "bad 1\n");
    assert_eq!(planned(b" "), "bad 1\n");
    assert_eq!(planned(b"image"), "6e 0 0\n");
}

#[test]
fn each_rule_at_its_limit_and_past_it() {
    check(
        "guest 1; extent 0 1 0 -> image 11 120 0000000 0001 0000
guest 8; extent 0 1 0 -> image 11 820 0000000 0001 0000
guest 0; extent 0 1 0 -> 65
guest 9; extent 0 1 0 -> 65
guest 10; extent 0 1 0 -> 65
guest 11; extent 0 1 0 -> 65
guest ff; extent 0 1 0 -> 65
guest 1 -> 65
guest 1; source 100 5 1 -> 65
guest 1; extent 0 1 0; guest 1 -> 65
guest 1; guest 1; extent 0 1 0 -> 65
guest 1; extent 0 0 0 -> 65
guest 1; extent 0 ffff 0 -> image 11 120 0000000 ffff 0000
guest 1; extent 0 ffff 1 -> image 11 120 0000000 ffff 0001
guest 1; extent 0 ffff 2 -> 65
guest 1; extent fffffff 1 ffff -> image 11 120 fffffff 0001 ffff
guest 1; extent fffffff 2 0 -> 65
guest 1; extent ffffffe 2 0 -> image 11 120 ffffffe 0002 0000
guest 1; extent 10000000 1 0 -> 65
guest 1; extent ffffffff 1 0 -> 65
guest 1; extent 0 2 ffff -> 65
guest 1; extent 0 2 fffe -> image 11 120 0000000 0002 fffe
guest 1; extent 0 1 0; extent 0 1 1 -> 65
guest 1; extent 1 1 0; extent 0 1 1 -> 65
guest 1; extent 0 2 0; extent 1 1 2 -> 65
guest 1; extent 0 1 0; extent 1 1 1 -> image 11 140 0000000 0001 0000 0000001 0001 0001
guest 1; extent 0 1 1; extent 1 1 0 -> image 11 140 0000000 0001 0001 0000001 0001 0000
guest 1; extent 0 1 0; extent 1 1 0 -> 65
guest 1; extent 0 2 0; extent 2 1 1 -> 65
guest 1; extent 0 1 1; extent 1 2 0 -> 65
guest 1; extent 0 1 0; guest 1; extent 0 1 0 -> 65
guest 1; extent 0 1 0; guest 1; extent 9 1 0 -> 65
guest 1; extent 9 1 0; guest 1; extent 0 1 1 -> image 12 120 0000009 0001 0000 120 0000000 0001 0001
guest 1; extent 0 1 0; source 1 2 0; source 1 2 1 -> 65
guest 1; extent 0 1 0; source 1 2 0; source 1 3 0 -> image 11 122 0000000 0001 0000 0000001 04 0000001 06
guest 1; extent 0 1 0; source 1 2 0; guest 1; extent 0 1 1; source 1 2 0 -> 65
guest 1; extent 0 1 0; source fffffff 7f 1 -> image 11 121 0000000 0001 0000 fffffff ff
guest 1; extent 0 1 0; source 10000000 7f 1 -> 65
guest 1; extent 0 1 0; source ffffffff 7f 1 -> 65
guest 1; extent 0 1 0; source fffffff 80 1 -> 65
guest 1; extent 0 1 0; source fffffff ff 1 -> 65",
    );
}

#[test]
fn numbers_that_tables_cannot_hold() {
    check(
        "guest 100; extent 0 1 0 -> bad 1
guest 101; extent 0 1 0 -> bad 1
guest 100000001; extent 0 1 0 -> bad 1
guest 8000000000000001; extent 0 1 0 -> bad 1
guest ffffffffffffffff; extent 0 1 0 -> bad 1
guest 1; extent 100000000 1 0 -> bad 2
guest 1; extent 8000000000000000 1 0 -> bad 2
guest 1; extent 0 10000 0 -> bad 2
guest 1; extent 0 10001 0 -> bad 2
guest 1; extent 0 100000001 0 -> bad 2
guest 1; extent 0 1 10000 -> bad 2
guest 1; extent 0 1 ffffffffffffffff -> bad 2
guest 1; extent 0 1 0; source 100000000 5 1 -> bad 3
guest 1; extent 0 1 0; source 100000100 5 1 -> bad 3
guest 1; extent 0 1 0; source 100 100 1 -> bad 3
guest 1; extent 0 1 0; source 100 105 1 -> bad 3
guest 1; extent 0 1 0; source 100 5 2 -> bad 3
guest 1; extent 0 1 0; source 100 5 3 -> bad 3
guest 1; extent 0 1 0; source 100 5 100000001 -> bad 3
guest 1; extent 0 1 0; source 100 5 0 -> image 11 121 0000000 0001 0000 0000100 0a",
    );
}

/// So many lines, numbered from 0 by what the word's numbers begin with.
fn lines(count: u64, line: fn(u64) -> String) -> String {
    (0..count).map(|i| line(i) + "\n").collect()
}

#[test]
fn more_than_tables_have_places_for() {
    let guests = |count| lines(count, |i| format!("guest 1\nextent 0 1 {i:x}"));
    assert!(planned(guests(4).as_bytes()).starts_with("image 14"));
    assert_eq!(planned(guests(5).as_bytes()), "bad 9\n");
    let extents = |count| {
        format!(
            "guest 1\n{}",
            lines(count, |i| format!("extent {i:x} 1 {i:x}"))
        )
    };
    assert!(planned(extents(7).as_bytes()).starts_with("image 111e0"));
    assert_eq!(planned(extents(8).as_bytes()), "bad 9\n");
    let sources = |count| {
        let sources = lines(count, |i| format!("source {i:x} 0 0"));
        format!("guest 1\nextent 0 1 0\n{sources}")
    };
    assert!(planned(sources(16).as_bytes()).starts_with("image 11130"));
    assert_eq!(planned(sources(17).as_bytes()), "bad 13\n");
    // Each guest has its own places, and the bad line comes before the rules.
    assert_eq!(planned(extents(7).repeat(2).as_bytes()), "65\n");
    assert_eq!(planned(extents(8).repeat(2).as_bytes()), "bad 9\n");
    assert_eq!(planned("guest 9\n".repeat(5).as_bytes()), "bad 5\n");
}

/// No plan has more lines than that: a later one is bad, whatever it says.
#[test]
fn the_longest_plan() {
    let mut plan = String::new();
    for guest in 0..4 {
        plan += "guest 8\n";
        for i in 7 * guest..7 * (guest + 1) {
            plan += &format!("extent {i:x} 1 {i:x}\n");
        }
        for i in 16 * guest..16 * (guest + 1) {
            plan += &format!("source {i:x} 7f 1\n");
        }
    }
    let image = planned(plan.as_bytes());
    assert_eq!(image.len(), "image \n".len() + 2 * 505);
    assert_eq!(planned(image.as_bytes()), plan);
    for more in ["guest 1", "extent 100 1 100", "source 100 1 1", "", "x"] {
        assert_eq!(planned(format!("{plan}{more}\n").as_bytes()), "bad 61\n");
    }
}

#[test]
fn lines_that_are_none() {
    check(
        "extent 0 1 0; guest 1 -> bad 1
source 100 5 1; guest 1 -> bad 1
guest 1; extent 0 1 0; ; guest 1 -> bad 3
guest -> bad 1
guest  -> bad 1
guest 1 1; extent 0 1 0 -> bad 1
guest  1; extent 0 1 0 -> bad 1
guest 1 ; extent 0 1 0 -> bad 1
 guest 1; extent 0 1 0 -> bad 1
guest\t1; extent 0 1 0 -> bad 1
guest 1\r; extent 0 1 0 -> bad 1
Guest 1; extent 0 1 0 -> bad 1
GUEST 1; extent 0 1 0 -> bad 1
guests 1; extent 0 1 0 -> bad 1
gues 1; extent 0 1 0 -> bad 1
guest1; extent 0 1 0 -> bad 1
guest x; extent 0 1 0 -> bad 1
guest 0x1; extent 0 1 0 -> bad 1
guest +1; extent 0 1 0 -> bad 1
guest 00000000000000001; extent 0 1 0 -> bad 1
guest 1; extent -> bad 2
guest 1; extent 0 -> bad 2
guest 1; extent 0 1 -> bad 2
guest 1; extent 0 1 0 0 -> bad 2
guest 1; extent 0 1  0 -> bad 2
guest 1; extent 0 1 g -> bad 2
guest 1; Extent 0 1 0 -> bad 2
guest 1; extents 0 1 0 -> bad 2
guest 1; extent 0 1 0; source -> bad 3
guest 1; extent 0 1 0; source 100 5 -> bad 3
guest 1; extent 0 1 0; source 100 5 1 0 -> bad 3
guest 1; extent 0 1 0; source 100 5 yes -> bad 3
guest 1; extent 0 1 0; SOURCE 100 5 1 -> bad 3
guest 1; extent 0 1 0; load 0 0 -> bad 3
guest 1; extent 0 1 0; raise 100 5 -> bad 3
call 0 0 ff 3 1 -> bad 1
bad 1 -> bad 1
guest 9; extent 0 0 0; guest -> bad 3
guest 1; x; y -> bad 2",
    );
    assert_eq!(planned(b"guest 1\nextent 0 1 0\n\n"), "bad 3\n");
    assert_eq!(planned(b"guest 1\nextent 0 1 0\0\n"), "bad 2\n");
    assert_eq!(planned(b"guest 1\nextent 0 1 \xb2\n"), "bad 2\n");
}

#[test]
fn lengths_of_lines() {
    let long = |line: &str, length| line.to_owned() + &" ".repeat(length - line.len()) + "\n";
    for length in [2048, 2049, 10_000, 400_000] {
        assert_eq!(planned(long("guest 1", length).as_bytes()), "bad 1\n");
        let second = format!("guest 1\n{}", long("extent 0 1 0", length));
        assert_eq!(planned(second.as_bytes()), "bad 2\n");
    }
    assert_eq!(planned(long(IMAGE.trim_end(), 2048).as_bytes()), PLAN);
    assert_eq!(planned(long(IMAGE.trim_end(), 2049).as_bytes()), "bad 1\n");
    let behind = format!("{}guest 1", long("image", 3000));
    assert_eq!(planned(behind.as_bytes()), "bad 1\n");
    assert_eq!(planned("g".repeat(400_000).as_bytes()), "bad 1\n");
}

#[test]
fn an_image_is_the_whole_input() {
    let image = IMAGE.trim_end();
    for line in ["", "guest 1", image, "x", "image"] {
        assert_eq!(planned(format!("{image}\n{line}\n").as_bytes()), "bad 2\n");
        assert_eq!(planned(format!("image 00\n{line}\n").as_bytes()), "bad 2\n");
        assert_eq!(planned(format!("image 0\n{line}\n").as_bytes()), "bad 1\n");
    }
    for plan in ["guest 1", "guest 1\nextent 0 1 0", PLAN.trim_end()] {
        let number = plan.lines().count() + 1;
        let input = format!("{plan}\n{image}\n");
        assert_eq!(planned(input.as_bytes()), format!("bad {number:x}\n"));
    }
}

#[test]
fn images_that_are_refused() {
    for (image, expected) in [
        ("", "6e 0 0"),
        ("11", "6e 0 0"),
        ("15", "6f 0 0"),
        ("12 120 0000000 0001 0000 020 0", "6f 1 0"),
        ("11 120 0000000 0000 0000", "70 0 0"),
        ("11 140 0000001 0001 0000 0000000 0001 0001 0", "71 0 1"),
        ("11 140 0000000 0001 0000 0000001 0001 0000 0", "72 0 1"),
        ("11 122 0000000 0001 0000 0000001 02 0000001 03", "73 0 1"),
        ("11 120 0000000 0001 0000 00", "74 1 0"),
        ("11 140 0000000 0001 0000 0000001 0001 0001 1", "74 1 0"),
    ] {
        let line = format!("image {image}");
        assert_eq!(planned(line.as_bytes()), format!("{expected}\n"), "{image}");
    }
    for line in ["image 1", "image 1g", "image12", "Image 11", "image\t11"] {
        assert_eq!(planned(line.as_bytes()), "bad 1\n");
    }
}

/// Every image line of a session: what the session answers if it is refused,
/// else a plan of which the image comes again.
#[test]
fn images_of_a_session() {
    let text = generated(5, 20_000).expect("writing to memory");
    let answers = answers(&text);
    let mut statuses = BTreeSet::new();
    for (line, answer) in text.split(|&byte| byte == b'\n').zip(&answers) {
        let Some(Line::Image(image)) = parse(line) else {
            continue;
        };
        let printed = planned(line);
        if answer == "0 0 0" {
            let digits: String = image.iter().map(|byte| format!("{byte:02x}")).collect();
            assert_eq!(planned(printed.as_bytes()), format!("image {digits}\n"));
        } else {
            assert_eq!(printed, format!("{answer}\n"));
        }
        statuses.insert(answer.split(' ').next().unwrap_or("").to_owned());
    }
    let all = ["0", "6e", "6f", "70", "71", "72", "73", "74"];
    assert_eq!(statuses, BTreeSet::from(all.map(str::to_owned)));
}

#[test]
fn generated_images_there_and_back() {
    let mut text = Vec::new();
    generate::write_images(1, 4000, &mut text).expect("writing to memory");
    let text = String::from_utf8(text).expect("text");
    let mut counts = BTreeSet::new();
    for line in text.lines() {
        let plan = planned(line.as_bytes());
        assert_eq!(planned(plan.as_bytes()), format!("{line}\n"));
        counts.extend(counts_of(&plan));
    }
    let every = |word: &str, numbers: std::ops::RangeInclusive<u64>| {
        numbers.for_each(|n| assert!(counts.contains(&(word.to_owned(), n)), "{n} {word}"));
    };
    every("guests", 1..=4);
    every("cpus", 1..=8);
    every("extents", 1..=7);
    every("sources", 0..=16);
}

/// How many of each kind a plan has, and its guests.
fn counts_of(plan: &str) -> Vec<(String, u64)> {
    let guests: Vec<&str> = plan.split("guest ").skip(1).collect();
    let mut counts = vec![("guests".to_owned(), guests.len() as u64)];
    for guest in guests {
        let cpus = guest.lines().next().unwrap_or("");
        let cpus = u64::from_str_radix(cpus, 16).expect("a number");
        counts.push(("cpus".to_owned(), cpus));
        for word in ["extent", "source"] {
            let count = guest.lines().filter(|line| line.starts_with(word)).count();
            counts.push((format!("{word}s"), count as u64));
        }
    }
    counts
}

fn rewritten(input: &[u8]) -> String {
    let mut output = Vec::new();
    rewrite::run(input, &mut output).expect("reading from and writing to memory");
    String::from_utf8(output).expect("text")
}

#[test]
fn images_rewritten_one_by_one() {
    let input = format!(
        "{IMAGE}image 12\nguest 1\n\nimage 1\nload 0 0\n{}",
        IMAGE.trim_end()
    );
    let expected = format!("{IMAGE}6e 0 0\nbad\nbad\nbad\nbad\n{IMAGE}");
    assert_eq!(rewritten(input.as_bytes()), expected);
    assert_eq!(rewritten(b""), "");
    let loud = IMAGE.to_uppercase().replace("IMAGE 12", "image 1 2  ");
    assert_eq!(rewritten(loud.as_bytes()), IMAGE);
}

#[test]
fn bench_images_are_accepted_and_differ() {
    let mut text = Vec::new();
    bench::write_images(20_000, &mut text).expect("writing to memory");
    let text = String::from_utf8(text).expect("text");
    assert_eq!(text.lines().count(), 20_000);
    assert_eq!(rewritten(text.as_bytes()), text);
    let lengths: BTreeSet<usize> = text.lines().map(str::len).collect();
    assert_eq!(lengths.first(), Some(&26));
    assert_eq!(lengths.last(), Some(&1016));
    let lines: BTreeSet<&str> = text.lines().collect();
    assert_eq!(lines.len(), 20_000);
}
