//! Where an image is bad: the status, the guest and the position in it.

use super::{answers, check, IMAGE, VERSIONS};

/// Each line is an image without the zero bits that fill its last byte, an
/// arrow and its answer.
fn check_images(script: &str) {
    for line in script.lines() {
        let (image, expected) = line.split_once(" -> ").expect("an arrow");
        let digits = image.bytes().filter(|&byte| byte != b' ').count();
        let fill = ["", "0"][digits % 2];
        check(&format!("image {image}{fill} -> {expected}"));
    }
}

/// Four extents apart from each other, on these host pages.
fn on(host_pages: [u64; 4]) -> String {
    let [a, b, c, d] = host_pages;
    format!("0000000 0001 {a:04x} 0000002 0001 {b:04x} 0000004 0001 {c:04x} 0000006 0001 {d:04x}")
}

/// Four sources with these devhandles. Cookie support does not matter.
fn named(devhandles: [u64; 4]) -> String {
    let [a, b, c, d] = devhandles;
    format!("{a:07x} 0a {b:07x} 0b {c:07x} 0b {d:07x} 0a")
}

#[test]
fn an_image_has_three_numbers_and_an_event_five() {
    let image = "image 11 120 0000000 0001 0000";
    let session = format!("{image}\nload 0 0\n{image} 00\nload 0 0\nimage\nimage 10\n");
    let expected = [
        "0 0 0",
        "0 0 0 0 0",
        "74 1 0",
        "67 0 0 0 0",
        "6e 0 0",
        "6f 0 0",
    ];
    assert_eq!(answers(session.as_bytes()), expected);
}

#[test]
fn a_fault_of_each_status() {
    check(
        "image 12 221 0000000 0001 0000 0000100 0b 121 0000000 0001 0001 0000200 0b -> 0 0 0
image 12 221 0000000 0001 0000 0000100 0b 121 0000000 0001 0001 0000200 -> 6e 0 0
image 12 120 0000000 0001 0000 020 0 -> 6f 1 0
image 12 140 0000004 0001 0000 0000000 0001 0001 120 0000000 0000 0002 0 -> 70 1 0
image 12 140 0000004 0001 0000 0000000 0001 0001 120 0000000 0001 0002 0 -> 71 0 1
image 11 180 0000000 0001 0000 0000002 0001 0001 0000004 0001 0001 0000006 0001 0000 0 -> 72 0 2
image 11 122 0000000 0001 0000 0000001 02 0000001 03 -> 73 0 1
image 13 120 0000000 0001 0000 120 0000000 0001 0001 120 0000000 0001 0002 00 -> 74 3 0
image 13 120 0000000 0001 0000 120 0000000 0001 0001 120 0000000 0001 0002 -> 0 0 0",
    );
}

// While fields are read.

#[test]
fn counts_are_tested_as_they_are_read() {
    check(
        "image 01 -> 6f
image 21 -> 6f
image 10 -> 6f
image 15 -> 6f
image 05 -> 6f
image 11 -> 6e
image 1100 -> 6f
image 1190 -> 6f
image 1110 -> 6f
image 1118 -> 6e
image 111a -> 6e
image 111e -> 6e
image 1112 -> 6e
image 111300 -> 6e
image 111310 -> 6f
image 1112 10 -> 6e",
    );
}

#[test]
fn a_count_is_told_by_its_guest() {
    let sound = ["0000", "0001", "0002"].map(|page| format!("120 0000000 0001 {page} "));
    for guest in 0..4 {
        let before = sound[..guest].concat();
        // No cpu, nine and fifteen; no extent; seventeen sources and the most
        // that five bits hold.
        for counts in ["020", "920", "f20", "100", "131", "13f"] {
            check_images(&format!("14 {before}{counts} -> 6f {guest:x} 0"));
        }
        for counts in ["120", "820", "1e0", "130"] {
            check_images(&format!("14 {before}{counts} -> 6e 0 0"));
        }
    }
}

#[test]
fn the_first_of_several_counts_is_told() {
    check_images(
        "12 020 0000000 0001 0000 020 -> 6f 0 0
25 020 -> 6f 0 0
13 120 0000000 0001 0000 100 020 -> 6f 1 0
13 120 0000000 0001 0000 120 0000000 0001 0001 93f -> 6f 2 0",
    );
}

#[test]
fn a_count_decides_before_missing_bits_and_other_rules_after() {
    check(
        "image 12 120 0000000 0000 0000 -> 6e
image 12 120 0000000 0000 0000 00 -> 6f 1 0
image 12 120 0000000 0000 0000 12 -> 6e
image 13 120 0000000 0000 0000 140 0000004 0001 0000 0000000 0001 0000 02 0 -> 6f 2 0
image 13 120 0000000 0000 0000 140 0000004 0001 0000 0000000 0001 0000 12 0 -> 6e",
    );
}

// After the last field.

#[test]
fn rules_after_the_last_field() {
    check(
        "image 11 120 0000000 0001 0000 -> 0
image 11 120 0000000 0001 0000 00 -> 74 1 0
image 11 120 0000000 0000 0000 -> 70 0 0
image 11 120 fffffff 0001 0000 -> 0
image 11 120 fffffff 0002 0000 -> 70 0 0
image 11 120 0000000 0001 ffff -> 0
image 11 120 0000000 0002 ffff -> 70 0 0
image 11 140 0000000 0001 0000 0000001 0001 0001 0 -> 0
image 11 140 0000000 0001 0000 0000001 0001 0001 1 -> 74 1 0
image 11 140 0000000 0001 0000 0000001 0001 0001 8 -> 74 1 0
image 11 140 0000000 0002 0000 0000001 0001 0002 0 -> 71 0 1
image 11 140 0000001 0001 0000 0000000 0001 0001 0 -> 71 0 1
image 11 140 0000000 0002 0000 0000002 0001 0001 0 -> 72 0 1
image 12 120 0000000 0002 0000 120 0000000 0001 0001 0 -> bad
image 12 120 0000000 0002 0000 120 0000000 0001 0001 -> 72 1 0
image 12 120 0000000 0001 0000 120 0000000 0001 0001 -> 0
image 11 122 0000000 0001 0000 0000100 0a 0000100 0a -> 73 0 1
image 11 122 0000000 0001 0000 0000100 0a 0000100 0b -> 73 0 1
image 11 122 0000000 0001 0000 0000100 0a 0000101 0a -> 0
image 11 122 0000000 0001 0000 0000100 0a 0000100 0c -> 0
image 12 121 0000000 0001 0000 0000100 0a 121 0000000 0001 0001 0000100 0b -> 73 1 0",
    );
}

#[test]
fn of_extent_numbers_the_first_is_told() {
    // By guest, then by position, whichever of the numbers is wrong.
    let sound = "0000000 0001 0000";
    let none = "0000002 0000 0002";
    let real = "fffffff 0002 0004";
    let host = "0000006 0003 fffe";
    check_images(&format!(
        "11 160 {sound} {none} {host} -> 70 0 1
11 160 {sound} {host} {none} -> 70 0 1
11 160 {sound} {real} {none} -> 70 0 1
11 160 {none} {real} {host} -> 70 0 0
12 140 {sound} {host} 120 {none} -> 70 0 1
12 120 {sound} 140 {host} {none} -> 70 1 0
12 120 {sound} 140 0000000 0001 0001 {real} -> 70 1 1
14 120 {sound} 120 0000000 0001 0001 120 0000000 0001 0002 160 0000000 0001 0003 0000004 0001 0004 {host} -> 70 3 2"
    ));
}

#[test]
fn of_extents_out_of_order_the_earliest_is_told() {
    let extents = |real_pages: [u64; 4]| {
        let extents = (0..).zip(real_pages);
        let extents = extents.map(|(host, real)| format!(" {real:07x} 0002 {:04x}", 2 * host));
        extents.collect::<String>()
    };
    let check_pages = |real_pages, expected| {
        check_images(&format!("11 180{} -> {expected}", extents(real_pages)));
    };
    check_pages([0, 2, 4, 6], "0 0 0");
    check_pages([0, 1, 4, 6], "71 0 1");
    check_pages([0, 2, 3, 6], "71 0 2");
    check_pages([0, 2, 4, 5], "71 0 3");
    // Of a pair the later, also if it is the earlier that stands out.
    check_pages([8, 2, 4, 6], "71 0 1");
    check_pages([0, 8, 4, 6], "71 0 2");
    check_pages([0, 8, 12, 10], "71 0 3");
    // The first of several.
    check_pages([6, 4, 2, 0], "71 0 1");
    check_pages([0, 4, 4, 0], "71 0 2");
    // In the second guest, and in both.
    let (sound, bad) = (extents([0, 2, 4, 6]), extents([0, 6, 4, 2]));
    check_images(&format!(
        "12 120 0000009 0001 0009 180{bad} -> 71 1 2
12 180{bad} 140 0000001 0001 0020 0000000 0001 0021 -> 71 0 2
12 180{sound} 140 0000001 0001 0020 0000000 0001 0021 -> 71 1 1"
    ));
}

#[test]
fn guests_may_have_the_same_real_pages() {
    check("image 12 120 0000005 0001 0000 120 0000004 0002 0001 -> 0");
}

#[test]
fn of_extents_that_share_the_earliest_that_meets_one_before_it_is_told() {
    let check_guest = |host_pages, expected| {
        check_images(&format!("11 180 {} -> {expected}", on(host_pages)));
    };
    check_guest([0, 1, 2, 3], "0 0 0");
    check_guest([0, 0, 2, 3], "72 0 1");
    check_guest([0, 1, 0, 3], "72 0 2");
    check_guest([0, 1, 2, 0], "72 0 3");
    check_guest([0, 1, 2, 2], "72 0 3");
    // Two pairs: beside each other, crossing, one in the other.
    check_guest([0, 0, 2, 2], "72 0 1");
    check_guest([0, 1, 0, 1], "72 0 2");
    check_guest([0, 1, 1, 0], "72 0 2");
    // One with all others.
    check_guest([0, 0, 0, 0], "72 0 1");
}

#[test]
fn host_pages_are_compared_over_all_guests() {
    let check_guests = |first, second, expected| {
        let (first, second) = (on(first), on(second));
        check_images(&format!("12 180 {first} 180 {second} -> {expected}"));
    };
    check_guests([0, 1, 2, 3], [4, 5, 6, 7], "0 0 0");
    check_guests([0, 1, 2, 3], [4, 5, 0, 7], "72 1 2");
    check_guests([0, 1, 2, 3], [4, 5, 6, 4], "72 1 3");
    // The first extent's fellow is the last of all.
    check_guests([0, 1, 2, 3], [4, 5, 4, 0], "72 1 2");
    check_guests([0, 1, 2, 1], [4, 5, 6, 0], "72 0 3");
    check_guests([0, 1, 2, 3], [3, 2, 1, 0], "72 1 0");
    // Runs: one in the other, and by one page at either end.
    let run = |pages| format!("13 120 0000000 0001 0000 120 0000000 0003 0004 120 {pages}");
    for (pages, expected) in [
        ("0000000 0002 0002", "0 0 0"),
        ("0000000 0002 0003", "72 2 0"),
        ("0000000 0001 0005", "72 2 0"),
        ("0000000 0001 0006", "72 2 0"),
        ("0000000 0001 0007", "0 0 0"),
        ("0000000 0009 0001", "72 2 0"),
    ] {
        check_images(&format!("{} -> {expected}", run(pages)));
    }
}

#[test]
fn of_sources_the_earliest_that_is_named_before_is_told() {
    let check_guest = |devhandles, expected| {
        let sources = named(devhandles);
        check_images(&format!("11 124 0000000 0001 0000 {sources} -> {expected}"));
    };
    check_guest([0, 1, 2, 3], "0 0 0");
    check_guest([0, 0, 2, 3], "73 0 1");
    check_guest([0, 1, 2, 0], "73 0 3");
    check_guest([0, 1, 2, 2], "73 0 3");
    check_guest([0, 0, 2, 2], "73 0 1");
    check_guest([0, 1, 0, 1], "73 0 2");
    check_guest([0, 1, 1, 0], "73 0 2");
    check_guest([7, 7, 7, 7], "73 0 1");
    let check_guests = |first, second, expected| {
        let first = format!("124 0000000 0001 0000 {}", named(first));
        let second = format!("124 0000000 0001 0001 {}", named(second));
        check_images(&format!("12 {first} {second} -> {expected}"));
    };
    check_guests([0, 1, 2, 3], [4, 5, 6, 7], "0 0 0");
    check_guests([0, 1, 2, 3], [4, 5, 6, 0], "73 1 3");
    check_guests([0, 1, 2, 3], [4, 5, 4, 0], "73 1 2");
    check_guests([0, 1, 2, 1], [4, 5, 6, 0], "73 0 3");
    check_guests([0, 1, 2, 3], [3, 2, 1, 0], "73 1 0");
}

#[test]
fn the_last_source_of_the_last_guest() {
    let mut image = "14".to_owned();
    for guest in 0..4 {
        image += &format!(" 130 0000000 0001 {guest:04x}");
        for source in 0..16 {
            image += &format!(" {:07x} fe", 16 * guest + source);
        }
    }
    check_images(&format!("{image} -> 0 0 0"));
    let last = image.len() - "000003f fe".len();
    check_images(&format!("{} 0000000 fe -> 73 3 f", &image[..last]));
}

#[test]
fn of_the_end_the_number_of_guests_is_told() {
    let mut image = String::new();
    for guests in 1..=4 {
        image += &format!(" 120 0000000 0001 {guests:04x}");
        check(&format!("image 1{guests}{image} -> 0"));
        for behind in ["00", "01", "ff", "0000"] {
            check(&format!("image 1{guests}{image} {behind} -> 74 {guests} 0"));
        }
        // A source more: its fields end in the middle of a byte.
        let source = format!("1{guests}{image}").replacen("120", "121", 1);
        let source = source.replacen("0001 0001", "0001 0001 0000100 0b", 1);
        check(&format!("image {source}0 -> 0"));
        for fill in ["1", "2", "4", "8", "f", "000"] {
            check(&format!("image {source}{fill} -> 74 {guests} 0"));
        }
    }
}

#[test]
fn each_rule_is_tried_over_all_guests_before_the_next() {
    // In the first guest a fault of a later rule, in the second of an earlier.
    let numbers = "122 0000000 0000 0009 0000001 0a 0000002 0a";
    let order = "142 0000008 0001 0008 0000000 0001 0007 0000003 0a 0000004 0a";
    let shared = "142 0000000 0001 0006 0000008 0001 0006 0000005 0a 0000006 0a";
    let twice = "122 0000000 0001 0005 0000007 0a 0000007 0a";
    check_images(&format!(
        "12 {order} {numbers} -> 70 1 0
12 {shared} {numbers} -> 70 1 0
12 {twice} {numbers} -> 70 1 0
12 {shared} {order} -> 71 1 1
12 {twice} {order} -> 71 1 1
12 {twice} {shared} -> 72 1 1
14 {twice} {shared} {order} {numbers} -> 70 3 0
13 {twice} {shared} {order} -> 71 2 1
12 {twice} {shared} -> 72 1 1
11 {twice} -> 73 0 1"
    ));
    // The end comes last.
    check_images(&format!(
        "11 {numbers} 000 -> 70 0 0
11 {order} 000 -> 71 0 1
11 {shared} 000 -> 72 0 1
11 {twice} 000 -> 73 0 1"
    ));
}

#[test]
fn in_one_guest_the_rules_come_in_their_order_too() {
    // The first two extents share a page and descend, the third has no page.
    let sources = "0000001 0a 0000001 0a";
    check_images(&format!(
        "11 162 0000004 0001 0000 0000002 0001 0000 0000006 0000 0001 {sources} 001 -> 70 0 2
11 162 0000002 0001 0000 0000004 0001 0000 0000003 0001 0001 {sources} 001 -> 71 0 2
11 162 0000002 0001 0000 0000004 0001 0001 0000006 0001 0000 {sources} 001 -> 72 0 2
11 162 0000002 0001 0000 0000004 0001 0001 0000006 0001 0002 {sources} 001 -> 73 0 1
11 162 0000002 0001 0000 0000004 0001 0001 0000006 0001 0002 0000001 0a 0000002 0a 001 -> 74 1 0"
    ));
}

#[test]
fn every_refusal_leaves_no_guest() {
    for refused in [
        "image -> 6e",
        "image 10 -> 6f",
        "image 12 120 0000000 0001 0000 020 0 -> 6f 1 0",
        "image 11 120 0000000 0000 0000 -> 70 0 0",
        "image 11 140 0000001 0001 0000 0000000 0001 0001 0 -> 71 0 1",
        "image 12 120 0000000 0001 0000 120 0000000 0001 0000 -> 72 1 0",
        "image 11 122 0000000 0001 0000 0000001 02 0000001 03 -> 73 0 1",
        "image 11 120 0000000 0001 0000 00 -> 74 1 0",
    ] {
        check(&format!(
            "{IMAGE}{VERSIONS}store 0 8 1234 -> 0
{refused}
load 0 8 -> 67
call 0 0 ff 3 1 -> 67
raise 100 5 -> 68
{IMAGE}load 0 8 -> 0 1234 0 0 0
call 0 0 80 16 -> 7"
        ));
    }
}
