//! TSB hits: which words of the buffer gain how much, and what they leave.

use super::{check, check_prepared, IMAGE};

/// The rows of 003, section 2.3: side, context and page index of a hit, and
/// the places of its hits and its ticks.
const ROWS: [([u64; 3], u64, u64); 16] = [
    ([0, 0, 0], 0x0, 0x8),
    ([0, 0, 1], 0x10, 0x18),
    ([0, 0, 3], 0x30, 0x38),
    ([0, 0, 5], 0x50, 0x58),
    ([0, 1, 0], 0x80, 0x88),
    ([0, 1, 1], 0x90, 0x98),
    ([0, 1, 3], 0xb0, 0xb8),
    ([0, 1, 5], 0xd0, 0xd8),
    ([1, 0, 0], 0x100, 0x108),
    ([1, 0, 1], 0x110, 0x118),
    ([1, 0, 3], 0x130, 0x138),
    ([1, 0, 5], 0x150, 0x158),
    ([1, 1, 0], 0x180, 0x188),
    ([1, 1, 1], 0x190, 0x198),
    ([1, 1, 3], 0x1b0, 0x1b8),
    ([1, 1, 5], 0x1d0, 0x1d8),
];

const BUFFER: u64 = 0x400;
const BUFFER_SIZE: u64 = 512;

/// Statistics of guest 0's cpu 0 at 400.
const STATISTICS: &str = "call 0 0 80 102 400 -> 0\n";

/// What each word in and beside the buffer reads, by its offset.
fn loads(reads: impl Fn(i64) -> u64) -> String {
    let offsets = (-8..BUFFER_SIZE as i64 + 8).step_by(8);
    let load = |offset: i64| {
        let address = BUFFER.wrapping_add_signed(offset);
        format!("load 0 {address:x} -> 0 {:x} 0 0 0\n", reads(offset))
    };
    offsets.map(load).collect()
}

fn stores(value: u64) -> String {
    let offsets = (0..BUFFER_SIZE).step_by(8);
    let store = |offset| format!("store 0 {:x} {value:x} -> 0\n", BUFFER + offset);
    offsets.map(store).collect()
}

fn hit([side, context, index]: [u64; 3], ticks: u64) -> String {
    format!("hit 0 0 {side:x} {context:x} {index:x} {ticks:x} -> 0\n")
}

#[test]
fn the_worked_lines() {
    check(&format!(
        "{IMAGE}call 0 0 ff 0 200 1 0 -> 0
hit 0 0 1 1 3 5 -> 0
call 0 0 80 102 400 -> 0
hit 0 0 1 1 3 5 -> 0
load 0 5b0 -> 0 1 0 0 0
load 0 5b8 -> 0 5 0 0 0
store 0 5b8 ffffffffffffffff -> 0
hit 0 0 1 1 3 2 -> 0
load 0 5b8 -> 0 1 0 0 0
load 0 5b0 -> 0 2 0 0 0
hit 0 1 0 0 4 0 -> 6
hit 0 2 0 0 0 0 -> 67"
    ));
}

#[test]
fn each_row_has_two_words_of_its_own() {
    for (kind, hits, ticks) in ROWS {
        let reads = |offset| match offset as u64 {
            offset if offset == hits => 1,
            offset if offset == ticks => 0x1234,
            _ => 0,
        };
        check_prepared(&format!(
            "{STATISTICS}{}{}",
            hit(kind, 0x1234),
            loads(reads)
        ));
    }
}

#[test]
fn every_row_is_counted_by_itself() {
    let numbered = || ROWS.iter().zip(1..);
    let mut script = STATISTICS.to_owned();
    for (&(kind, ..), number) in numbered() {
        (0..number).for_each(|_| script += &hit(kind, 0x100 * number));
    }
    let reads = |offset: i64| {
        let row =
            numbered().find(|((_, hits, ticks), _)| [*hits, *ticks].contains(&(offset as u64)));
        row.map_or(0, |(&(_, hits, _), number)| match offset as u64 == hits {
            true => number,
            false => 0x100 * number * number,
        })
    };
    check_prepared(&(script + &loads(reads)));
}

#[test]
fn each_sum_is_modulo_2_64_by_itself() {
    for (kind, hits, ticks) in ROWS {
        let reads = |offset: i64| match offset as u64 {
            _ if !(0..BUFFER_SIZE as i64).contains(&offset) => 0,
            offset if offset == hits => 0,
            offset if offset == ticks => u64::MAX - 1,
            _ => u64::MAX,
        };
        check_prepared(&format!(
            "{STATISTICS}{}{}{}",
            stores(u64::MAX),
            hit(kind, u64::MAX),
            loads(reads)
        ));
    }
}

#[test]
fn other_numbers_are_refused_and_count_nothing() {
    // Bits above a number that is one of these, and what is next to them.
    let wide = [8, 16, 32, 63].map(|bit| 1 << bit);
    let like = |number: u64| wide.map(|bits| bits | number);
    let marks = [like(0), like(1), [2, 3, 5, u64::MAX]].concat();
    let pages = [
        like(0),
        like(1),
        like(3),
        like(5),
        [2, 4, 6, 7],
        [8, 9, 0x2b, u64::MAX],
    ]
    .concat();
    let mut script = STATISTICS.to_owned();
    // Cpu 1 has no buffer.
    let mut refuse = |[side, context, index]: [u64; 3]| {
        for cpu in 0..2 {
            script += &format!("hit 0 {cpu} {side:x} {context:x} {index:x} 7 -> 6\n");
        }
    };
    for mark in marks {
        refuse([mark, 0, 0]);
        refuse([0, mark, 0]);
    }
    for page in pages {
        refuse([0, 0, page]);
        refuse([1, 1, page]);
    }
    check_prepared(&(script + &loads(|_| 0)));
}

#[test]
fn entry_comes_before_the_numbers() {
    check_prepared(
        "hit 0 2 0 0 0 0 -> 67
hit 0 2 2 2 2 0 -> 67
hit 2 0 2 2 2 0 -> 67
hit 0 100000000 0 0 0 0 -> 67
hit 100000000 0 0 0 0 0 -> 67
hit 0 1 2 0 0 0 -> 6
hit 0 1 0 0 0 0 -> 0",
    );
    check(
        "hit 0 0 0 0 0 0 -> 67
image 12 221 0000000 0001 0000 0000100 0b 121 0000000 0004 0001 0000200 0b -> 0
hit 0 0 0 0 0 0 -> 66
hit 0 0 2 2 2 0 -> 66
hit 9 9 0 0 0 0 -> 66",
    );
}

#[test]
fn without_an_address_nothing_is_counted() {
    // No group is asked for; only 0x102 looks at one.
    check(&format!(
        "{IMAGE}store 0 0 77 -> 0
hit 0 0 0 0 0 5 -> 0
load 0 0 -> 0 77 0 0 0
load 0 8 -> 0 0 0 0 0
call 0 0 80 102 400 -> 7
hit 0 0 0 0 0 5 -> 0
load 0 400 -> 0
call 0 0 ff 0 200 1 -> 0
call 0 0 80 102 400 -> 0
hit 0 0 0 0 0 5 -> 0
load 0 408 -> 0 5 0 0 0
call 0 0 80 102 401 -> 8
hit 0 0 0 0 0 5 -> 0
load 0 408 -> 0 5 0 0 0
call 0 0 80 102 400 -> 0
call 0 0 80 102 1e40 -> 2
hit 0 0 0 0 0 5 -> 0
load 0 408 -> 0 5 0 0 0
call 0 0 80 102 400 -> 0
call 0 0 80 102 0 -> 0 400 0 0 0
hit 0 0 0 0 0 5 -> 0
load 0 408 -> 0 5 0 0 0
load 0 400 -> 0 1 0 0 0
load 0 0 -> 0 77 0 0 0
load 0 8 -> 0"
    ));
}

#[test]
fn each_cpu_has_its_own_buffer() {
    check_prepared(
        "call 0 0 80 102 400 -> 0
call 0 1 80 102 600 -> 0
hit 0 1 0 1 1 9 -> 0
load 0 490 -> 0
load 0 690 -> 0 1 0 0 0
load 0 698 -> 0 9 0 0 0
call 0 1 80 102 480 -> 0 600 0 0 0
hit 0 1 0 0 1 9 -> 0
hit 0 0 0 1 1 7 -> 0
load 0 490 -> 0 2 0 0 0
load 0 498 -> 0 10 0 0 0
load 1 490 -> 0
call 0 1 80 102 400 -> 0 480 0 0 0
hit 0 1 0 1 1 1 -> 0
load 0 498 -> 0 11 0 0 0
call 0 0 80 103 -> 0 400 0 0 0",
    );
}

#[test]
fn a_buffer_over_a_seam() {
    // Real pages 0 and 1 are host pages 2 and 0; guest 1 has the pages between.
    check(
        "image 12 240 0000000 0001 0002 0000001 0001 0000 140 0000000 0001 0001 0000001 0001 0003 -> 0
call 0 0 ff 0 200 1 -> 0
call 0 0 80 102 1f40 -> 0
hit 0 0 0 1 1 3 -> 0
hit 0 0 0 1 3 4 -> 0
hit 0 0 1 0 0 5 -> 0
hit 0 0 0 1 5 6 -> 0
load 0 1fd0 -> 0 1 0 0 0
load 0 1fd8 -> 0 3 0 0 0
load 0 1ff0 -> 0 1 0 0 0
load 0 1ff8 -> 0 4 0 0 0
load 0 2010 -> 0 1 0 0 0
load 0 2018 -> 0 6 0 0 0
load 0 2040 -> 0 1 0 0 0
load 0 2048 -> 0 5 0 0 0
load 0 2000 -> 0
load 1 2010 -> 0
load 1 2040 -> 0
load 1 10 -> 0
load 1 40 -> 0",
    );
}
