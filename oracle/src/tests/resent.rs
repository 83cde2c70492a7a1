//! Lists that are sent again: an entry that reads 0xffff is passed over.

use super::{check, check_prepared};

/// A line for each word of a list, by its address and what it holds. Behind
/// the list is 0.
fn lines(address: u64, entries: &[u16], line: fn(u64, u64) -> String) -> String {
    let words = entries.chunks(4).zip((address..).step_by(8));
    let line = |(four, at): (&[u16], u64)| {
        let entry = |place| u64::from(four.get(place).copied().unwrap_or(0));
        line(at, (0..4).fold(0, |word, place| word << 16 | entry(place)))
    };
    words.map(line).collect()
}

fn list_at(address: u64, entries: &[u16]) -> String {
    lines(address, entries, |at, word| {
        format!("store 0 {at:x} {word:x} -> 0\n")
    })
}

fn list_reads(address: u64, entries: &[u16]) -> String {
    lines(address, entries, |at, word| {
        format!("load 0 {at:x} -> 0 {word:x} 0 0 0\n")
    })
}

/// 64 bytes of data, as a list that names one cpu only.
fn data_at(address: u64, entry: u16) -> String {
    list_at(address, &[entry; 32])
}

/// Three cpus and a page.
const THREE_CPUS: &str = "image 11 320 0000000 0001 0000 -> 0\ncall 0 0 ff 0 1 1 -> 0\n";

#[test]
fn a_list_is_sent_until_nothing_is_left() {
    check_prepared(
        "call 0 1 80 14 3c 80 2 -> 0
store 0 0 0001000100000000 -> 0
store 0 40 77 -> 0
call 0 0 80 42 2 0 40 -> 9
load 0 0 -> 0 ffff000100000000 0 0 0
call 0 0 80 42 2 0 40 -> 9
load 0 0 -> 0 ffff000100000000 0 0 0
head 0 1 3c 40 -> 0
call 0 0 80 42 2 0 40 -> 0
load 0 0 -> 0 ffffffff00000000 0 0 0
load 0 c0 -> 0 77 0 0 0
call 0 0 80 42 2 0 40 -> 0
load 0 0 -> 0 ffffffff00000000 0 0 0
head 0 1 3c 40 -> 0
head 0 1 3c 0 -> 0
head 0 1 3c 40 -> 6",
    );
}

#[test]
fn marks_are_not_judged_and_the_others_are() {
    let cases: [(&[u16], u64); 12] = [
        (&[0xffff, 0], 6),
        (&[0, 0xffff], 6),
        (&[0xffff, 2], 1),
        (&[2, 0xffff], 1),
        (&[0xffff, 2, 0], 6),
        (&[0xfffe], 1),
        (&[0xffff, 0xfffe], 1),
        (&[0xfffe, 0xffff], 1),
        (&[0xffff, 0xfffe, 0], 6),
        (&[0xff], 1),
        (&[0xff00], 1),
        (&[0xffff, 1], 9),
    ];
    for (entries, status) in cases {
        let (list, reads) = (list_at(0, entries), list_reads(0, entries));
        let count = entries.len();
        check_prepared(&format!(
            "{list}call 0 0 80 42 {count:x} 0 40 -> {status}\n{reads}"
        ));
    }
    // With room it is sent, and refused it is not.
    check_prepared(
        "call 0 1 80 14 3c 80 2 -> 0
store 0 0 0001ffff00020000 -> 0
call 0 0 80 42 3 0 40 -> 1
call 0 0 80 42 4 0 40 -> 6
load 0 0 -> 0 1ffff00020000 0 0 0
head 0 1 3c 40 -> 6
call 0 0 80 42 2 0 40 -> 0
load 0 0 -> 0 ffffffff00020000 0 0 0
head 0 1 3c 40 -> 0",
    );
}

#[test]
fn a_mark_is_no_caller() {
    check(
        "image 11 820 0000000 0001 0000 -> 0
call 0 0 ff 0 1 1 -> 0
store 0 0 ffff000000070000 -> 0
call 0 0 80 42 1 0 40 -> 0
call 0 7 80 42 1 0 40 -> 0
call 0 7 80 42 2 0 40 -> 9
call 0 7 80 42 3 0 40 -> 6
call 0 0 80 42 2 0 40 -> 6",
    );
}

#[test]
fn nothing_but_marks() {
    // Whoever sends them, and though no cpu has a ring.
    for count in [1, 2, 63, 64] {
        let list = list_at(0x400, &[0xffff; 64]);
        let reads = list_reads(0x400, &[0xffff; 64]);
        check_prepared(&format!(
            "{list}store 0 40 77 -> 0
call 0 0 80 42 {count:x} 400 40 -> 0
call 0 1 80 42 {count:x} 400 40 -> 0
{reads}load 0 40 -> 0 77 0 0 0"
        ));
    }
    check_prepared(
        "store 0 0 ffffffffffffffff -> 0
call 0 0 80 42 0 0 40 -> 6
call 0 0 80 42 41 0 40 -> 6
call 0 0 80 42 2 1 40 -> 8
call 0 0 80 42 2 0 20 -> 8
call 0 0 80 42 2 0 2000 -> 2
call 0 0 80 42 2 0 40 -> 0
store 0 1ff8 ffffffffffffffff -> 0
call 0 0 80 42 4 1ff8 40 -> 0
call 0 0 80 42 5 1ff8 40 -> 2
call 0 0 80 42 1 2000 40 -> 2
load 0 0 -> 0 ffffffffffffffff 0 0 0",
    );
    // Of a guest with one cpu no other list is accepted.
    check(
        "image 11 120 0000000 0001 0000 -> 0
call 0 0 ff 0 1 1 -> 0
store 0 0 ffff000100000000 -> 0
call 0 0 80 42 1 0 40 -> 0
call 0 0 80 42 2 0 40 -> 1
call 0 0 80 42 3 0 40 -> 6",
    );
}

#[test]
fn entries_are_marked_where_they_stand() {
    check_prepared(
        "call 0 1 80 14 3c 100 4 -> 0
store 0 0 0001ffff00010000 -> 0
store 0 40 77 -> 0
call 0 0 80 42 3 0 40 -> 0
load 0 0 -> 0 ffffffffffff0000 0 0 0
head 0 1 3c c0 -> 6
head 0 1 3c 80 -> 0",
    );
    // Sent, passed over and left: cpu 2 has no ring.
    check(&format!(
        "{THREE_CPUS}call 0 1 80 14 3c 100 4 -> 0
store 0 0 ffff0002ffff0001 -> 0
store 0 8 0002000100010001 -> 0
call 0 0 80 42 7 0 40 -> 9
load 0 0 -> 0 ffff0002ffffffff 0 0 0
load 0 8 -> 0 2ffffffff0001 0 0 0
call 0 2 80 14 3c 200 8 -> 0
call 0 0 80 42 7 0 40 -> 0
load 0 0 -> 0 ffffffffffffffff 0 0 0
load 0 8 -> 0 ffffffffffff0001 0 0 0
head 0 2 3c c0 -> 6
head 0 2 3c 80 -> 0
head 0 1 3c c0 -> 0"
    ));
}

#[test]
fn marks_among_the_most_entries() {
    // Every third is a mark: 42 are left to send, and the ring takes 31.
    let entries: Vec<u16> = (0..64)
        .map(|place| if place % 3 == 0 { 0xffff } else { 1 })
        .collect();
    let mut after = entries.clone();
    let others = after.iter_mut().filter(|entry| **entry == 1);
    others.take(31).for_each(|entry| *entry = 0xffff);
    let (list, reads) = (list_at(0x100, &entries), list_reads(0x100, &after));
    let all = list_reads(0x100, &[0xffff; 64]);
    check_prepared(&format!(
        "call 0 1 80 14 3c 800 20 -> 0
store 0 40 77 -> 0
{list}call 0 0 80 42 40 100 40 -> 9
{reads}load 0 f80 -> 0 77 0 0 0
load 0 fc0 -> 0
head 0 1 3c 7c0 -> 0
call 0 0 80 42 40 100 40 -> 0
{all}load 0 fc0 -> 0 77 0 0 0
head 0 1 3c 2c0 -> 6
head 0 1 3c 280 -> 0
call 0 0 80 42 40 100 40 -> 0
head 0 1 3c 2c0 -> 6"
    ));
}

#[test]
fn nothing_is_written_for_a_mark() {
    // The data covers the list, and over it comes the mark of the first entry
    // alone.
    let data = data_at(0x400, 0x1111);
    check_prepared(&format!(
        "call 0 1 80 14 3c 0 2 -> 0
{data}store 0 0 0001ffff00000000 -> 0
call 0 0 80 42 2 0 400 -> 0
load 0 0 -> 0 ffff111111111111 0 0 0"
    ));
    // The mark before the entry that is sent.
    check_prepared(&format!(
        "call 0 1 80 14 3c 0 2 -> 0
{data}store 0 0 ffff000100000000 -> 0
call 0 0 80 42 2 0 400 -> 0
load 0 0 -> 0 1111ffff11111111 0 0 0"
    ));
    // Only marks: the ring at the list takes nothing.
    check_prepared(&format!(
        "call 0 1 80 14 3c 0 2 -> 0
{data}store 0 0 ffffffff00000000 -> 0
call 0 0 80 42 2 0 400 -> 0
load 0 0 -> 0 ffffffff00000000 0 0 0
head 0 1 3c 40 -> 6"
    ));
}

#[test]
fn an_entry_counts_as_it_was_read() {
    // Data of all ones makes the second entry read as a mark by its turn: it
    // is sent all the same.
    let ones = data_at(0x400, 0xffff);
    check(&format!(
        "{THREE_CPUS}call 0 1 80 14 3c 0 4 -> 0
call 0 2 80 14 3c 300 2 -> 0
{ones}store 0 0 0001000200000000 -> 0
call 0 0 80 42 2 0 400 -> 0
load 0 0 -> 0 ffffffffffffffff 0 0 0
load 0 300 -> 0 ffffffffffffffff 0 0 0
head 0 2 3c 40 -> 0"
    ));
    // It is left if there is no room, though it reads as a mark then.
    check_prepared(&format!(
        "call 0 1 80 14 3c 0 2 -> 0
{ones}store 0 0 0001000100000000 -> 0
call 0 0 80 42 2 0 400 -> 9
load 0 0 -> 0 ffffffffffffffff 0 0 0
call 0 0 80 42 2 0 400 -> 0
load 0 40 -> 0"
    ));
    // A mark that the data makes a cpu with room, the caller or no cpuid is
    // passed over.
    for name in [2, 0, 5] {
        let names = data_at(0x400, name);
        let reads = list_reads(0, &[0xffff, name, name, name]);
        check(&format!(
            "{THREE_CPUS}call 0 1 80 14 3c 0 4 -> 0
call 0 2 80 14 3c 300 2 -> 0
{names}store 0 0 0001ffff00000000 -> 0
call 0 0 80 42 2 0 400 -> 0
{reads}head 0 2 3c 40 -> 6"
        ));
    }
}

#[test]
fn marks_over_a_seam() {
    // Real page 0 on host page 1, real page 1 on host page 0.
    check(
        "image 11 240 0000000 0001 0001 0000001 0001 0000 0 -> 0
call 0 0 ff 0 1 1 -> 0
call 0 1 80 14 3c 100 4 -> 0
store 0 1000 77 -> 0
store 0 1ff8 55550001ffff0001 -> 0
store 0 2000 ffff0001ffff5555 -> 0
call 0 0 80 42 6 1ffa 1000 -> 0
load 0 1ff8 -> 0 5555ffffffffffff 0 0 0
load 0 2000 -> 0 ffffffffffff5555 0 0 0
load 0 180 -> 0 77 0 0 0
head 0 1 3c c0 -> 0
call 0 0 80 42 6 1ffa 1000 -> 0
store 0 1ff8 ffffffff -> 0
store 0 2000 ffffffff00000001 -> 0
call 0 0 80 42 4 1ffc 1000 -> 0
call 0 0 80 42 5 1ffc 1000 -> 6
call 0 1 80 42 5 1ffc 1000 -> 9
load 0 2000 -> 0 ffffffff00000001 0 0 0
store 0 2000 fffffffe00000001 -> 0
call 0 0 80 42 4 1ffc 1000 -> 1
load 0 1ff8 -> 0 ffffffff 0 0 0",
    );
}
