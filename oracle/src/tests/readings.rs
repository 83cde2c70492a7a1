//! What the paper leaves open on entry and calls, as it is read here (docs/DECISIONS.md).

use super::{check, check_prepared, IMAGE};

#[test]
fn callers() {
    check_prepared(
        "load 2 0 -> 67
load 4 0 -> 67
load 100000000 0 -> 67
load ffffffffffffffff 1 -> 67
store 2 1 0 -> 67
call 0 2 80 16 -> 67
call 0 100000001 80 16 -> 67
call 0 8 99 99 -> 67
call 0 1 80 16 -> 0 1 0 0 0
call 1 1 ff 3 1 -> 67
head 0 2 0 1 -> 67
raise 100 6 -> 68
raise 10000100 5 -> 68
raise 100 85 -> 68",
    );
}

#[test]
fn memory_comes_before_the_caller() {
    // The second guest ends one page behind the memory.
    check(
        "image 12 221 0000000 0001 0000 0000100 0b 121 0000000 0004 0001 0000200 0b -> 0
call 0 0 ff 0 1 1 -> 66
call 4 0 ff 0 1 1 -> 66
head 0 0 3c 0 -> 66
load 9 1 -> 66
store 0 0 0 -> 66
hit 0 0 0 0 0 0 -> 66
hit 9 0 9 0 0 0 -> 66
raise 100 5 -> 66
raise 100 6 -> 66
image 12 221 0000000 0001 0000 0000100 0b 121 0000000 0003 0001 0000200 0b -> 0
load 1 5ff8 -> 0",
    );
}

#[test]
fn versions() {
    check(&format!(
        "{IMAGE}call 0 0 ff 3 1 -> 6
call 0 0 ff 3 3 -> 6
call 0 0 ff 1 -> 7
call 0 0 ff 2 -> 7
call 0 0 ff 4 -> 7
call 0 0 fe 0 1 1 -> 7
call 0 0 80 14 0 0 0 -> 7
call 0 0 ff 0 3 9 -> 6
call 0 0 ff 0 201 1 -> 6
call 0 0 ff 0 1 0 -> d
call 0 0 ff 0 1 2 -> d
call 0 0 ff 0 1 100000001 -> d
call 0 0 ff 0 1 1 7 -> 0
call 0 0 ff 3 1 -> 0 1 0 0 0
call 0 0 ff 0 200 2 -> d
call 0 0 ff 0 2 3 -> d
call 0 0 ff 0 2 2 -> 0
call 0 0 ff 3 2 -> 0 2 0 0 0
call 0 0 ff 0 2 1 -> d
call 0 0 ff 0 2 2 -> 0
call 1 0 ff 3 2 -> 6
call 1 0 80 16 -> 7"
    ));
}

#[test]
fn functions_of_group_2() {
    let calls = |status: &str, first: u64, last: u64| -> String {
        (first..=last)
            .map(|f| format!("call 0 0 80 {f:x} 9 9 9 -> {status}\n"))
            .collect()
    };
    let script = [
        IMAGE,
        &calls("7", 0xa0, 0xae),
        "call 0 0 ff 0 2 1 -> 0\n",
        &calls("6", 0xa0, 0xa6),
        &calls("7", 0xa7, 0xaf),
        "call 0 0 ff 0 2 2 -> 0\n",
        &calls("d", 0xa0, 0xa6),
        &calls("6", 0xa7, 0xae),
        &calls("7", 0xaf, 0xaf),
    ];
    check(&script.concat());
}

#[test]
fn going_to_2_0_only_disables() {
    check(&format!(
        "{IMAGE}call 0 0 ff 0 1 1 -> 0
call 0 0 ff 0 2 1 -> 0
call 0 0 80 14 3d 80 2 -> 0
call 0 0 80 a6 0 1 -> 0
call 0 0 80 a4 0 1 -> 0
call 0 0 80 a2 0 1 -> 0
call 0 0 ff 0 2 1 -> 0
call 0 0 80 a1 0 -> 0 1 0 0 0
call 0 0 ff 0 2 2 -> 0
call 0 0 80 a9 100 5 -> 0
call 0 0 80 ab 100 5 -> 0 1 0 0 0
call 0 0 80 ad 100 5 -> 0 1 0 0 0
call 0 0 80 aa 100 5 1 -> 6
call 0 0 80 a8 100 5 900 -> 0
call 0 0 80 aa 100 5 1 -> 0
call 0 0 ff 0 2 2 -> 0
call 0 0 80 a9 100 5 -> 0 1 0 0 0
call 0 0 80 a8 100 5 0 -> 0
call 0 0 80 a9 100 5 -> 0"
    ));
}

#[test]
fn rings() {
    check_prepared(
        "call 0 0 80 15 3c -> 0
call 0 0 80 15 40 -> 6
call 0 0 80 14 3b 0 0 -> 6
call 0 0 80 14 3c 80 102 -> 6
call 0 0 80 14 3c 0 80 -> 0
call 0 0 80 15 3c -> 0 0 80 0 0
head 0 0 3c 0 -> 0
head 0 0 3c 40 -> 6
head 0 0 3c 1 -> 8
head 0 0 3c 2001 -> 8
head 0 0 3c 2000 -> 6
head 0 0 3d 0 -> 6
head 0 0 3b 1 -> 6
call 0 0 80 14 3c 1 0 -> 0
call 0 0 80 15 3c -> 0",
    );
}

#[test]
fn configuring_again_drops_entries_and_touches_no_memory() {
    check_prepared(
        "call 0 1 80 14 3c 80 2 -> 0
store 0 0 0001000000000000 -> 0
store 0 100 77 -> 0
call 0 0 80 42 1 0 100 -> 0
call 0 1 80 14 3c 80 2 -> 0
load 0 80 -> 0 77 0 0 0
head 0 1 3c 40 -> 6
store 0 0 0001000000000000 -> 0
call 0 0 80 42 1 0 100 -> 0
head 0 1 3c 40 -> 0",
    );
}

#[test]
fn mondo_order_of_tests() {
    check_prepared(
        "call 0 0 80 42 0 1 1 -> 6
call 0 0 80 42 41 1 1 -> 6
call 0 0 80 42 1 2001 0 -> 8
call 0 0 80 42 1 2000 20 -> 8
call 0 0 80 42 1 2000 0 -> 2
call 0 0 80 42 2 1ffe 0 -> 2
call 0 0 80 42 1 1ffe 0 -> 6
store 0 0 fffe000100000000 -> 0
call 0 0 80 42 1 0 0 -> 1
call 0 0 80 42 3 0 0 -> 6
call 0 0 80 42 1 2 0 -> 9",
    );
}

#[test]
fn mondo_overlaps() {
    // List, data and the ring's first entry are the same 64 bytes. The data is
    // written at 0 as it was read, then entry 0 is marked; entry 1 goes to 40
    // with the data as it was read, then entry 1 is marked.
    check_prepared(
        "call 0 1 80 14 3c 0 4 -> 0
store 0 0 0001000155555555 -> 0
call 0 0 80 42 2 0 0 -> 0
load 0 0 -> 0 ffffffff55555555 0 0 0
load 0 40 -> 0 1000155555555 0 0 0",
    );
    // The list lies in the ring's second entry: the second write covers the
    // mark of the first entry, and only the second mark stays.
    check_prepared(
        "call 0 1 80 14 3c 0 4 -> 0
store 0 40 0001000155555555 -> 0
store 0 100 6666666666666666 -> 0
call 0 0 80 42 2 40 100 -> 0
load 0 40 -> 0 6666ffff66666666 0 0 0",
    );
}

/// Four words of a descriptor stored at an address.
fn descriptor(address: u64, words: [u64; 4]) -> String {
    let line =
        |(place, word): (u64, u64)| format!("store 0 {:x} {word:x} -> 0\n", address + 8 * place);
    (0..4).zip(words).map(line).collect()
}

#[test]
fn tsb_descriptors() {
    let good = [0x0000_0001_0000_0200, 0x0000_0000_0000_0001, 0, 0xdead];
    let cases: [([u64; 4], &str); 21] = [
        (good, "0"),
        ([0x0002_0001_0000_0200, 4, 0, 0], "4"),
        ([0x0000_0001_0000_0200, 0, 0, 0], "4"),
        ([0x0000_0001_0000_0200, 5, 0, 0], "4"),
        ([0x0002_0002_0000_0200, 1, 0, 0], "4"),
        ([0x0000_0002_0000_0200, 1, 0, 0], "5"),
        ([0x0000_0000_0000_0200, 1, 0, 0], "5"),
        ([0x0000_0001_0000_0100, 1, 0, 0], "5"),
        ([0x0000_0001_0000_0300, 1, 0, 0], "5"),
        ([0x0000_0001_0020_0000, 1, 0, 0], "5"),
        ([0x0000_0001_0000_0000, 1, 0, 0], "5"),
        ([0x0000_0002_0000_0200, 1 << 32 | 1, 0, 0], "5"),
        ([0x0000_0001_0000_0200, 1 << 32 | 1, 1, 0], "6"),
        ([0x0001_0001_0000_0200, 3, 0, 0], "6"),
        ([0x0001_0001_0000_0200, 0x2a, 0, 0], "0"),
        ([0x0003_0001_0000_0200, 0x28, 0, 0], "0"),
        ([0x0005_0001_0000_0200, 0x20, 0, 0], "0"),
        ([0x0000_0001_0000_0200, 1, 0x1000, 0], "8"),
        ([0x0000_0001_0000_0200, 1, 0x2000, 0], "2"),
        ([0x0000_0001_0000_0400, 1, 0, 0], "2"),
        ([0x0000_0001_0010_0000, 1, 0, 0], "2"),
    ];
    for (words, status) in cases {
        for function in ["20", "21"] {
            let stores = descriptor(0x100, good) + &descriptor(0x120, words);
            check_prepared(&format!("{stores}call 0 0 80 {function} 2 100 -> {status}"));
        }
    }
    check_prepared(
        "call 0 0 80 20 0 1 -> 0
call 0 0 80 20 5 1 -> 6
call 0 0 80 20 1 2004 -> 8
call 0 0 80 20 1 1fe8 -> 2
call 0 0 80 20 1 1fe0 -> 4",
    );
}

#[test]
fn scrub_and_sync() {
    check_prepared(
        "store 0 1ff8 5 -> 0
call 0 0 80 31 1 0 -> 6
call 0 0 80 31 1000 2000 -> 8
call 0 0 80 31 0 1000 -> 8
call 0 0 80 31 0 4000 -> 2
call 0 0 80 31 2000 2000 -> 2
call 0 0 80 32 0 2000 -> 0 2000 0 0 0
load 0 1ff8 -> 0 5 0 0 0
call 0 0 80 31 0 2000 -> 0 2000 0 0 0
load 0 1ff8 -> 0",
    );
}

#[test]
fn statistics() {
    check_prepared(
        "call 0 0 80 102 80 -> 0
call 0 0 80 102 1e00 -> 0 80 0 0 0
call 0 0 80 102 1e40 -> 2
call 0 0 80 103 -> 0
call 0 0 80 102 40 -> 0
call 0 1 80 103 -> 0
call 0 0 80 102 0 -> 0 40 0 0 0
call 0 0 80 103 -> 0",
    );
}

#[test]
fn sources_under_1_0() {
    // A source without cookie support, and one page.
    check(
        "image 11 121 0000000 0001 0000 0000100 0a 0 -> 0
call 0 0 ff 0 1 1 -> 0
raise 100 5 -> 0 1 0 0 0
call 0 0 ff 0 2 1 -> 0
call 0 0 80 a0 100 5 -> 0
call 0 0 80 a3 0 -> 0 1 0 0 0
call 0 0 80 a2 1 1 -> 6
call 0 0 80 a2 0 2 -> 6
call 0 0 80 a4 0 3 -> 6
call 0 0 80 a6 0 1 -> 1
call 0 0 80 a6 1 1 -> 6
call 0 0 80 a5 0 -> 0
call 0 0 80 a2 0 1 -> 0
raise 100 5 -> 0 1 0 0 0
call 0 0 80 14 3d 80 2 -> 0
store 0 80 7777 -> 0
store 0 b8 7777 -> 0
raise 100 5 -> 0 2 0 0 0
load 0 80 -> 0
load 0 b8 -> 0
head 0 0 3d 40 -> 0
raise 100 5 -> 0 2 0 0 0
head 0 0 3d 0 -> 6
call 0 0 80 a4 0 0 -> 0
raise 100 5 -> 0 2 0 0 0
call 0 0 80 a4 0 0 -> 0
raise 100 5 -> 0 1 0 0 0
head 0 0 3d 0 -> 0
call 0 0 80 a3 0 -> 0 1 0 0 0
call 0 0 ff 0 2 2 -> 0
call 0 0 80 ab 100 5 -> d
call 0 0 80 ab 100 6 -> 6
call 0 0 80 ae 100 5 99 -> d",
    );
}
