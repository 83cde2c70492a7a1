//! The examples of the paper, each with its status.

use super::{answers, check, check_prepared};

#[test]
fn worked_session() {
    let input = b"image 12 221 0000000 0001 0000 0000100 0b 121 0000000 0001 0001 0000200 0b
call 0 0 ff 0 1 1 0
call 0 0 ff 0 2 2 0
call 0 0 80 14 3d 80 2
call 0 0 80 a8 200 5 800
call 0 0 80 a8 100 5 800
call 0 0 80 ae 100 5 0
call 0 0 80 aa 100 5 1
raise 100 5
load 0 80
call 0 0 80 15 3d
";
    let expected = [
        "0 0 0",
        "0 0 0 0 0",
        "0 0 0 0 0",
        "0 0 0 0 0",
        "6 0 0 0 0",
        "0 0 0 0 0",
        "0 0 0 0 0",
        "0 0 0 0 0",
        "0 2 0 0 0",
        "0 800 0 0 0",
        "0 80 2 0 0",
    ];
    assert_eq!(answers(input), expected);
    assert_eq!(answers(input.trim_ascii_end()), expected);
}

#[test]
fn queue_configuration() {
    check_prepared(
        "call 0 0 80 14 3c 80 2 -> 0
call 0 0 80 14 3c 80 1 -> 6
call 0 0 80 14 3c 40 2 -> 8
call 0 0 80 14 3c 1f80 2 -> 0
call 0 0 80 14 3c 2000 2 -> 2
call 0 0 80 14 3c 0 100 -> 2
call 0 0 80 14 3c ffffffffffffff80 2 -> 2
call 0 0 80 15 3c -> 0 1f80 2 0 0",
    );
}

#[test]
fn cookies_and_handles() {
    check_prepared(
        "call 0 0 80 a8 100 5 7ff -> 6
call 0 0 80 a7 100 5 -> 0
call 0 0 80 a8 100 5 800 -> 0
call 0 0 80 a7 100 5 -> 0 800 0 0 0
call 0 0 80 a8 200 5 800 -> 6
call 0 0 80 a8 300 5 800 -> 6",
    );
}

#[test]
fn functions() {
    check_prepared("call 0 0 80 13 -> 7\ncall 0 0 80 a0 100 5 -> d");
}

#[test]
fn scrub_and_statistics() {
    check_prepared(
        "call 0 0 80 31 0 0 -> 6
call 0 0 80 102 40 -> 0
call 0 0 80 103 -> 0 40 0 0 0
call 0 0 80 102 41 -> 8
call 0 0 80 103 -> 0",
    );
}

#[test]
fn mondo() {
    check_prepared(
        "call 0 1 80 14 3c 80 2 -> 0
store 0 0 0001000100000000 -> 0
store 0 100 1234 -> 0
call 0 0 80 42 2 0 100 -> 9
load 0 0 -> 0 ffff000100000000 0 0 0
load 0 80 -> 0 1234 0 0 0
store 0 0 0002000000000000 -> 0
call 0 0 80 42 2 0 100 -> 6
call 0 0 80 42 1 0 100 -> 1",
    );
}

#[test]
fn slips_to_rule_out() {
    // Sysinos are numbered in each guest.
    check(
        "image 12 221 0000000 0001 0000 0000100 0b 121 0000000 0001 0001 0000200 0b -> 0
call 1 0 ff 0 2 1 -> 0
call 1 0 80 a0 200 5 -> 0
call 1 0 80 a0 100 5 -> 6",
    );
    // A ring of n holds n-1, and then does not look empty.
    check_prepared(
        "call 0 1 80 14 3c 80 2 -> 0
store 0 0 0001000100000000 -> 0
call 0 0 80 42 1 0 100 -> 0
store 0 0 0001000100000000 -> 0
call 0 0 80 42 1 0 100 -> 9
head 0 1 3c 40 -> 0
head 0 1 3c 0 -> 6
call 0 0 80 42 1 0 100 -> 0",
    );
    // The sum of base and length may pass 2^64.
    check_prepared(
        "call 0 0 80 32 ffffffffffffe000 4000 -> 2
call 0 0 80 32 2000 ffffffffffffe000 -> 2
call 0 0 80 32 0 ffffffffffffe000 -> 2
load 0 fffffffffffffff8 -> 2
call 0 0 80 102 ffffffffffffffc0 -> 2
call 0 0 80 20 4 fffffffffffffff8 -> 2
call 0 0 80 42 1 fffffffffffffffe 0 -> 2
call 0 0 80 42 1 0 ffffffffffffffc0 -> 2",
    );
}
