//! The readings of the session's text.

use super::{answers, check, check_prepared};

fn one(line: &[u8]) -> String {
    let answers = answers(line);
    assert_eq!(answers.len(), 1, "{line:?}");
    answers[0].clone()
}

#[test]
fn ends_of_lines() {
    assert!(answers(b"").is_empty());
    assert_eq!(answers(b"\n"), ["bad"]);
    assert_eq!(answers(b"\n\nload 0 0"), ["bad", "bad", "67 0 0 0 0"]);
    assert_eq!(answers(b"image\n\nimage\n"), ["6e 0 0", "bad", "6e 0 0"]);
    assert_eq!(answers(b"image\r\nimage"), ["bad", "6e 0 0"]);
}

#[test]
fn lengths_of_lines() {
    let mut line = b"image".to_vec();
    line.resize(2048, b' ');
    assert_eq!(one(&line), "6e 0 0");
    line.push(b'\n');
    assert_eq!(one(&line), "6e 0 0");
    line.insert(5, b' ');
    assert_eq!(one(&line), "bad");
    line.pop();
    assert_eq!(one(&line), "bad");
    line.resize(1_000_000, b' ');
    assert_eq!(one(&line), "bad");
    line.extend_from_slice(b"\nload 0 0");
    assert_eq!(answers(&line), ["bad", "67 0 0 0 0"]);
}

#[test]
fn statuses_print_as_hex() {
    check("call 0 0 ff 0 -> 67\nraise 0 0 -> 68\nimage -> 6e\nimage 00 -> 6f");
    check_prepared("call 0 0 ff 0 1 2 -> d");
}

#[test]
fn image_lines() {
    check(
        "image -> 6e
image     -> 6e
image12 -> bad
image1 -> bad
images -> bad
Image 11 -> bad
 image 11 -> bad
image 1 -> bad
image 1 1 1 -> bad
image  1 1  1 2  -> 6e
image 11\t12 -> bad
image 0x11 -> bad
image 1g -> bad",
    );
    assert_eq!(one(b"image 11\r\n"), "bad");
    assert_eq!(one(b"image 11\0"), "bad");
    assert_eq!(one(b"image\t11"), "bad");
    assert_eq!(one(b"image\xa011"), "bad");
}

#[test]
fn refused_image_loses_tables_and_keeps_memory() {
    check_prepared(
        "store 0 8 1234 -> 0
image 1 -> bad
load 0 8 -> 0 1234 0 0 0
image 00 -> 6f
load 0 8 -> 67
raise 100 5 -> 68
image 11 120 0000000 0001 0000 -> 0
load 0 8 -> 0 1234 0 0 0
call 0 0 80 16 -> 7",
    );
}

#[test]
fn spaces_and_words() {
    check_prepared(
        " load 0 0 -> bad
load 0 0  -> bad
load  0 0 -> bad
load\t0 0 -> bad
load 0\t0 -> bad
Load 0 0 -> bad
LOAD 0 0 -> bad
load,0 0 -> bad
lode 0 0 -> bad
load 0 0 -> 0
Hit 0 0 0 0 0 0 -> bad
HIT 0 0 0 0 0 0 -> bad
hits 0 0 0 0 0 0 -> bad
hi 0 0 0 0 0 0 -> bad
hit0 0 0 0 0 0 0 -> bad
hit 0 0 0  0 0 0 -> bad
 hit 0 0 0 0 0 0 -> bad
hit 0 0 0 0 0 0  -> bad
hit\t0 0 0 0 0 0 -> bad
hit 0 0 0 0 0 0 -> 0",
    );
    for line in [
        b"load 0 0\r".as_slice(),
        b"load 0 0\0",
        b"\0load 0 0",
        b"load 0 \xff",
        b"load 0 \xc2\xa0",
    ] {
        assert_eq!(one(line), "bad");
    }
}

#[test]
fn fields() {
    check_prepared(
        "load 0 0000000000000000 -> 0
load 0 00000000000000000 -> bad
load 00000000000000000 0 -> bad
load 0 0x0 -> bad
load 0 +0 -> bad
load 0 -0 -> bad
load 0 g -> bad
store 0 0 aBcDeF -> 0
load 0 0 -> 0 abcdef 0 0 0
store 0 0 FFFFFFFFFFFFFFFF -> 0
load 0 0 -> 0 ffffffffffffffff 0 0 0
hit 0 0 0 0 0 FFFFFFFFFFFFFFFF -> 0
hit 0 0 0 0 0 00000000000000000 -> bad
hit 0 0 0 0 00000000000000000 0 -> bad
hit 0 0 0 0 5 0x5 -> bad
hit 0 0 g 0 0 0 -> bad
hit 0 0 0 -1 0 0 -> bad",
    );
}

#[test]
fn numbers_of_fields() {
    check_prepared(
        "call -> bad
call 0 0 80 -> bad
call 0 0 80 16 -> 0
call 0 0 80 16 1 2 3 4 5 -> 0
call 0 0 80 16 1 2 3 4 5 6 -> bad
head 0 0 3c -> bad
head 0 0 3c 0 -> 6
head 0 0 3c 0 0 -> bad
raise 100 -> bad
raise 100 5 -> 0 1 0 0 0
raise 100 5 0 -> bad
load 0 -> bad
load 0 0 0 -> bad
store 0 0 -> bad
store 0 0 0 -> 0
store 0 0 0 0 -> bad
hit -> bad
hit 0 -> bad
hit 0 0 -> bad
hit 0 0 0 -> bad
hit 0 0 0 0 -> bad
hit 0 0 0 0 0 -> bad
hit 0 0 0 0 0 0 -> 0
hit 0 0 0 0 0 0 0 -> bad
hit 0 0 0 0 0 0 0 0 0 0 -> bad",
    );
}
