//! Targets: cpu 0 at first, and then as they were set. Only a raise delivers.

use super::{check, check_prepared, IMAGE};

#[test]
fn a_source_goes_to_cpu_0_at_first() {
    check_prepared(
        "call 0 0 80 14 3d 80 2 -> 0
call 0 0 80 a8 100 5 800 -> 0
raise 100 5 -> 0 1 0 0 0
call 0 0 80 ac 100 5 0 -> 0
call 0 0 80 aa 100 5 1 -> 0
raise 100 5 -> 0 2 0 0 0
load 0 80 -> 0 800 0 0 0
call 0 0 80 ad 100 5 -> 0 0 0 0 0
call 0 0 80 ae 100 5 1 -> 0
call 0 0 80 ac 100 5 0 -> 0
raise 100 5 -> 0 1 0 0 0
call 0 0 80 ae 100 5 2 -> 1
call 0 0 80 ad 100 5 -> 0 1 0 0 0",
    );
    // The other guest, at 1.0.
    check(&format!(
        "{IMAGE}call 1 0 ff 0 1 1 -> 0
call 1 0 ff 0 2 1 -> 0
call 1 0 80 a2 0 1 -> 0
raise 200 5 -> 0 1 0 0 0
call 1 0 80 14 3d 80 2 -> 0
raise 200 5 -> 0 2 0 0 0
call 1 0 80 a5 0 -> 0 0 0 0 0"
    ));
}

#[test]
fn a_new_image_has_the_first_target() {
    let moved = "call 0 0 ff 0 2 1 -> 0
call 0 0 80 a5 0 -> 0 0 0 0 0
call 0 0 80 a6 0 1 -> 0
call 0 0 80 a5 0 -> 0 1 0 0 0\n";
    check(&format!("{IMAGE}{moved}{IMAGE}{moved}"));
}

#[test]
fn a_target_moves_off_cpu_0_and_back() {
    check_prepared(
        "call 0 0 80 14 3d 80 2 -> 0
call 0 1 80 14 3d 100 2 -> 0
call 0 0 80 a8 100 5 800 -> 0
call 0 0 80 aa 100 5 1 -> 0
call 0 0 80 ae 100 5 1 -> 0
raise 100 5 -> 0 2 0 0 0
head 0 0 3d 40 -> 6
head 0 1 3d 40 -> 0
call 0 1 80 ae 100 5 0 -> 0
call 0 1 80 ac 100 5 0 -> 0
raise 100 5 -> 0 2 0 0 0
head 0 1 3d 0 -> 6
head 0 0 3d 40 -> 0",
    );
}

#[test]
fn going_to_2_0_leaves_the_target() {
    check(&format!(
        "{IMAGE}call 0 0 ff 0 1 1 -> 0
call 0 0 ff 0 2 1 -> 0
call 0 1 80 14 3d 80 2 -> 0
call 0 0 80 a6 0 1 -> 0
call 0 0 80 a2 0 1 -> 0
call 0 0 ff 0 2 2 -> 0
raise 100 5 -> 0 1 0 0 0
call 0 0 80 ad 100 5 -> 0 1 0 0 0
call 0 0 80 a8 100 5 800 -> 0
call 0 0 80 aa 100 5 1 -> 0
raise 100 5 -> 0 2 0 0 0
head 0 1 3d 40 -> 0"
    ));
}

#[test]
fn only_a_raise_delivers() {
    // Enabled last, then a ring for the target, then a target with a ring.
    check_prepared(
        "call 0 0 80 14 3d 80 2 -> 0
call 0 0 80 a8 100 5 800 -> 0
raise 100 5 -> 0 1 0 0 0
call 0 0 80 aa 100 5 1 -> 0
call 0 0 80 ab 100 5 -> 0 1 0 0 0
head 0 0 3d 40 -> 6
call 0 0 80 ae 100 5 1 -> 0
raise 100 5 -> 0 1 0 0 0
call 0 1 80 14 3d 100 2 -> 0
call 0 0 80 ab 100 5 -> 0 1 0 0 0
head 0 1 3d 40 -> 6
call 0 0 80 ae 100 5 0 -> 0
call 0 0 80 a9 100 5 -> 0 1 0 0 0
call 0 0 80 ab 100 5 -> 0 1 0 0 0
head 0 0 3d 40 -> 6
raise 100 5 -> 0 2 0 0 0
head 0 0 3d 40 -> 0",
    );
}
