//! Ranges over seams: extents of a guest that touch in real pages and may lie
//! apart on the host.

use super::check;
use crate::tables::{Extent, Guest, HostOffset, RealAddress, PAGE_SIZE};

/// Real page 0 on host page 1, real page 1 on host page 0; two cpus.
const TURNED: &str = "image 11 240 0000000 0001 0001 0000001 0001 0000 0 -> 0
call 0 0 ff 0 1 1 -> 0
call 0 0 ff 0 200 1 -> 0\n";

/// The same two host pages in their own order, as one extent.
const IN_ORDER: &str = "image 11 120 0000000 0002 0000 -> 0\n";

fn check_turned(script: &str) {
    check(&format!("{TURNED}{script}"));
}

/// One store for each word from an address on.
fn stores(address: u64, words: &[u64]) -> String {
    let lines = (address..).step_by(8).zip(words);
    lines
        .map(|(at, word)| format!("store 0 {at:x} {word:x} -> 0\n"))
        .collect()
}

#[test]
fn ranges_over_touching_extents_are_valid() {
    check_turned(
        "call 0 0 80 32 0 4000 -> 0 4000 0 0 0
call 0 0 80 32 2000 2000 -> 0 2000 0 0 0
call 0 0 80 32 0 6000 -> 2
call 0 0 80 32 2000 4000 -> 2
call 0 0 80 31 0 6000 -> 2
call 0 0 80 14 3c 0 100 -> 0
call 0 0 80 15 3c -> 0 0 100 0 0
call 0 0 80 14 3c 4000 2 -> 2
call 0 0 80 102 1e40 -> 0
call 0 0 80 103 -> 0 1e40 0 0 0
call 0 0 80 102 1fc0 -> 0 1e40 0 0 0
call 0 0 80 102 3e00 -> 0 1fc0 0 0 0
call 0 0 80 102 3e40 -> 2
call 0 0 80 103 -> 0
call 0 0 80 42 2 3ffe 0 -> 2
call 0 0 80 42 1 3ffe 0 -> 6
call 0 0 80 20 1 3fe8 -> 2
call 0 0 80 20 1 3fe0 -> 4",
    );
}

#[test]
fn a_range_over_a_gap_is_not_valid() {
    // Real pages 0 and 2.
    check(
        "image 11 240 0000000 0001 0001 0000002 0001 0000 0 -> 0
call 0 0 ff 0 1 1 -> 0
call 0 0 80 32 0 2000 -> 0 2000 0 0 0
call 0 0 80 32 0 4000 -> 2
call 0 0 80 32 0 6000 -> 2
call 0 0 80 32 4000 2000 -> 0 2000 0 0 0
store 0 0 1 -> 0
store 0 4000 2 -> 0
call 0 0 80 31 0 6000 -> 2
load 0 0 -> 0 1 0 0 0
load 0 4000 -> 0 2 0 0 0",
    );
}

#[test]
fn a_range_that_passes_the_last_address_is_not_valid() {
    check_turned(
        "call 0 0 80 32 0 ffffffffffffe000 -> 2
call 0 0 80 32 2000 ffffffffffffe000 -> 2
call 0 0 80 32 2000 fffffffffffffffe -> 8
call 0 0 80 32 ffffffffffffe000 2000 -> 2
call 0 0 80 32 ffffffffffffe000 4000 -> 2
call 0 0 80 102 ffffffffffffff00 -> 2
call 0 0 80 42 2 fffffffffffffffe 0 -> 2
call 0 0 80 20 1 fffffffffffffff0 -> 2",
    );
}

#[test]
fn a_scrub_follows_the_seam() {
    // Guest 0 has host pages 2 and 0, guest 1 has 1 and 3.
    check(
        "image 12 140 0000000 0001 0002 0000001 0001 0000 140 0000000 0001 0001 0000001 0001 0003 -> 0
call 0 0 ff 0 1 1 -> 0
store 0 0 1 -> 0
store 0 1ff8 2 -> 0
store 0 2000 3 -> 0
store 0 3ff8 4 -> 0
store 1 0 5 -> 0
store 1 1ff8 6 -> 0
store 1 2000 7 -> 0
store 1 3ff8 8 -> 0
call 0 0 80 31 0 4000 -> 0 4000 0 0 0
load 0 0 -> 0
load 0 1ff8 -> 0
load 0 2000 -> 0
load 0 3ff8 -> 0
load 1 0 -> 0 5 0 0 0
load 1 1ff8 -> 0 6 0 0 0
load 1 2000 -> 0 7 0 0 0
load 1 3ff8 -> 0 8 0 0 0",
    );
}

#[test]
fn a_list_is_marked_where_it_lies() {
    // Cpu 1 takes three of four: two before the seam, one behind it.
    check_turned(&format!(
        "call 0 1 80 14 3c 100 4 -> 0
store 0 1000 77 -> 0
store 0 1ff8 5555555500010001 -> 0
store 0 2000 0001000166666666 -> 0
store 0 3ff8 8888888888888888 -> 0
store 0 0 9999999999999999 -> 0
call 0 0 80 42 4 1ffc 1000 -> 9
load 0 1ff8 -> 0 55555555ffffffff 0 0 0
load 0 2000 -> 0 ffff000166666666 0 0 0
load 0 3ff8 -> 0 8888888888888888 0 0 0
load 0 0 -> 0 9999999999999999 0 0 0
load 0 180 -> 0 77 0 0 0
{IN_ORDER}load 0 3ff8 -> 0 55555555ffffffff 0 0 0
load 0 0 -> 0 ffff000166666666 0 0 0"
    ));
    // Cpu 2 has no ring: the entry before the seam is the first of the list.
    check(
        "image 11 340 0000000 0001 0001 0000001 0001 0000 0 -> 0
call 0 0 ff 0 1 1 -> 0
call 0 1 80 14 3c 100 2 -> 0
store 0 1ff8 1 -> 0
store 0 2000 0002000000000000 -> 0
call 0 0 80 42 2 1ffe 1000 -> 9
load 0 1ff8 -> 0 ffff 0 0 0
load 0 2000 -> 0 2000000000000 0 0 0",
    );
    // What is read behind the seam decides.
    for (entry, status) in [("0000", 6), ("0002", 1), ("0001", 9)] {
        check_turned(&format!(
            "store 0 1ff8 1 -> 0\nstore 0 2000 {entry}000000000000 -> 0
call 0 0 80 42 2 1ffe 1000 -> {status}"
        ));
    }
}

#[test]
fn descriptors_are_read_over_the_seam() {
    let sound = [0x0000_0001_0000_0200, 1, 0x2000, 0];
    for before in 1..4 {
        let pointer = 0x2000 - 8 * before;
        let script = stores(pointer, &sound);
        check_turned(&format!("{script}call 0 0 80 20 1 {pointer:x} -> 0"));
        // Each word on its own, on whichever side it is.
        for (place, word, status) in [
            (0, 0x0000_0002_0000_0200, 5),
            (1, 4, 4),
            (1, 1 << 32 | 1, 6),
            (2, 0x2010, 8),
            (2, 0x4000, 2),
        ] {
            let mut words = sound;
            words[place] = word;
            let script = stores(pointer, &words);
            check_turned(&format!("{script}call 0 0 80 21 1 {pointer:x} -> {status}"));
        }
    }
}

#[test]
fn a_tsb_may_lie_over_the_seam() {
    let two_pages = stores(0x100, &[0x0000_0001_0000_0400, 1, 0]);
    check_turned(&format!("{two_pages}call 0 0 80 20 1 100 -> 0"));
    let behind = stores(0x100, &[0x0000_0001_0000_0400, 1, 0x4000]);
    check_turned(&format!("{behind}call 0 0 80 20 1 100 -> 2"));
    let four_pages = stores(0x100, &[0x0000_0001_0000_0800, 1, 0]);
    check_turned(&format!("{four_pages}call 0 0 80 20 1 100 -> 2"));
}

/// Two cpus, a source, and the four pages turned: a ring at 0 lies on host
/// pages 3 and 2.
const FOUR_TURNED: &str = "image 11 281 0000000 0001 0003 0000001 0001 0002 \
0000002 0001 0001 0000003 0001 0000 0000100 0b -> 0
call 0 0 ff 0 1 1 -> 0
call 0 0 ff 0 2 2 -> 0\n";

#[test]
fn mondos_go_into_both_halves_of_a_ring_over_the_seam() {
    let list = stores(0x5000, &[0x0001_0001_0001_0001; 16]);
    let script = format!(
        "{FOUR_TURNED}call 0 1 80 14 3c 0 100 -> 0
store 0 4000 abc -> 0
{list}call 0 0 80 42 40 5000 4000 -> 0
{list}call 0 0 80 42 3f 5000 4000 -> 0
load 0 1fc0 -> 0
load 0 2000 -> 0
{list}call 0 0 80 42 1 5000 4000 -> 0
load 0 1fc0 -> 0 abc 0 0 0
load 0 2000 -> 0
{list}call 0 0 80 42 1 5000 4000 -> 0
load 0 2000 -> 0 abc 0 0 0
image 11 120 0000000 0004 0000 -> 0
load 0 7fc0 -> 0 abc 0 0 0
load 0 4000 -> 0 abc 0 0 0
load 0 4040 -> 0"
    );
    check(&script);
}

#[test]
fn raises_go_into_both_halves_of_a_ring_over_the_seam() {
    let again = "call 0 0 80 ac 100 5 0 -> 0\nraise 100 5 -> 0 2 0 0 0\n";
    let script = format!(
        "{FOUR_TURNED}call 0 0 80 14 3d 0 100 -> 0
call 0 0 80 a8 100 5 c00 -> 0
call 0 0 80 ae 100 5 0 -> 0
call 0 0 80 aa 100 5 1 -> 0
{}load 0 1fc0 -> 0
{again}load 0 1fc0 -> 0 c00 0 0 0
load 0 2000 -> 0
{again}load 0 2000 -> 0 c00 0 0 0
load 0 4000 -> 0
image 11 120 0000000 0004 0000 -> 0
load 0 7fc0 -> 0 c00 0 0 0
load 0 4000 -> 0 c00 0 0 0
load 0 2000 -> 0",
        again.repeat(127)
    );
    check(&script);
}

// Validity against every byte by itself.

fn guest_over(extents: &[Extent]) -> Guest {
    Guest::new(1, extents.to_vec(), Vec::new())
}

fn extent(real_page: u64, pages: u64, host_page: u64) -> Extent {
    Extent {
        real_page,
        pages,
        host_page,
    }
}

/// The first extent that has the byte, and where it is on the host.
fn byte_place(extents: &[Extent], address: u64) -> Option<u64> {
    let e = extents
        .iter()
        .find(|e| (e.real_page..e.real_page + e.pages).contains(&(address / PAGE_SIZE)))?;
    Some((e.host_page + address / PAGE_SIZE - e.real_page) * PAGE_SIZE + address % PAGE_SIZE)
}

/// Validity is that each byte lies in some extent.
fn compare(extents: &[Extent], start: u64, length: u64) -> bool {
    let guest = guest_over(extents);
    let every = (start..start + length).all(|at| byte_place(extents, at).is_some());
    let valid = guest.is_valid(RealAddress(start), length);
    assert_eq!(valid, every, "{extents:?}: {start:x}, {length:x}");
    valid
}

/// The pieces are the bytes, each where it lies.
fn compare_places(extents: &[Extent], start: u64, length: u64) {
    let guest = guest_over(extents);
    let pieces = guest.pieces(RealAddress(start), length);
    let places: Vec<usize> = pieces.flat_map(|piece| piece.bytes()).collect();
    let bytes = (start..start + length).map(|at| byte_place(extents, at));
    let bytes: Vec<usize> = bytes.map_while(|place| Some(place? as usize)).collect();
    assert_eq!(places, bytes, "{extents:?}: {start:x}, {length:x}");
    let first = guest.place(RealAddress(start)).map(|HostOffset(at)| at);
    assert_eq!(first, byte_place(extents, start).map(|at| at as usize));
}

/// A number below the limit, the same in every run.
fn below(state: &mut u64, limit: u64) -> u64 {
    *state = state
        .wrapping_mul(0x5851_f42d_4c95_7f2d)
        .wrapping_add(0x1405_7b7e_f767_814f);
    (*state >> 33) % limit
}

/// Up to seven extents among the first real pages, in any order; they may
/// overlap, as those of no image do.
fn any_extents(state: &mut u64) -> Vec<Extent> {
    let count = 1 + below(state, 7);
    let any = |i| {
        extent(
            below(state, 9),
            1 + below(state, 3),
            20 * i + below(state, 9),
        )
    };
    (0..count).map(any).collect()
}

/// The same in ascending order, most of them touching.
fn sound_extents(state: &mut u64) -> Vec<Extent> {
    let mut page = below(state, 3);
    let mut extents = Vec::new();
    for i in 0..1 + below(state, 7) {
        page += below(state, 4) / 3;
        let pages = 1 + below(state, 2);
        extents.push(extent(page, pages, (5 * i + 3) % 7 * 4));
        page += pages;
    }
    extents
}

#[test]
fn a_range_is_valid_if_each_byte_lies_in_some_extent() {
    let state = &mut 1;
    let mut counts = [0; 2];
    for round in 0..6000 {
        let extents = match round % 2 {
            0 => any_extents(state),
            _ => sound_extents(state),
        };
        // Around a page border; short, or of some pages and a little.
        let border = PAGE_SIZE * (1 + below(state, 10));
        let start = border - 3 + below(state, 6);
        let length = match round % 100 {
            0..10 => PAGE_SIZE * below(state, 6) + below(state, 6),
            _ => below(state, 40),
        };
        counts[usize::from(compare(&extents, start, length))] += 1;
        if round % 2 == 1 {
            compare_places(&extents, start, length);
        }
    }
    assert!(counts[0] > 500 && counts[1] > 500, "{counts:?}");
}

#[test]
fn lengths_up_to_the_end_of_all_numbers() {
    let top = (1 << 28) - 3;
    let extents = [
        extent(0, 1, 1),
        extent(1, 2, 4),
        extent(top, 1, 0),
        extent(top + 1, 2, 2),
    ];
    let guest = guest_over(&extents);
    let valid = |start, length| guest.is_valid(RealAddress(start), length);
    let ends = [(0, 3 * PAGE_SIZE), (top * PAGE_SIZE, 3 * PAGE_SIZE)];
    for (start, size) in ends {
        assert!(valid(start, size) && valid(start + 8, size - 8));
        assert!(valid(start + size - 1, 1) && !valid(start + size, 1));
        assert!(!valid(start, size + 1) && !valid(start + 1, size));
        // Lengths that lead past 2^64 and back, to each word before the start.
        for at in [start, start + 1, start + PAGE_SIZE, start + size - 1] {
            for back in (1..4 * PAGE_SIZE).step_by(8) {
                assert!(!valid(at, 0u64.wrapping_sub(back)));
                assert!(!valid(at, (1 << 63) - back) && !valid(at, (1 << 32) - back));
            }
        }
    }
    for back in 1..100 {
        let start = 0u64.wrapping_sub(back);
        for length in [1, back, back + 1, back + PAGE_SIZE, u64::MAX] {
            assert!(!valid(start, length), "{start:x}, {length:x}");
        }
    }
}

#[test]
fn seven_in_a_row() {
    // Host pages of every order; any start and any end among the pages.
    for hosts in [
        [0, 1, 2, 3, 4, 5, 6],
        [6, 5, 4, 3, 2, 1, 0],
        [3, 0, 6, 1, 5, 2, 4],
    ] {
        let extents: Vec<Extent> = (4..)
            .zip(hosts)
            .map(|(real, host)| extent(real, 1, host))
            .collect();
        for from in 3..12 {
            for to in from + 1..13 {
                let inside = from >= 4 && to <= 11;
                let (start, length) = (PAGE_SIZE * from, PAGE_SIZE * (to - from));
                let guest = guest_over(&extents);
                assert_eq!(guest.is_valid(RealAddress(start), length), inside);
                let pieces = guest.pieces(RealAddress(start), length);
                let pages: Vec<u64> = pieces.map(|p| p.at.0 as u64 / PAGE_SIZE).collect();
                if inside {
                    let (from, to) = (from as usize - 4, to as usize - 4);
                    assert_eq!(pages, hosts[from..to]);
                }
            }
        }
    }
}
