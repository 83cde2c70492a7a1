//! Writing an image from tables: the statuses, the buffer, and that nothing of
//! what guests configured is written.

use super::{each_event, IMAGE, VERSIONS};
use crate::coverage::generated;
use crate::generate;
use crate::image::load;
use crate::model::{Host, Status};
use crate::session::{answer_line, parse, Line};
use crate::tables::{Extent, Guest, Source, Tables};
use crate::write::{write, ROOM};
use std::collections::BTreeSet;

/// The paper's two guests.
const WORKED: &str = "1222100000000001000000001000b12100000000001000100002000b";

fn bytes(digits: &str) -> Vec<u8> {
    match parse(format!("image {digits}").as_bytes()) {
        Some(Line::Image(image)) => image,
        _ => panic!("no image: {digits}"),
    }
}

fn tables(digits: &str) -> Tables {
    load(&bytes(digits)).expect("an image that is accepted")
}

/// Two extents, so that half of the last byte is fill.
fn two_extents() -> Tables {
    tables("11 140 0000000 0001 0000 0000001 0001 0001 0")
}

fn with_extent(real_page: u64, pages: u64, host_page: u64) -> Tables {
    let extent = Extent {
        real_page,
        pages,
        host_page,
    };
    Tables::new(vec![Guest::new(1, vec![extent], Vec::new())])
}

fn with_source(devhandle: u64, devino: u64) -> Tables {
    let mut tables = with_extent(0, 1, 0);
    tables.guests[0].sources = vec![Source::new(devhandle, devino, true)];
    tables
}

/// Writes into a buffer of so many bytes, and shows that a refusal leaves it and
/// that an image leaves the bytes behind it.
fn written(tables: &Tables, room: usize) -> Result<Vec<u8>, Status> {
    let before: Vec<u8> = (0..room).map(|place| 0xff - place as u8).collect();
    let mut out = before.clone();
    let result = write(tables, &mut out);
    let length = result.unwrap_or(0);
    assert_eq!(out[length..], before[length..]);
    result.map(|length| out[..length].to_vec())
}

#[test]
fn the_worked_tables_need_28_bytes() {
    let tables = tables(WORKED);
    for room in 0..28 {
        assert_eq!(written(&tables, room), Err(Status::Room));
    }
    for room in [28, 29, 100, ROOM, 5000] {
        assert_eq!(written(&tables, room), Ok(bytes(WORKED)));
    }
}

#[test]
fn the_statuses_are_tried_in_their_order() {
    let broken = with_extent(0, 0, 0);
    let none = Tables::default();
    let sound = with_extent(0, 1, 0);
    for room in [0, 9, 10, ROOM] {
        assert_eq!(written(&broken, room), Err(Status::Tables));
        assert_eq!(written(&none, room), Err(Status::NoGuest));
    }
    assert_eq!(written(&sound, 9), Err(Status::Room));
    assert_eq!(written(&sound, 10), Ok(bytes("11 120 0000000 0001 0000")));
    let statuses = [Status::Tables, Status::NoGuest, Status::Room];
    assert_eq!(statuses.map(|status| status as u64), [0x65, 0x69, 0x6a]);
}

#[test]
fn the_fill_is_zero_whatever_was_there() {
    let tables = two_extents();
    let image = bytes("11 140 0000000 0001 0000 0000001 0001 0001 0");
    for old in [0x00, 0x0f, 0x5a, 0xff] {
        let mut out = [old; 20];
        assert_eq!(write(&tables, &mut out), Ok(18));
        assert_eq!(out[..18], image);
        assert_eq!(out[18..], [old; 2]);
    }
}

/// No bit of it may be cut, so that what is left would look right.
#[test]
fn a_number_that_is_too_wide_breaks_a_rule() {
    for tables in [
        with_extent(1 << 28, 1, 0),
        with_extent((1 << 28) - 1, 2, 0),
        with_extent(1 << 32, 1, 0),
        with_extent(0, 1 << 16, 0),
        with_extent(0, (1 << 16) + 1, 0),
        with_extent(0, 1, 1 << 16),
        with_extent(0, 2, 0xffff),
        with_source(1 << 28, 5),
        with_source(1 << 28 | 0x100, 5),
        with_source(0x100, 0x80),
        with_source(0x100, 0x85),
        Tables::new(vec![Guest::new(0, Vec::new(), Vec::new())]),
    ] {
        assert_eq!(written(&tables, ROOM), Err(Status::Tables), "{tables:?}");
    }
    for tables in [
        with_extent((1 << 28) - 1, 1, 0),
        with_extent((1 << 28) - 0xffff, 0xffff, 1),
        with_extent(0, 1, 0xffff),
        with_source(0xfff_ffff, 0x7f),
    ] {
        let image = written(&tables, ROOM).expect("sound tables");
        let again = load(&image).expect("an image that is accepted");
        assert_eq!(format!("{again:?}"), format!("{tables:?}"));
    }
}

/// Counts that would fit their fields, or not even those.
#[test]
fn a_count_past_its_limit_breaks_a_rule() {
    let extent = |i: u64| Extent {
        real_page: i,
        pages: 1,
        host_page: i,
    };
    let guest = |number: u64, cpus, extents, sources| {
        let extents = (0..extents).map(|i| extent(20 * number + i)).collect();
        let source = |i| Source::new(100 * number + i, 1, true);
        Guest::new(cpus, extents, (0..sources).map(source).collect())
    };
    let result = |guests: Vec<Guest>| written(&Tables::new(guests), ROOM).map(|image| image.len());
    assert_eq!(result(vec![guest(0, 8, 7, 16)]), Ok(127));
    assert_eq!(
        result((0..4).map(|n| guest(n, 8, 7, 16)).collect()),
        Ok(505)
    );
    assert_eq!(
        result((0..5).map(|n| guest(n, 8, 7, 16)).collect()),
        Err(Status::Tables)
    );
    for (cpus, extents, sources) in [
        (0, 1, 0),
        (9, 1, 0),
        (15, 1, 0),
        (16, 1, 0),
        (17, 1, 0),
        (1, 0, 0),
        (1, 8, 0),
        (1, 9, 0),
        (1, 1, 17),
        (1, 1, 31),
        (1, 1, 33),
    ] {
        let counts = format!("{cpus} {extents} {sources}");
        for place in 0..4 {
            let mut guests: Vec<Guest> = (0..4).map(|n| guest(n, 1, 1, 0)).collect();
            guests[place] = guest(place as u64, cpus, extents, sources);
            assert_eq!(result(guests), Err(Status::Tables), "{counts} at {place}");
        }
    }
}

fn image_of(host: &Host) -> Result<Vec<u8>, Status> {
    written(&host.tables, ROOM)
}

#[test]
fn settings_of_guests_are_not_written() {
    let script = format!(
        "{IMAGE}{VERSIONS}call 0 0 80 14 3d 80 2 -> 0
call 0 0 80 a8 100 5 800 -> 0
call 0 0 80 ae 100 5 1 -> 0
call 0 0 80 aa 100 5 1 -> 0
call 0 0 80 102 40 -> 0
call 0 1 80 14 3c 100 2 -> 0
raise 100 5 -> 0 1 0 0 0\n"
    );
    let mut host = Host::new();
    for line in script.lines() {
        let line = line.split(" -> ").next().unwrap_or("");
        let mut answer = Vec::new();
        answer_line(&mut host, line.as_bytes(), &mut answer);
        assert!(answer.starts_with(b"0 "), "{line}");
        assert_eq!(image_of(&host), Ok(bytes(WORKED)), "{line}");
    }
    let source = &host.tables.guests[0].sources[0];
    assert!(source.enabled && source.cookie == 0x800 && source.target == 1);
}

/// The tables of generated sessions write the image that they came from, after
/// every event.
#[test]
fn a_session_s_tables_write_its_image() {
    let mut seen = BTreeSet::new();
    for seed in 0..3 {
        let text = generated(seed, 10_000).expect("writing to memory");
        let mut image = Err(Status::NoGuest);
        let mut host = Host::new();
        for line in text.split(|&byte| byte == b'\n') {
            let before = image_of(&host);
            answer_line(&mut host, line, &mut Vec::new());
            match parse(line) {
                Some(Line::Image(_)) if host.tables.guests.is_empty() => {
                    image = Err(Status::NoGuest)
                }
                Some(Line::Image(bytes)) => image = Ok(bytes),
                _ => assert_eq!(image_of(&host), before),
            }
            assert_eq!(image_of(&host), image);
        }
        note_settings(&text, &mut seen);
    }
    let all = [
        "cookie",
        "enabled",
        "major",
        "ring",
        "state",
        "statistics",
        "target",
        "tsb",
    ];
    assert_eq!(seen, BTreeSet::from(all));
}

/// What is set at some time, so that it is something not to write it.
fn note_settings(text: &[u8], seen: &mut BTreeSet<&'static str>) {
    use crate::tables::{Group, SourceState};
    each_event(text, |host, event| {
        let _ = host.event(event);
        for guest in &host.tables.guests {
            let cpu = |set: fn(&crate::tables::Cpu) -> bool| guest.cpus.iter().any(set);
            let source = |set: fn(&Source) -> bool| guest.sources.iter().any(set);
            let settings = [
                ("major", guest.major(Group::Interrupts) > 0),
                ("ring", cpu(|cpu| cpu.queues.iter().any(Option::is_some))),
                ("tsb", cpu(|cpu| cpu.tsb_lists[0][0].is_some())),
                ("statistics", cpu(|cpu| cpu.statistics != 0)),
                ("enabled", source(|source| source.enabled)),
                ("state", source(|source| source.state != SourceState::Idle)),
                ("target", source(|source| source.target != 0)),
                ("cookie", source(|source| source.cookie != 0)),
            ];
            seen.extend(
                settings
                    .iter()
                    .filter(|(_, set)| *set)
                    .map(|(name, _)| name),
            );
        }
    });
}

/// The generator packs its images bit by bit, by code of its own.
#[test]
fn tables_of_an_image_write_it_again() {
    let mut text = Vec::new();
    generate::write_images(7, 4000, &mut text).expect("writing to memory");
    let mut lengths = BTreeSet::new();
    for line in text
        .split(|&byte| byte == b'\n')
        .filter(|line| !line.is_empty())
    {
        let Some(Line::Image(image)) = parse(line) else {
            panic!("no image line");
        };
        let tables = load(&image).expect("an image that is accepted");
        assert_eq!(written(&tables, ROOM).as_ref(), Ok(&image));
        assert_eq!(written(&tables, image.len()).as_ref(), Ok(&image));
        assert_eq!(written(&tables, image.len() - 1), Err(Status::Room));
        lengths.insert(image.len());
    }
    assert_eq!(lengths.first(), Some(&10));
    assert_eq!(lengths.last(), Some(&505));
    assert!(lengths.len() > 200, "{} lengths", lengths.len());
}
