//! Sessions for measuring speed: a cycle of lines again and again, in which
//! every raise and every mondo is really delivered.

mod images;

pub use images::write_images;

use std::io::{self, Write};

/// A session: how its guest lies in memory, and a cycle's lines by its number.
pub struct Kind {
    layout: Layout,
    cycle: fn(u64) -> String,
}

/// The guest's counts and extents in the image, and what fills its last byte;
/// its device ring; the entries and base of the TSB descriptor at 400.
struct Layout {
    extents: &'static str,
    fill: &'static str,
    devices: u64,
    tsb: [u64; 2],
}

/// Four pages in one extent.
const PLAIN: Layout = Layout {
    extents: "530 0000000 0004 0000",
    fill: "",
    devices: 0x6000,
    tsb: [512, 0x6000],
};

/// Four extents that touch in real pages, on host pages 2, 0, 3 and 1. The TSB
/// lies over the seam at 6000, and so do other ranges of the session.
const TOUCHING: Layout = Layout {
    extents: "590 0000000 0001 0002 0000001 0001 0000 0000002 0001 0003 0000003 0001 0001",
    fill: " 0",
    devices: 0x7000,
    tsb: [1024, 0x4000],
};

const SOURCES: u64 = 16;
/// Each takes a mondo of every send; cpu 0 sends.
const RECEIVERS: u64 = 4;
const RING: u64 = 64;
/// Every row once for each cpu, of which the last has no buffer.
const HITS: u64 = 16 * (RECEIVERS + 1);
const ENTRY: u64 = 64;

/// Hits of which the side, the context or the page index is none.
pub const HITS_REFUSED: [&str; 3] = ["hit 0 0 2 1 3 7", "hit 0 1 1 2 3 7", "hit 0 4 1 1 4 7"];

/// The send that is left and sent again, known by its data.
pub const SENT_TWICE: &str = "call 0 0 80 42 4 0 240";

pub fn kind(name: &str) -> Option<Kind> {
    let (layout, cycle): (_, fn(u64) -> String) = match name {
        "mix" => (PLAIN, mix),
        "raise" => (PLAIN, raises),
        "mondo" => (PLAIN, mondos),
        "seams" => (TOUCHING, seams),
        "hit" => (TOUCHING, hits),
        _ => return None,
    };
    Some(Kind { layout, cycle })
}

pub fn write_session(kind: &Kind, lines: u64, output: &mut impl Write) -> io::Result<()> {
    let mut left = lines;
    write_lines(&opening(&kind.layout), &mut left, output)?;
    for number in 0.. {
        if left == 0 {
            break;
        }
        write_lines(&(kind.cycle)(number), &mut left, output)?;
    }
    Ok(())
}

fn write_lines(text: &str, left: &mut u64, output: &mut impl Write) -> io::Result<()> {
    for line in text.lines().take(*left as usize) {
        writeln!(output, "{line}")?;
        *left -= 1;
    }
    Ok(())
}

/// One guest of five cpus, four pages and sixteen sources that are enabled
/// and go to cpu 0; its device ring and a mondo ring for each receiver.
fn opening(layout: &Layout) -> String {
    let mut text = format!("image 11 {}", layout.extents);
    for source in 0..SOURCES {
        text += &format!(" {:07x} 0b", 0x100 + source);
    }
    text += layout.fill;
    text += "\ncall 0 0 ff 0 1 1\ncall 0 0 ff 0 2 2\ncall 0 0 ff 0 200 1\n";
    text += &format!("call 0 0 80 14 3d {:x} {RING:x}\n", layout.devices);
    for cpu in 1..=RECEIVERS {
        text += &format!("call 0 {cpu} 80 14 3c {:x} {RING:x}\n", ENTRY * RING * cpu);
    }
    for source in 0x100..0x100 + SOURCES {
        text += &format!("call 0 0 80 a8 {source:x} 5 {:x}\n", 0x800 + source);
        text += &format!("call 0 0 80 ae {source:x} 5 0\n");
        text += &format!("call 0 0 80 aa {source:x} 5 1\n");
    }
    let [entries, base] = layout.tsb;
    text + &format!("store 0 400 00000001{entries:08x}\nstore 0 408 1\nstore 0 410 {base:x}\n")
}

/// The head behind the entries of this many cycles.
fn head_after(entries: u64) -> u64 {
    entries * ENTRY % (RING * ENTRY)
}

/// Every source once, one head write that passes them, every source idle.
fn raises(number: u64) -> String {
    let mut text = String::new();
    for source in 0x100..0x100 + SOURCES {
        text += &format!("raise {source:x} 5\n");
    }
    text += &format!("head 0 0 3d {:x}\n", head_after((number + 1) * SOURCES));
    for source in 0x100..0x100 + SOURCES {
        text += &format!("call 0 0 80 ac {source:x} 5 0\n");
    }
    text
}

/// Sends to four cpus until their rings are full; the list is stored again
/// before each, since a send marks it. Then one more for which two of them have
/// room, and which is sent again when the others have it. Its entries stay, so
/// the rings are full after a send less; in the first cycle they are not.
fn mondos(number: u64) -> String {
    let store = "store 0 0 0001000200030004\n";
    let sends = RING - 2;
    let mut text = String::new();
    for send in 0..sends {
        text += store;
        text += &format!("call 0 0 80 42 4 0 {:x}\n", 0x40 + ENTRY * (send % 8));
    }
    let head = head_after(number * (sends + 1) + sends);
    text + &format!(
        "head 0 1 3c {head:x}\nhead 0 2 3c {head:x}\n{store}{SENT_TWICE}
head 0 3 3c {head:x}\nhead 0 4 3c {head:x}\n{SENT_TWICE}\n"
    )
}

/// Hits in buffers of four cpus, two of them over seams, and on one without an
/// address, each row in its turn; then three that are refused, and a look at two
/// words. The buffers move in each cycle.
fn hits(number: u64) -> String {
    let off = ENTRY * (number % 8);
    let buffers = [0x400, 0x1e00, 0x3e00, 0x6800].map(|base| base + off);
    let mut text = String::new();
    for (cpu, buffer) in buffers.iter().enumerate() {
        text += &format!("call 0 {cpu} 80 102 {buffer:x}\n");
    }
    for hit in 0..HITS {
        let (side, context) = (hit / 4 % 2, hit / 8 % 2);
        let index = [0, 1, 3, 5][hit as usize % 4];
        let ticks = 0x10 + (number + hit) % 0x400;
        let cpu = hit / 16 % (RECEIVERS + 1);
        text += &format!("hit 0 {cpu} {side} {context} {index} {ticks:x}\n");
    }
    let read = buffers[number as usize % 4] + 0x10 * (number % 32);
    let refused = HITS_REFUSED.join("\n");
    text + &format!("{refused}\nload 0 {read:x}\nload 0 {:x}\n", read + 8)
}

/// Where the ranges of a mix lie.
struct Ranges {
    ring: &'static str,
    statistics: u64,
    /// The stores that write the list 1, 2, 3, 4, and where it begins.
    stores: &'static str,
    list: u64,
    devices: u64,
}

/// Each in one extent.
fn mix(number: u64) -> String {
    let ranges = Ranges {
        ring: "5000 20",
        statistics: 0x800,
        stores: "store 0 0 0001000200030004",
        list: 0,
        devices: PLAIN.devices,
    };
    every_call(number, &ranges)
}

/// A ring, the statistics and the list over the seam at 6000; the sync over all.
fn seams(number: u64) -> String {
    let ranges = Ranges {
        ring: "4000 100",
        statistics: 0x5e40,
        stores: "store 0 5ff8 00010002\nstore 0 6000 0003000400000000",
        list: 0x5ffc,
        devices: TOUCHING.devices,
    };
    every_call(number, &ranges)
}

/// Every call once or more, with a raise, a mondo and two refusals.
fn every_call(number: u64, ranges: &Ranges) -> String {
    let source = 0x100 + number % SOURCES;
    let next = head_after(number + 1);
    let Ranges { ring, stores, .. } = ranges;
    format!(
        "call 0 0 ff 0 1 1\ncall 0 0 ff 3 2\ncall 0 0 80 16\ncall 0 0 80 15 3d
call 0 0 80 14 3e {ring}\nhead 0 0 3e 0\ncall 0 0 80 20 1 400\ncall 0 0 80 21 0
call 0 0 80 32 0 8000\ncall 0 0 80 102 {:x}\ncall 0 0 80 103\nraise {source:x} 5
load 0 {:x}\nhead 0 0 3d {next:x}\ncall 0 0 80 ab {source:x} 5\ncall 0 0 80 ac {source:x} 5 0
call 0 0 80 a7 {source:x} 5\ncall 0 0 80 a8 {source:x} 5 {:x}\ncall 0 0 80 a9 {source:x} 5
call 0 0 80 aa {source:x} 5 1\ncall 0 0 80 ad {source:x} 5\ncall 0 0 80 ae {source:x} 5 0
{stores}\nstore 0 40 {number:x}\ncall 0 0 80 42 4 {:x} 40\nload 0 {:x}
head 0 1 3c {next:x}\nhead 0 2 3c {next:x}\nhead 0 3 3c {next:x}\nhead 0 4 3c {next:x}
call 0 0 80 a8 200 5 800\ncall 0 0 80 14 3c 40 2\n",
        ranges.statistics,
        ranges.devices + head_after(number),
        0x900 + number % 256,
        ranges.list,
        ranges.list & !7,
    )
}
