//! Random sessions, the same for the same seed.
//!
//! The generator follows its own session with a host, so that it can aim at
//! the bounds of the state that the session has reached.

mod call_steps;
mod hit_steps;
mod image_steps;
mod limit_steps;
mod malformed;
mod memory_steps;
mod partition;
mod plans;
mod queue_steps;
mod random;
mod refusal_steps;
mod resend_steps;
mod seam_steps;
mod source_steps;
mod target_steps;

pub use plans::{write_images, write_plans};

use crate::model::Host;
use crate::session;
use crate::tables::{Guest, HostOffset, RealAddress};
use random::Random;
use std::io::{self, Write};

/// Numbers that sit at the edges of some width or limit.
const EDGE_NUMBERS: [u64; 24] = [
    0,
    1,
    2,
    3,
    4,
    5,
    7,
    8,
    16,
    63,
    64,
    65,
    0x3c,
    0x80,
    0x100,
    0x200,
    0x2000,
    0xffff,
    1 << 16,
    1 << 28,
    1 << 32,
    1 << 63,
    u64::MAX - 7,
    u64::MAX,
];

type Step = fn(&mut Generator);

/// What happens on a sound partition, and how often.
const STEPS: [(u64, Step); 23] = [
    (7, Generator::mondo_step),
    (8, Generator::resend_step),
    (14, Generator::head_step),
    (6, Generator::configure_step),
    (3, Generator::queue_information_step),
    (1, Generator::cpuid_step),
    (17, Generator::source_step),
    (18, Generator::raise_step),
    (3, Generator::target_step),
    (2, Generator::tsb_step),
    (4, Generator::statistics_step),
    (8, Generator::hit_step),
    (2, Generator::scrub_step),
    (8, Generator::word_step),
    (1, Generator::sweep_step),
    (3, Generator::version_step),
    (4, Generator::unknown_step),
    (2, Generator::any_call_step),
    (8, Generator::refusal_step),
    (15, Generator::seam_step),
    (1, Generator::upgrade_step),
    (1, Generator::long_ring_step),
    (5, Generator::malformed_step),
];

pub fn write_session(seed: u64, lines: u64, output: &mut impl Write) -> io::Result<()> {
    let mut generator = Generator::new(seed, lines);
    while generator.lines_left > 0 {
        generator.era();
        if generator.lines_left == 0 {
            generator.end();
        }
        output.write_all(&generator.text)?;
        generator.text.clear();
    }
    output.flush()
}

struct Generator {
    random: Random,
    host: Host,
    lines_left: u64,
    text: Vec<u8>,
    /// The sound image before, which is now and then loaded again.
    last_image: Vec<u8>,
    /// Chosen more often than the others, so that its rings fill.
    favourite: (usize, usize),
}

impl Generator {
    fn new(seed: u64, lines: u64) -> Generator {
        Generator {
            random: Random::new(seed),
            host: Host::new(),
            lines_left: lines,
            text: Vec::new(),
            last_image: Vec::new(),
            favourite: (0, 0),
        }
    }

    /// Often some images that are refused or ask for more memory; then one
    /// that does not, and a long run of events on it.
    fn era(&mut self) {
        if !self.random.one_in(3) {
            self.bad_images();
        }
        self.sound_image();
        self.prepare();
        let length = self.random.pick(&[40, 80, 120, 200, 300, 400]);
        for _ in 0..length {
            if self.lines_left == 0 {
                break;
            }
            self.step();
        }
    }

    /// The last line may end without a line feed, unless it is empty.
    fn end(&mut self) {
        let empty = self.text.len() < 2 || self.text.ends_with(b"\n\n");
        if !empty && self.random.one_in(2) {
            self.text.pop();
        }
    }

    fn step(&mut self) {
        let total = STEPS.iter().map(|(weight, _)| weight).sum();
        let mut ticket = self.random.below(total);
        for (weight, step) in STEPS {
            if ticket < weight {
                return step(self);
            }
            ticket -= weight;
        }
    }

    // Lines.

    fn emit(&mut self, line: &[u8]) {
        if self.lines_left == 0 {
            return;
        }
        self.lines_left -= 1;
        session::answer_line(&mut self.host, line, &mut Vec::new());
        self.text.extend_from_slice(line);
        self.text.push(b'\n');
    }

    fn line(&mut self, word: &str, fields: &[u64]) -> Vec<u8> {
        let mut line = word.as_bytes().to_vec();
        for &field in fields {
            line.push(b' ');
            let digits = self.spell(field);
            line.extend_from_slice(digits.as_bytes());
        }
        line
    }

    /// Hex of either case, now and then with leading zeros.
    fn spell(&mut self, number: u64) -> String {
        let width = if self.random.one_in(30) {
            1 + self.random.index(16)
        } else {
            1
        };
        if self.random.one_in(8) {
            format!("{number:0width$X}")
        } else {
            format!("{number:0width$x}")
        }
    }

    fn event(&mut self, word: &str, fields: &[u64]) {
        let line = self.line(word, fields);
        self.emit(&line);
    }

    fn load(&mut self, guest: usize, address: u64) {
        let guest = self.guest_number(guest);
        self.event("load", &[guest, address]);
    }

    fn store(&mut self, guest: usize, address: u64, value: u64) {
        let guest = self.guest_number(guest);
        self.event("store", &[guest, address, value]);
    }

    fn call(&mut self, who: (usize, usize), function: u64, arguments: &[u64]) {
        self.call_trap(who, 0x80, function, arguments);
    }

    fn call_trap(&mut self, who: (usize, usize), trap: u64, function: u64, arguments: &[u64]) {
        let mut fields = vec![
            self.guest_number(who.0),
            self.cpu_number(who),
            trap,
            function,
        ];
        fields.extend_from_slice(arguments);
        match self.random.below(24) {
            0..=7 => drop_zeros(&mut fields),
            8 => fields.truncate(4 + self.random.index(arguments.len() + 1)),
            9..=12 => self.add_ignored(&mut fields),
            _ => (),
        }
        self.event("call", &fields);
    }

    /// Arguments that the function does not take.
    fn add_ignored(&mut self, fields: &mut Vec<u64>) {
        let length = fields.len() + self.random.index(10 - fields.len());
        while fields.len() < length {
            fields.push(self.edge_number());
        }
    }

    // Who.

    fn guest(&self, guest: usize) -> &Guest {
        &self.host.tables.guests[guest]
    }

    /// A guest and a cpu that there are.
    fn someone(&mut self) -> (usize, usize) {
        if self.random.one_in(2) {
            return self.favourite;
        }
        let guest = self.random.index_or_last(self.host.tables.guests.len());
        let cpus = self.guest(guest).cpus.len();
        (guest, self.random.index_or_last(cpus))
    }

    /// The same, rather of a guest that is as wanted.
    fn someone_rather(&mut self, wanted: fn(&Guest) -> bool) -> (usize, usize) {
        let mut who = self.someone();
        for _ in 0..3 {
            if !wanted(self.guest(who.0)) {
                who = self.someone();
            }
        }
        who
    }

    fn someone_with_sources(&mut self) -> (usize, usize) {
        self.someone_rather(|guest| !guest.sources.is_empty())
    }

    /// As asked for, but now and then no such guest.
    fn guest_number(&mut self, guest: usize) -> u64 {
        let guest = guest as u64;
        if !self.random.one_in(120) {
            return guest;
        }
        let count = self.host.tables.guests.len() as u64;
        self.random
            .pick(&[count, 4, 1 << 32, guest | 1 << 32, guest | 1 << 8, u64::MAX])
    }

    fn cpu_number(&mut self, (guest, cpu): (usize, usize)) -> u64 {
        let cpu = cpu as u64;
        if !self.random.one_in(120) {
            return cpu;
        }
        let count = self.guest(guest).cpus.len() as u64;
        self.random
            .pick(&[count, 8, 1 << 32, cpu | 1 << 32, cpu | 1 << 8, u64::MAX])
    }

    // Numbers and addresses.

    fn edge_number(&mut self) -> u64 {
        match self.random.below(4) {
            0 => self.random.next(),
            _ => self.random.pick(&EDGE_NUMBERS),
        }
    }

    /// The first address of one of the guest's extents, and its size.
    fn some_extent(&mut self, guest: usize) -> (u64, u64) {
        let extents = self.guest(guest).extents.len();
        let place = self.random.index_or_last(extents);
        let extent = self.guest(guest).extents[place];
        (extent.real_start(), extent.size())
    }

    /// On the boundary, inside an extent.
    fn inside(&mut self, guest: usize, boundary: u64) -> u64 {
        let (start, size) = self.some_extent(guest);
        start + self.random.below(size / boundary) * boundary
    }

    /// Around the bounds of an extent, or near the end of all addresses.
    fn around(&mut self, guest: usize) -> u64 {
        const DISTANCES: [u64; 12] = [0, 0, 1, 2, 8, 56, 64, 128, 448, 512, 8192, 16384];
        let (start, size) = self.some_extent(guest);
        let distance = self.random.pick(&DISTANCES);
        match self.random.below(8) {
            0 => start + distance,
            1 => start.wrapping_sub(distance),
            2 => start + size + distance,
            3..=5 => (start + size).wrapping_sub(distance),
            6 => distance.wrapping_neg(),
            _ => self.edge_number() << self.random.below(14),
        }
    }

    /// Writes bytes by stores of whole words, keeping what is beside them. A
    /// word that stands there already is not stored.
    fn write(&mut self, guest: usize, address: u64, bytes: &[u8]) {
        let first = address - address % 8;
        let behind = address.saturating_add(bytes.len() as u64);
        for word in (first..behind).step_by(8) {
            let Some(HostOffset(at)) = self.guest(guest).place(RealAddress(word)) else {
                return;
            };
            let mut content = [0; 8];
            content.copy_from_slice(&self.host.memory[at..at + 8]);
            for (byte, place) in content.iter_mut().zip(word..) {
                let new = place
                    .checked_sub(address)
                    .and_then(|i| bytes.get(i as usize));
                *byte = *new.unwrap_or(byte);
            }
            if content != self.host.memory[at..at + 8] {
                self.event("store", &[guest as u64, word, u64::from_be_bytes(content)]);
            }
        }
    }
}

/// Arguments that are 0 may be missing from the end.
fn drop_zeros(fields: &mut Vec<u64>) {
    while fields.len() > 4 && fields.last() == Some(&0) {
        fields.pop();
    }
}
