//! Steps with TSB hits: counted in buffers that lie anywhere, over a seam, over
//! a ring, a list or a descriptor; not counted without an address; refused.

use super::Generator;
use crate::queues::{CPU_MONDO, DEVICE_MONDO};
use crate::tables::{Group, HostOffset, RealAddress};

/// Side, context mark and page index.
type Kind = [u64; 3];

const PAGE_INDICES: [u64; 4] = [0, 1, 3, 5];
const BUFFER_SIZE: u64 = 512;

/// Where the two words of a hit stand in the buffer.
fn place([side, context, index]: Kind) -> u64 {
    0x100 * side + 0x80 * context + 0x10 * index
}

impl Generator {
    pub(super) fn hit_step(&mut self) {
        let who = self.someone_rather(|guest| guest.major(Group::Statistics) != 0);
        match self.random.below(24) {
            0..=3 => self.hit_some(who),
            4..=6 => self.hit_and_wrap(who),
            7..=9 => self.hit_unset(who),
            10..=12 => self.hit_badly(who),
            13 | 14 => self.hit_shared(who),
            15 | 16 => self.hit_neighbours(),
            17 | 18 => self.hit_over_ring(),
            19 | 20 => self.hit_over_list(who),
            21 | 22 => self.hit_over_descriptor(who),
            _ => self.hit_every_row(who),
        }
    }

    fn hit(&mut self, who: (usize, usize), kind: Kind, ticks: u64) {
        let [side, context, index] = kind;
        let [guest, cpu] = [self.guest_number(who.0), self.cpu_number(who)];
        self.event("hit", &[guest, cpu, side, context, index, ticks]);
    }

    fn hit_kind(&mut self) -> Kind {
        let (side, context) = (self.random.below(2), self.random.below(2));
        [side, context, self.random.pick(&PAGE_INDICES)]
    }

    fn hit_ticks(&mut self) -> u64 {
        match self.random.below(4) {
            0 => self.edge_number(),
            1 => self.random.next(),
            _ => self.random.below(0x300),
        }
    }

    // Buffers.

    /// The address that the cpu has now: 0 if none.
    fn buffer(&self, (guest, cpu): (usize, usize)) -> u64 {
        self.guest(guest).cpus[cpu].statistics
    }

    /// Often a new buffer. None without the group.
    fn ready_buffer(&mut self, who: (usize, usize)) -> u64 {
        if self.buffer(who) == 0 || self.random.one_in(3) {
            let address = self.buffer_address(who.0);
            self.call(who, 0x102, &[address]);
        }
        self.buffer(who)
    }

    /// Over a seam, at the end of a row of extents, or anywhere in one.
    fn buffer_address(&mut self, guest: usize) -> u64 {
        let (start, size) = self.some_row(guest);
        let last = start + size - BUFFER_SIZE;
        match (self.random.below(4), self.some_seam(guest)) {
            (0..=2, Some(seam)) => seam - 64 * (1 + self.random.below(7)),
            (0, None) => last,
            _ => last - 64 * self.random.below((last - start) / 64 + 1),
        }
    }

    /// The two words of a row; often those beside them, or another row.
    fn look_at_hit(&mut self, guest: usize, buffer: u64, kind: Kind) {
        let at = buffer.wrapping_add(place(kind));
        self.load(guest, at);
        self.load(guest, at.wrapping_add(8));
        match self.random.below(5) {
            0 => self.load(guest, at.wrapping_sub(8)),
            1 => self.load(guest, at.wrapping_add(16)),
            2 => {
                let other = buffer.wrapping_add(place(self.hit_kind()));
                self.load(guest, other);
                self.load(guest, other.wrapping_add(8));
            }
            _ => (),
        }
    }

    pub(super) fn hit_and_look(&mut self, who: (usize, usize), buffer: u64) {
        let (kind, ticks) = (self.hit_kind(), self.hit_ticks());
        self.hit(who, kind, ticks);
        self.look_at_hit(who.0, buffer, kind);
    }

    // Hits that are counted.

    fn hit_some(&mut self, who: (usize, usize)) {
        let buffer = self.ready_buffer(who);
        for _ in 0..1 + self.random.below(3) {
            self.hit_and_look(who, buffer);
        }
    }

    /// One of the two words, or both, at or just below the most.
    fn hit_and_wrap(&mut self, who: (usize, usize)) {
        let buffer = self.ready_buffer(who);
        let kind = self.hit_kind();
        let at = buffer.wrapping_add(place(kind));
        let which = self.random.below(3);
        let most = [u64::MAX, u64::MAX, u64::MAX - 1];
        if which != 0 {
            let hits = self.random.pick(&most);
            self.store(who.0, at, hits);
        }
        let mut ticks = self.random.pick(&[0, 1, 1, 2]);
        if which != 1 {
            let before = self.random.pick(&[u64::MAX, u64::MAX - 1, 1 << 63, 1]);
            self.store(who.0, at.wrapping_add(8), before);
            ticks = self.random.pick(&[1, 2, 1 << 63, u64::MAX]);
        }
        self.hit(who, kind, ticks);
        self.look_at_hit(who.0, buffer, kind);
    }

    /// Each row once, with ticks of its own; then the whole buffer and the
    /// words beside it.
    fn hit_every_row(&mut self, who: (usize, usize)) {
        let buffer = self.ready_buffer(who);
        if buffer == 0 || !self.random.one_in(4) {
            return self.hit_some(who);
        }
        for side in 0..2 {
            for context in 0..2 {
                for index in PAGE_INDICES {
                    let ticks = self.random.next();
                    self.hit(who, [side, context, index], ticks);
                }
            }
        }
        for word in 0..BUFFER_SIZE / 8 + 2 {
            self.load(who.0, (buffer + 8 * word).wrapping_sub(8));
        }
    }

    // Hits that are not.

    /// No cpu has an address yet.
    pub(super) fn hit_new(&mut self, guest: usize) {
        let who = self.someone_of(guest);
        self.hit_and_look(who, 0);
    }

    /// The address becomes 0 by a refusal or by itself, so that neither the
    /// buffer before, nor the one refused, nor real 0 is written.
    fn hit_unset(&mut self, who: (usize, usize)) {
        let before = self.ready_buffer(who);
        let kind = self.hit_kind();
        if self.random.one_in(2) {
            self.hit(who, kind, 1);
        }
        let (start, size) = self.some_row(who.0);
        let refused = match self.random.below(4) {
            0 => 0,
            1 => before + self.random.pick(&[1, 8, 32]),
            2 => start + size - 64 * (1 + self.random.below(7)),
            _ => start + size,
        };
        self.call(who, 0x102, &[refused]);
        let ticks = self.hit_ticks();
        self.hit(who, kind, ticks);
        self.look_at_hit(who.0, before, kind);
        let other = self.random.pick(&[0, refused - refused % 64]);
        self.look_at_hit(who.0, other, kind);
    }

    /// Each number bad in each way, with an address or without; also where there
    /// is no such guest or cpu.
    fn hit_badly(&mut self, who: (usize, usize)) {
        if self.random.one_in(2) {
            self.call(who, 0x102, &[0]);
        } else {
            self.ready_buffer(who);
        }
        let mut ways: Vec<usize> = (0..9).collect();
        self.random.shuffle(&mut ways);
        let mut kind = self.hit_kind();
        for way in ways {
            kind = self.hit_kind();
            let mut bad = kind;
            self.spoil_hit(&mut bad, way % 3, way / 3);
            // A second one.
            if self.random.one_in(6) {
                let field = self.random.index(3);
                self.spoil_hit(&mut bad, field, 1);
            }
            let ticks = self.hit_ticks();
            match self.random.one_in(6) {
                true => self.hit_nobody(who.0, bad, ticks),
                false => self.hit(who, bad, ticks),
            }
        }
        self.look_at_hit(who.0, self.buffer(who), kind);
    }

    fn hit_nobody(&mut self, guest: usize, [side, context, index]: Kind, ticks: u64) {
        let guests = self.host.tables.guests.len() as u64;
        let cpus = self.guest(guest).cpus.len() as u64;
        let guest = guest as u64;
        let nobody = [(guests, 0), (guest, cpus), (guest, 1 << 32)];
        let (guest, cpu) = self.random.pick(&nobody);
        self.event("hit", &[guest, cpu, side, context, index, ticks]);
    }

    /// Bits above a number that is right, a number beside the right ones, or the
    /// highest.
    fn spoil_hit(&mut self, kind: &mut Kind, field: usize, way: usize) {
        let wide = [8, 16, 32, 63].map(|bit| kind[field] | 1 << bit);
        let beside: &[u64] = match field {
            2 => &[2, 2, 4, 4, 6, 6, 7, 8, 0x10, 0x2b],
            _ => &[2, 2, 3, 4, 5, 0x80],
        };
        kind[field] = match way {
            0 => self.random.pick(&wide),
            1 => self.random.pick(beside),
            _ => u64::MAX,
        };
    }

    // Buffers over something else.

    /// Another cpu's buffer is the same, overlaps it or touches it.
    fn hit_shared(&mut self, who: (usize, usize)) {
        let other = self.someone_of(who.0);
        let buffer = self.ready_buffer(who);
        let off = 64 * self.random.pick(&[0, 0, 1, 2, 4, 7, 8]);
        let address = match self.random.one_in(2) {
            true => buffer.wrapping_add(off),
            false => buffer.wrapping_sub(off),
        };
        self.call(other, 0x102, &[address]);
        for _ in 0..2 {
            self.hit_and_look(other, self.buffer(other));
            self.hit_and_look(who, buffer);
        }
    }

    /// Two guests at one address.
    fn hit_neighbours(&mut self) {
        let Some((guests, address)) = self.common_address() else {
            return self.hit_some(self.favourite);
        };
        let both = guests.map(|guest| self.someone_of(guest));
        for who in both {
            self.call(who, 0x102, &[address]);
        }
        let kind = self.hit_kind();
        for who in both {
            let ticks = self.hit_ticks();
            self.hit(who, kind, ticks);
            self.look_at_hit(guests[0], address, kind);
            self.look_at_hit(guests[1], address, kind);
        }
    }

    /// An address at which two guests have room for a buffer.
    fn common_address(&mut self) -> Option<([usize; 2], u64)> {
        let rows = self.rows();
        let mut found = Vec::new();
        for (place, first) in rows.iter().enumerate() {
            for second in rows[place + 1..].iter().filter(|r| r.guest != first.guest) {
                let start = first.start.max(second.start);
                let end = first.end.min(second.end);
                if start + BUFFER_SIZE < end {
                    found.push(([first.guest, second.guest], start, end));
                }
            }
        }
        let &(guests, start, end) = found.get(self.random.index(found.len()))?;
        let places = (end - start - BUFFER_SIZE) / 64;
        Some((guests, end - BUFFER_SIZE - 64 * self.random.below(places)))
    }

    /// Where the next entry of a ring is, and one before it. Hits, an entry
    /// over their words, and hits in the entry.
    fn hit_over_ring(&mut self) {
        let Some((owner, queue, ring)) = self.some_ring() else {
            return self.hit_some(self.favourite);
        };
        let who = self.someone_of(owner.0);
        let next = ring.base.0 + ring.tail;
        let address = next.wrapping_sub(64 * self.random.below(8));
        self.call(who, 0x102, &[address]);
        let buffer = self.buffer(who);
        self.hit_and_look(who, buffer);
        match (queue - 0x3c) as usize {
            CPU_MONDO => self.send_one(owner),
            DEVICE_MONDO => self.raise_one(owner),
            _ => (),
        }
        for _ in 0..2 {
            self.hit_and_look(who, buffer);
        }
        let word = 8 * self.random.below(8);
        self.load(owner.0, next + word);
        self.look_at_queues(owner);
    }

    fn send_one(&mut self, to: (usize, usize)) {
        let from = (to.0, (to.1 + 1) % self.guest(to.0).cpus.len());
        let (list, data) = (self.inside(to.0, 2), self.inside(to.0, 64));
        self.write_entries(to.0, list, &[to.1 as u16]);
        self.call(from, 0x42, &[1, list, data]);
    }

    fn raise_one(&mut self, target: (usize, usize)) {
        let Some(sysino) = self.ready_source(target.0) else {
            return;
        };
        self.set(target, sysino, 0xae, target.1 as u64);
        self.enable(target, sysino);
        self.set(target, sysino, 0xac, 0);
        self.raise_source(target.0, sysino);
    }

    /// A list in a row's words: what a hit makes of its last entry is sent.
    fn hit_over_list(&mut self, who: (usize, usize)) {
        let buffer = self.ready_buffer(who);
        let kind = self.hit_kind();
        let list = buffer + place(kind);
        let mut entries = self.other_cpus(who, 8);
        if self.random.one_in(3) {
            self.mark_some(&mut entries);
        }
        self.write_entries(who.0, list, &entries);
        let ticks = self.random.pick(&[0, 1, 1, 1 << 16, u64::MAX]);
        self.hit(who, kind, ticks);
        let data = self.inside(who.0, 64);
        let count = self.random.pick(&[4, 4, 8]);
        self.call(who, 0x42, &[count, list, data]);
        self.look_at_hit(who.0, buffer, kind);
    }

    /// A descriptor of which one word is a row's hits: too small by one, so
    /// that a hit makes it right, or right, so that a hit spoils it.
    fn hit_over_descriptor(&mut self, who: (usize, usize)) {
        let buffer = self.ready_buffer(who);
        let kind = self.hit_kind();
        let at = buffer + place(kind);
        let pointer = at.wrapping_sub(8 * self.random.below(3));
        let function = self.random.pick(&[0x20, 0x21]);
        let list = self.tsb_list(who.0, 1);
        self.write(who.0, pointer, &list);
        if self.random.one_in(2) {
            self.take_one(who.0, at);
        }
        self.call(who, function, &[1, pointer]);
        self.hit(who, kind, 0);
        self.call(who, function, &[1, pointer]);
        self.look_at_hit(who.0, buffer, kind);
    }

    fn take_one(&mut self, guest: usize, address: u64) {
        let Some(HostOffset(at)) = self.guest(guest).place(RealAddress(address)) else {
            return;
        };
        let mut word = [0; 8];
        word.copy_from_slice(&self.host.memory[at..at + 8]);
        let less = u64::from_be_bytes(word).wrapping_sub(1);
        self.store(guest, address, less);
    }
}
