//! Steps with lists that were sent before: marks among other entries or by
//! themselves, and one list sent until nothing of it is left.

use super::queue_steps::set;
use super::Generator;
use crate::queues::{CPU_MONDO, SENT};
use std::collections::BTreeSet;

/// Next to the mark, and no cpuid.
const NEARLY_SENT: u16 = SENT - 1;

impl Generator {
    pub(super) fn resend_step(&mut self) {
        // The only cpu of a guest has nobody to send to.
        let who = self.someone_rather(|guest| guest.cpus.len() > 1);
        match self.random.below(16) {
            0..=2 => self.send_again(who),
            3 | 4 => self.send_with_marks(who),
            5..=8 => self.send_only_marks(who),
            9..=12 => self.send_marks_and_fault(who),
            _ => self.send_under_ring(who),
        }
    }

    /// Another cpu of the guest, if it has one, with a ring that is soon full.
    fn ready_other(&mut self, (guest, cpu): (usize, usize)) -> (usize, usize) {
        let cpus = self.guest(guest).cpus.len();
        let other = (guest, (cpu + 1 + self.random.index(cpus - 1)) % cpus);
        let n = self.random.pick(&[2, 2, 4, 4, 8]);
        let base = self.ring_base(guest, 64 * n);
        self.call(other, 0x14, &[0x3c, base, n]);
        other
    }

    /// Often, seldom or hardly ever a mark instead of an entry.
    pub(super) fn mark_some(&mut self, entries: &mut [u16]) {
        let rate = self.random.pick(&[2, 2, 4, 16]);
        for entry in entries {
            if self.random.one_in(rate) {
                *entry = SENT;
            }
        }
    }

    /// One list for a cpu with little room, again and again: with room made
    /// in between or not, and also when all of it is sent.
    fn send_again(&mut self, who: (usize, usize)) {
        let to = self.ready_other(who);
        let count = self.random.pick(&[2, 2, 3, 4, 5, 9]);
        let mut entries = self.other_cpus(who, count);
        for entry in &mut entries {
            if !self.random.one_in(4) {
                *entry = to.1 as u16;
            }
        }
        let (list, data) = (self.inside(who.0, 2), self.inside(who.0, 64));
        self.write_entries(who.0, list, &entries);
        for _ in 0..2 + self.random.below(5) {
            self.send_and_look(who, [count, list, data]);
            if self.random.one_in(2) {
                self.pass_some(to);
            }
        }
    }

    /// Marks anywhere among entries that can be sent, over a seam if there is
    /// one.
    fn send_with_marks(&mut self, who: (usize, usize)) {
        if self.random.one_in(2) {
            self.ready_other(who);
        }
        let count = self.random.pick(&[2, 3, 4, 5, 6, 9, 63, 64]);
        let mut entries = self.other_cpus(who, count);
        self.mark_some(&mut entries);
        let list = match self.some_seam(who.0) {
            Some(seam) => seam - 2 * (1 + self.random.below(count - 1)),
            None => self.inside(who.0, 2),
        };
        let data = self.inside(who.0, 64);
        self.write_entries(who.0, list, &entries);
        self.send_and_look(who, [count, list, data]);
        self.look_at_tails(who.0, &entries);
    }

    /// Nothing but marks, or what is next to them; and often a number that is
    /// refused before they are looked at.
    fn send_only_marks(&mut self, who: (usize, usize)) {
        let count = self.random.pick(&[1, 2, 2, 3, 9, 64, 64]);
        let data = self.inside(who.0, 64);
        let (start, size) = self.some_row(who.0);
        let end = start + size;
        let fault = self.random.below(8);
        let list = match fault {
            // The last entry lies behind the end, where the guest has no memory.
            0 => end - 2 * count + 2,
            _ => self.inside(who.0, 2),
        };
        let entry = self.random.pick(&[SENT, SENT, SENT, NEARLY_SENT]);
        // One more than counted, so that a list off by a byte has marks too.
        let entries = vec![entry; count as usize + 1];
        self.write_entries(who.0, list, &entries);
        let arguments = match fault {
            1 => [self.random.pick(&[0, 65, u64::MAX]), list, data],
            2 => [count, list + 1, data],
            3 => [count, list, data + 32],
            4 => [count, list, end],
            _ => [count, list, data],
        };
        self.send_and_look(who, arguments);
    }

    /// A mark, and before or behind it an entry that is refused.
    fn send_marks_and_fault(&mut self, who: (usize, usize)) {
        let count = 2 + self.random.index(4);
        let mut entries = self.other_cpus(who, count as u64);
        self.mark_some(&mut entries);
        let caller = who.1 as u16;
        let no_cpu = self.no_cpu(who);
        let faults = [caller, caller, no_cpu, NEARLY_SENT, NEARLY_SENT];
        let later = 1 + self.random.index(count - 1);
        let (mark, fault) = match self.random.one_in(2) {
            true => (0, later),
            false => (later, 0),
        };
        set(&mut entries, mark, SENT);
        set(&mut entries, fault, self.random.pick(&faults));
        // Two of them: which is tried first.
        if self.random.one_in(4) {
            let second = self.random.index(count);
            set(&mut entries, second, self.random.pick(&faults));
        }
        let (list, data) = (self.inside(who.0, 2), self.inside(who.0, 64));
        self.write_entries(who.0, list, &entries);
        self.send_and_look(who, [count as u64, list, data]);
    }

    /// The list lies where a ring's next entry is written, so that the data
    /// covers marks and others before their turn.
    fn send_under_ring(&mut self, who: (usize, usize)) {
        let to = self.ready_other(who);
        let Some(ring) = self.guest(to.0).cpus[to.1].queues[CPU_MONDO] else {
            return;
        };
        let count = 2 + self.random.below(5);
        let offset = 2 * self.random.below(33 - count);
        let list = ring.base.0 + ring.tail + offset;
        let data = self.inside(who.0, 64);
        let mut entries = self.other_cpus(who, count);
        if !self.random.one_in(4) {
            self.mark_some(&mut entries);
        }
        let early = self.random.index(2);
        set(&mut entries, early, to.1 as u16);
        self.write_cover(who, data + offset, entries.len());
        self.write_entries(who.0, list, &entries);
        self.send_and_look(who, [count, list, data]);
        self.look_at_tails(who.0, &entries);
    }

    /// What of the data comes over the list is one itself: of marks, of cpuids
    /// or of neither.
    fn write_cover(&mut self, who: (usize, usize), cover: u64, count: usize) {
        let last = self.guest(who.0).cpus.len() as u16 - 1;
        let caller = who.1 as u16;
        let coverings = [SENT, SENT, SENT, 0x1111, last, caller, NEARLY_SENT];
        let covering = self.random.pick(&coverings);
        self.write_entries(who.0, cover, &vec![covering; count]);
    }

    fn send_and_look(&mut self, who: (usize, usize), arguments: [u64; 3]) {
        let [count, list, data] = arguments;
        self.call(who, 0x42, &arguments);
        self.look_at_mondo(who.0, list, data);
        if count > 4 {
            let last = list + 2 * count.min(64) - 2;
            self.load(who.0, last - last % 8);
        }
    }

    /// A head write to the tail passes what the ring holds, and is refused if
    /// that is less.
    fn look_at_tails(&mut self, guest: usize, entries: &[u16]) {
        let cpus: BTreeSet<usize> = entries.iter().copied().map(usize::from).collect();
        for cpu in cpus.into_iter().take(3) {
            let record = self.guest(guest).cpus.get(cpu);
            let ring = record.and_then(|record| record.queues[CPU_MONDO]);
            if let Some(ring) = ring {
                self.head((guest, cpu), 0x3c, ring.tail);
            }
        }
    }
}
