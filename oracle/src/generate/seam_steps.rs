//! Steps over seams: extents of a guest that touch in real pages, wherever they
//! lie on the host. Ranges that run over them, and ranges that just do not fit.

use super::Generator;

const PAGE: u64 = 8192;

/// What the longest ring and a TSB of 1,024 entries ask for.
const TWO_PAGES: u64 = 2 * PAGE;

/// Extents of one guest that touch in a row: one or more.
#[derive(Clone)]
pub(super) struct Row {
    pub(super) guest: usize,
    pub(super) start: u64,
    pub(super) end: u64,
    /// Where one extent ends and the next begins.
    seams: Vec<u64>,
}

impl Row {
    /// The first place on a boundary at which so much has room.
    pub(super) fn room(&self, size: u64) -> Option<u64> {
        let base = self.start.next_multiple_of(size);
        (base + size <= self.end).then_some(base)
    }
}

impl Generator {
    pub(super) fn rows(&self) -> Vec<Row> {
        let mut rows: Vec<Row> = Vec::new();
        for (guest, record) in self.host.tables.guests.iter().enumerate() {
            for extent in &record.extents {
                let (start, end) = (extent.real_start(), extent.real_start() + extent.size());
                match rows.last_mut() {
                    Some(row) if row.guest == guest && row.end == start => {
                        row.seams.push(start);
                        row.end = end;
                    }
                    _ => rows.push(Row {
                        guest,
                        start,
                        end,
                        seams: Vec::new(),
                    }),
                }
            }
        }
        rows
    }

    /// The first address of a row of the guest, and its size.
    pub(super) fn some_row(&mut self, guest: usize) -> (u64, u64) {
        let mut rows = self.rows();
        rows.retain(|row| row.guest == guest);
        let row = &rows[self.random.index_or_last(rows.len())];
        (row.start, row.end - row.start)
    }

    /// Where two extents of the guest touch, if any do.
    pub(super) fn some_seam(&mut self, guest: usize) -> Option<u64> {
        let mut rows = self.rows();
        rows.retain(|row| row.guest == guest);
        let seams: Vec<u64> = rows.into_iter().flat_map(|row| row.seams).collect();
        seams.get(self.random.index(seams.len())).copied()
    }

    /// Any cpu of the guest.
    pub(super) fn someone_of(&mut self, guest: usize) -> (usize, usize) {
        (guest, self.random.index(self.guest(guest).cpus.len()))
    }

    /// A range over a seam, or one that leaves its row.
    pub(super) fn seam_step(&mut self) {
        let mut rows = self.rows();
        rows.retain(|row| !row.seams.is_empty());
        let Some(row) = rows.get(self.random.index(rows.len())).cloned() else {
            return self.gap_step();
        };
        let seam = self.random.pick(&row.seams);
        let who = self.someone_of(row.guest);
        match self.random.below(17) {
            0..=2 => self.pages_over(who, &row, seam),
            3 | 4 => self.statistics_over(who, seam),
            5..=7 => self.descriptors_over(who, seam),
            8..=10 => self.list_over(who, seam),
            11 | 12 => self.area_over(who, &row, seam),
            13 => self.ring_over(who, seam),
            14 => self.gap_step(),
            15 if self.random.one_in(3) => self.raises_over(who, &row),
            _ => self.leave_row(who, &row),
        }
    }

    // Ranges over a seam.

    /// From some page before the seam to some page behind it.
    fn pages_over(&mut self, who: (usize, usize), row: &Row, seam: u64) {
        let start = seam - PAGE * (1 + self.random.below((seam - row.start) / PAGE));
        let end = seam + PAGE * (1 + self.random.below((row.end - seam) / PAGE));
        if self.random.one_in(3) {
            return self.call(who, 0x32, &[start, end - start]);
        }
        self.mark_pages();
        self.call(who, 0x31, &[start, end - start]);
        self.look_at_pages();
    }

    /// The first and the last word of every page that a guest has: a range
    /// that is followed to the wrong page shows in one of them.
    fn page_words(&self) -> Vec<(usize, u64)> {
        let mut words = Vec::new();
        for (guest, record) in self.host.tables.guests.iter().enumerate() {
            for extent in &record.extents {
                for page in 0..extent.pages {
                    let start = extent.real_start() + PAGE * page;
                    words.extend([(guest, start), (guest, start + PAGE - 8)]);
                }
            }
        }
        words
    }

    fn mark_pages(&mut self) {
        for (guest, word) in self.page_words() {
            let mark = self.random.next();
            self.store(guest, word, mark);
        }
    }

    fn look_at_pages(&mut self) {
        for (guest, word) in self.page_words() {
            self.load(guest, word);
        }
    }

    fn statistics_over(&mut self, who: (usize, usize), seam: u64) {
        let before = 64 * (1 + self.random.below(7));
        self.call(who, 0x102, &[seam - before]);
        self.call(who, 0x103, &[]);
        for _ in 0..self.random.below(4) {
            self.hit_and_look(who, seam - before);
        }
    }

    /// A list of which a descriptor, or the border of two, lies at the seam.
    fn descriptors_over(&mut self, who: (usize, usize), seam: u64) {
        let ntsb = 1 + self.random.below(4);
        let pointer = seam - 8 * (1 + self.random.below(4 * ntsb - 1));
        let function = self.random.pick(&[0x20, 0x21]);
        let list = self.tsb_list(who.0, ntsb);
        self.write(who.0, pointer, &list);
        self.call(who, function, &[ntsb, pointer]);
        for _ in 0..self.random.below(3) {
            self.spoil_list(who, function, ntsb, pointer);
        }
    }

    /// A list over the seam, and often the data just before or behind it. Some
    /// cpu has little room, so that it matters which entries come first.
    fn list_over(&mut self, who: (usize, usize), seam: u64) {
        let to = self.random.index(self.guest(who.0).cpus.len());
        if !self.random.one_in(4) {
            let n = self.random.pick(&[2, 4, 4, 8]);
            let base = self.ring_base(who.0, 64 * n);
            self.call((who.0, to), 0x14, &[0x3c, base, n]);
        }
        let count = self.random.pick(&[2, 3, 4, 5, 9, 63, 64]);
        let list = seam - 2 * (1 + self.random.below(count - 1));
        let inside = self.inside(who.0, 64);
        let data = self.random.pick(&[seam - 64, seam, inside]);
        if self.random.one_in(2) {
            self.write_data(who.0, data);
        }
        self.write_list(who, list, count);
        self.call(who, 0x42, &[count, list, data]);
        self.look_at_mondo(who.0, list, data);
        self.load(who.0, seam - 8);
        self.load(who.0, seam);
    }

    /// A TSB that is sound but for its range, which may leave the row.
    fn area_over(&mut self, who: (usize, usize), row: &Row, seam: u64) {
        if let Some(base) = row.room(2 * TWO_PAGES) {
            return self.area_at(who, base, 2048);
        }
        let entries = self.random.pick(&[1024, 1024, 2048]);
        self.area_at(who, seam - seam % (16 * entries), entries);
    }

    fn area_at(&mut self, who: (usize, usize), base: u64, entries: u64) {
        let words = [0x0000_0001_0000_0000 | entries, 1, base];
        let bytes: Vec<u8> = words.into_iter().flat_map(u64::to_be_bytes).collect();
        let pointer = self.inside(who.0, 32);
        self.write(who.0, pointer, &bytes);
        let function = self.random.pick(&[0x20, 0x21]);
        self.call(who, function, &[1, pointer]);
    }

    /// A ring of 256 around the seam, or behind one that is on two pages.
    fn ring_over(&mut self, who: (usize, usize), seam: u64) {
        let base = seam - seam % TWO_PAGES;
        let queue = 0x3c + self.random.below(4);
        self.call(who, 0x14, &[queue, base, 256]);
        self.call(who, 0x15, &[queue]);
        if self.random.one_in(2) {
            self.fill_long_ring(who, base);
        }
    }

    /// One source again and again, until its entries are in both halves of a
    /// ring of 256: nothing else moves the tail so far.
    fn raises_over(&mut self, who: (usize, usize), row: &Row) {
        let (Some(base), Some(sysino)) = (row.room(TWO_PAGES), self.ready_source(who.0)) else {
            return self.leave_row(who, row);
        };
        self.set(who, sysino, 0xae, who.1 as u64);
        self.enable(who, sysino);
        self.call(who, 0x14, &[0x3d, base, 256]);
        self.mark_pages();
        for _ in 0..132 + self.random.below(8) {
            self.set(who, sysino, 0xac, 0);
            self.raise_source(who.0, sysino);
        }
        self.look_at_pages();
        self.load(who.0, base + PAGE - 64);
    }

    // Ranges that leave their row.

    fn leave_row(&mut self, who: (usize, usize), row: &Row) {
        match self.random.below(9) {
            0 | 1 => self.pages_out(who, row),
            2 | 3 => self.pages_round(who, row),
            4 => self.statistics_out(who, row),
            5 => self.descriptors_out(who, row),
            6 => self.list_out(who, row),
            7 => self.ring_out(who, row),
            _ => self.area_out(who, row),
        }
    }

    /// Mostly so far before the row's end, or else so far before its start.
    fn near_bound(&mut self, row: &Row, end: u64, start: u64) -> u64 {
        match self.random.one_in(4) {
            true => row.start.wrapping_sub(start),
            false => row.end - end,
        }
    }

    /// From some page to one behind the row, or from the page before it.
    fn pages_out(&mut self, who: (usize, usize), row: &Row) {
        let pages = 1 + self.random.below((row.end - row.start) / PAGE);
        let start = self.near_bound(row, PAGE * pages, PAGE);
        self.pages_refused(who, start, PAGE * pages + PAGE);
    }

    /// Past 2^64 and back to the row's start, or a page into it.
    fn pages_round(&mut self, who: (usize, usize), row: &Row) {
        let page = row.start + PAGE * self.random.below((row.end - row.start) / PAGE);
        let end = row.start + PAGE * self.random.below(2);
        self.pages_refused(who, page, end.wrapping_sub(page));
    }

    fn statistics_out(&mut self, who: (usize, usize), row: &Row) {
        let inside = 64 * (1 + self.random.below(7));
        let start = self.near_bound(row, inside, 512 - inside);
        self.call(who, 0x102, &[start]);
        self.call(who, 0x103, &[]);
    }

    fn descriptors_out(&mut self, who: (usize, usize), row: &Row) {
        let ntsb = 1 + self.random.below(4);
        let pointer = self.near_bound(row, 32 * ntsb - 8, 8);
        let function = self.random.pick(&[0x20, 0x21]);
        self.call(who, function, &[ntsb, pointer]);
    }

    fn list_out(&mut self, who: (usize, usize), row: &Row) {
        let count = self.random.pick(&[1, 2, 3, 64]);
        let list = self.near_bound(row, 2 * count - 2, 2);
        let data = self.inside(who.0, 64);
        self.call(who, 0x42, &[count, list, data]);
    }

    /// Rings and TSBs lie on their size: near a bound they may fit.
    fn ring_out(&mut self, who: (usize, usize), row: &Row) {
        let queue = 0x3c + self.random.below(4);
        let near = self.random.pick(&[row.start, row.end - PAGE, row.end]);
        self.call(who, 0x14, &[queue, near - near % TWO_PAGES, 256]);
        self.call(who, 0x15, &[queue]);
    }

    fn area_out(&mut self, who: (usize, usize), row: &Row) {
        let size = self.random.pick(&[TWO_PAGES, 2 * TWO_PAGES]);
        let near = self.random.pick(&[row.start, row.end - PAGE, row.end]);
        self.area_at(who, near - near % size, size / 16);
    }

    /// A scrub or sync of pages of which some are in no extent; and a look at
    /// what a scrub may not have touched.
    fn pages_refused(&mut self, who: (usize, usize), start: u64, length: u64) {
        let function = self.random.pick(&[0x31, 0x32]);
        if function == 0x31 && self.random.one_in(2) {
            self.mark_pages();
        }
        self.call(who, function, &[start, length]);
        let (row, _) = self.some_row(who.0);
        self.load(who.0, row);
        self.load(who.0, start);
    }

    /// Both ends of the range lie in an extent, and what is between does not.
    pub(super) fn gap_step(&mut self) {
        let rows = self.rows();
        let pairs = rows
            .windows(2)
            .filter(|pair| pair[0].guest == pair[1].guest);
        let pairs: Vec<&[Row]> = pairs.collect();
        let Some(&[before, behind]) = pairs.get(self.random.index(pairs.len())) else {
            return self.scrub_step();
        };
        let who = self.someone_of(before.guest);
        let start = before.end - PAGE * (1 + self.random.below((before.end - before.start) / PAGE));
        let end = behind.start + PAGE * (1 + self.random.below((behind.end - behind.start) / PAGE));
        match area_around(before, behind) {
            Some((base, size)) if !self.random.one_in(4) => self.area_at(who, base, size / 16),
            _ => self.pages_refused(who, start, end - start),
        }
    }
}

/// A TSB that begins in one row and ends in the next, if one can.
fn area_around(before: &Row, behind: &Row) -> Option<(u64, u64)> {
    let last = before.end - PAGE;
    let sizes = [2 * TWO_PAGES, 4 * TWO_PAGES];
    let areas = sizes.map(|size| (last - last % size, size));
    areas.into_iter().find(|&(base, size)| {
        let end = base + size;
        base >= before.start && end > behind.start && end <= behind.end
    })
}
