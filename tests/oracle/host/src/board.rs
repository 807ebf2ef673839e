//! Boards drawn at random, whole or damaged.

use crate::image::{
    Board, CS0_BASE, DATE_PTR, EXTRA_PTR, FLASH_BASE, HEADER, HEADER_END, Header, PINS_PTR, REV_PTR, RP2350, SETS_PTR, TOP, has_long_sets,
    has_metadata, has_names,
};
use crate::mangling::{MANGLED, pins};
use crate::rng::Rng;
use crate::strings::text;

/// One version of each band in which the Rust does something of its own.
fn version(rng: &mut Rng) -> [u16; 4] {
    let any = |rng: &mut Rng| rng.pick(&[0, 0, 1, 2, 5, 9, 65535]);
    let build = any(rng);
    match rng.below(16) {
        0 | 1 => [0, rng.below(4) as u16, any(rng), build],
        2..=4 => [0, 4, any(rng), build],
        5 | 6 => [0, 5, 0, build],
        7 | 8 => [0, 5, rng.between(1, 6) as u16, build],
        9 | 10 => [0, 6, 0, build],
        11..=13 => [0, 6, any(rng), build],
        14 => [0, rng.below(7) as u16, rng.below(3) as u16, build],
        _ => match rng.below(8) {
            0 => [0, 7, 0, build],
            1 => [0, rng.between(7, 9) as u16, any(rng), build],
            2 => [1, any(rng), any(rng), build],
            3 => [65535, 65535, 65535, 65535],
            _ => [0, 6, 65535, 65535],
        },
    }
}

/// How a board of this kind is drawn.
pub struct Plan {
    pub most_sets: usize,
    pub most_roms: usize,
    /// Bytes of ROM data.
    pub data: usize,
    /// A record or a pointer is made wrong this many times less often.
    pub care: usize,
}

pub const SMALL: Plan = Plan { most_sets: 4, most_roms: 4, data: 64, care: 1 };
pub const MANY: Plan = Plan { most_sets: 255, most_roms: 6, data: 64, care: 100 };
pub const MANY_ROMS: Plan = Plan { most_sets: 3, most_roms: 255, data: 0, care: 100 };
pub const LARGE: Plan = Plan { most_sets: 2, most_roms: 3, data: 65536, care: 4 };

const NOT_A_POINTER: &[u32] = &[0, u32::MAX, 1, 0x0800_0000, 0x0FFF_FFFF, 0x2000_0000, 0x8000_0000, u32::MAX - 1];

struct Maker<'a> {
    rng: &'a mut Rng,
    board: &'a mut Board,
    version: [u16; 4],
    names: bool,
    care: usize,
}

impl Maker<'_> {
    /// Whether to make something wrong here, once in so many times.
    fn slips(&mut self, times: usize) -> bool {
        self.rng.once_in(times * self.care)
    }

    /// Room for a record; at times it overlaps what is there.
    fn room(&mut self, len: usize) -> usize {
        if self.slips(40) && self.board.image.len() > len {
            return self.rng.below(self.board.image.len() - len);
        }
        if self.rng.once_in(3) {
            let gap = self.rng.below(5);
            self.board.room(gap);
        }
        self.board.room(len)
    }

    /// A pointer to there; at times to nowhere.
    fn point(&mut self, at: usize, to: usize) {
        if self.slips(100) {
            let word = self.rng.pick(NOT_A_POINTER);
            self.board.put_word(at, word);
        } else {
            self.board.point(at, to);
        }
    }

    fn string(&mut self) -> usize {
        let rng = &mut *self.rng;
        let len = match rng.below(32) {
            0 => rng.between(60, 66),
            1 => rng.between(124, 130),
            2 if rng.once_in(8) => rng.between(1020, 1030),
            _ => rng.below(16),
        };
        let mut s = Vec::with_capacity(len + 8);
        text(rng, len, &mut s);
        if !rng.once_in(50) {
            s.push(0);
        }
        let at = self.room(s.len());
        self.board.put(at, &s);
        at
    }

    fn extra_info(&mut self) -> usize {
        let at = self.room(256);
        let mut r = [0; 12];
        self.rng.fill(&mut r);
        r[4] = self.rng.pick(&[0, 1, 255]);
        r[5] = self.rng.pick(&[0, 1, 2, 3, 4, 5, 6, 255]);
        r[7] = self.rng.pick(&[0, 1, 2]);
        self.board.put(at, &r);
        at
    }

    fn pins(&mut self) -> usize {
        let p = pins(self.rng);
        let len = self.rng.pick(&[88, 88, 256, 256, 100]);
        let at = self.room(len);
        let mut r = [0; 88];
        self.rng.fill(&mut r);
        for port in &mut r[..5] {
            *port = self.rng.below(6) as u8;
        }
        if self.rng.once_in(24) {
            r[self.rng.below(5)] = self.rng.pick(&[6, 7, 255]);
        }
        r[5] = p.rom_pins;
        r[8..16].copy_from_slice(&p.data);
        r[16..32].copy_from_slice(&p.addr);
        r[36..39].copy_from_slice(&p.control[..3]);
        r[42..46].copy_from_slice(&p.control[3..]);
        r[63] = self.rng.pick(&[0, 1, 1, 2, 255]);
        self.board.put(at, &r);
        at
    }

    fn rom_info(&mut self) -> usize {
        let at = self.room(if self.names { 8 } else { 4 });
        let kind = if self.rng.once_in(5) { self.rng.below(34) as u8 } else { self.rng.pick(MANGLED) };
        let mut r = [kind, 0, 0, 0];
        for state in &mut r[1..] {
            *state = self.rng.below(3) as u8;
        }
        if self.slips(200) {
            r[self.rng.below(4)] = self.rng.pick(&[3, 34, 35, 128, 255]);
        }
        self.board.put(at, &r);
        if self.names {
            match self.rng.below(8) {
                0 => {
                    let word = self.rng.pick(NOT_A_POINTER);
                    self.board.put_word(at + 4, word);
                }
                1 => {
                    let to = self.rng.below(self.board.image.len());
                    self.board.point(at + 4, to);
                }
                _ => {
                    let to = self.string();
                    self.point(at + 4, to);
                }
            }
            self.board.names.push(at + 4);
        }
        at
    }

    /// ROM infos and the table that points to them. Several entries may share one info.
    fn table(&mut self, count: usize) -> usize {
        let mut infos = Vec::new();
        for _ in 0..count {
            if infos.is_empty() || (infos.len() < 4 && !self.rng.once_in(4)) {
                let at = self.rom_info();
                infos.push(at);
            }
        }
        let at = self.room(4 * count);
        for i in 0..count {
            let to = infos[i.min(infos.len() - 1)];
            self.point(at + 4 * i, to);
        }
        at
    }

    /// Set headers one behind the other. `data` is where the ROMs' bytes stand.
    fn sets(&mut self, count: usize, plan: &Plan, data: usize) -> usize {
        let mut tables = Vec::new();
        let mut heads = Vec::new();
        for i in 0..count {
            let most = plan.most_roms;
            let roms = match self.rng.below(12) {
                0 => 0,
                1..=6 => 1,
                _ if most > 4 && i > 2 && plan.most_sets > 4 => self.rng.between(1, 2),
                _ => self.rng.between(1, most),
            };
            let shared = tables.len() > 3 && !self.rng.once_in(8);
            let table = if roms == 0 {
                0
            } else if shared {
                let (at, n) = tables[self.rng.below(tables.len())];
                if n >= roms { at } else { self.table(roms) }
            } else {
                self.table(roms)
            };
            if roms > 0 && !shared {
                tables.push((table, roms));
            }
            heads.push((roms, table));
        }
        // one set's extra fields, shared by all
        let config = self.room(64);
        let style = self.rng.below(3);
        let long = has_long_sets(self.version);
        // extra byte 1 makes the two pointers count; the other values act like 0
        let extra: Vec<u8> = heads
            .iter()
            .map(|_| {
                let byte = match style {
                    0 => 0,
                    1 => self.rng.pick(&[1, 1, 1, 0, 2]),
                    _ => self.rng.pick(&[0, 0, 0, 0, 0, 0, 1, 2, 255]),
                };
                if !long && byte == 1 && !self.rng.once_in(3) { 0 } else { byte }
            })
            .collect();
        let from = self.room(extra.iter().map(|byte| if *byte == 1 && long { 64 } else { 16 }).sum());
        let mut at = from;
        for ((roms, table), byte) in heads.into_iter().zip(extra) {
            self.board.heads.push((at, table));
            let size = self.rng.pick(&[0, 1, 64, 256, 16384, 65536, 65536, 131072, plan.data as u32, u32::MAX]);
            let serve = if self.slips(300) { self.rng.pick(&[3, 255]) } else { self.rng.below(3) as u8 };
            let state = if self.slips(300) { self.rng.pick(&[3, 255]) } else { self.rng.below(3) as u8 };
            self.board.put(at, &[0; 16]);
            match self.rng.below(24) {
                0 => {
                    let word = self.rng.word();
                    self.board.put_word(at, word);
                }
                1 => {
                    let word = self.rng.pick(NOT_A_POINTER);
                    self.board.put_word(at, word);
                }
                _ => self.board.point(at, data),
            }
            // below 0.6.0 the set before may take this one's first words for its pointers
            if !long && self.rng.once_in(2) {
                let word = self.rng.pick(&[0, u32::MAX]);
                self.board.put_word(at + 4, word);
            } else {
                self.board.put_word(at + 4, size);
            }
            if roms > 0 {
                self.point(at + 8, table);
            }
            self.board.put(at + 12, &[roms as u8, serve, state, byte]);
            if byte == 1 && long {
                self.board.put(at + 16, &[0xEE; 48]);
                for place in [at + 16, at + 20] {
                    match self.rng.below(8) {
                        0 | 1 => self.board.put_word(place, 0),
                        2 | 3 => self.board.put_word(place, u32::MAX),
                        4 if self.slips(40) => self.board.put_word(place, 5),
                        _ => self.board.point(place, config),
                    }
                }
                at += 64;
            } else {
                at += 16;
            }
            self.board.ends.push(at);
        }
        from
    }
}

fn header(rng: &mut Rng, sets: usize) -> Header {
    let version = version(rng);
    let line = if rng.once_in(200) { rng.pick(&[6, 7, 256, 65535]) } else { rng.pick(&[0, 1, 2, 3, 4, RP2350, RP2350, RP2350]) };
    let storage = if rng.once_in(200) { rng.pick(&[8, 256, 65535]) } else { rng.below(8) as u16 };
    let mut flags: [u8; 9] = std::array::from_fn(|_| rng.pick(&[0, 0, 1, 2, 255]));
    // boot logging, which gives ROM infos names at every version
    if rng.once_in(2) {
        flags[5] = 0;
    }
    flags[7] = if has_metadata(version) { rng.byte() } else { sets as u8 };
    let word = rng.next().to_le_bytes();
    Header { version, commit: rng.next().to_le_bytes(), line, storage, freq: [word[0], word[1]], flags, boot_config: [word[2], word[3], word[4], word[5]] }
}

/// The offsets of build date, revision, extra info, metadata, sets and pins, laid out in any order.
fn lay_out(m: &mut Maker<'_>, sets: usize, plan: &Plan) -> [usize; 6] {
    let mut order = [0, 1, 2, 3, 4, 5];
    for i in (1..6).rev() {
        order.swap(i, m.rng.below(i + 1));
    }
    let mut at = [0; 6];
    for item in order {
        at[item] = match item {
            0 | 1 => m.string(),
            2 if m.version < [0, 4, 0, 0] => 0,
            2 => m.extra_info(),
            3 if has_metadata(m.version) => m.room(256),
            3 => 0,
            4 => {
                // any bytes may serve as a set's data
                let data = if plan.data <= 64 && m.rng.once_in(2) { 0 } else { m.room(plan.data) };
                m.sets(sets, plan, data)
            }
            _ => m.pins(),
        };
    }
    // what is readable behind the last record: strings take whole chunks, pins 88 or 256 bytes
    let tail = m.rng.pick(&[0, 1, 23, 24, 25, 40, 63, 64, 64, 64, 65, 168, 168, 200, 256, 256]);
    m.board.room(tail);
    at
}

fn put_metadata(m: &mut Maker<'_>, at: usize, count: usize, sets: usize) {
    m.board.put(at, b"ONEROM_METADATA\0");
    let number = if m.rng.once_in(60) { m.rng.pick(&[0, 2, 256]) } else { 1 };
    m.board.put_word(at + 16, number);
    m.board.put(at + 20, &[count as u8, 9, 9, 9]);
    if m.rng.once_in(60) {
        m.board.put_word(at + 24, 0);
    } else {
        m.point(at + 24, sets);
    }
}

/// A whole board.
pub fn make(rng: &mut Rng, plan: &Plan, board: &mut Board) {
    board.clear(rng.pick(&[0, 0, 0xFF, 0x41]));
    let count = match rng.below(16) {
        0 => 0,
        1..=6 => 1,
        _ => rng.between(1, plan.most_sets),
    };
    let header = header(rng, count);
    let version = header.version;
    let mut m = Maker { rng, board, version, names: has_names(version, header.flags[5]), care: plan.care };
    let [date, rev, extra, metadata, sets, pins] = lay_out(&mut m, count, plan);
    let (mut to, mut sets_ptr, mut count_at) = (sets, SETS_PTR, HEADER + 41);
    if has_metadata(version) {
        put_metadata(&mut m, metadata, count, sets);
        (to, sets_ptr, count_at) = (metadata, metadata + 24, metadata + 20);
    }
    m.board.put_header(&header);
    for (at, to) in [(DATE_PTR, date), (REV_PTR, rev), (SETS_PTR, to), (PINS_PTR, pins), (EXTRA_PTR, extra)] {
        m.point(at, to);
    }
    let at_top = header.line != RP2350 && rng.once_in(12);
    if at_top {
        end_at_top(rng, board, version, sets_ptr, count_at);
    }
    let len = board.image.len() as u64;
    board.flash_base = match rng.below(32) {
        _ if at_top => (TOP - len) as u32,
        0 => rng.word(),
        1 => 0,
        2 => CS0_BASE,
        // at the very top; or beyond it
        3 | 4 => (TOP - len) as u32,
        5 if rng.once_in(8) => (TOP - len) as u32 + rng.pick(&[1, 2, 64, len as u32 - 1]),
        _ => FLASH_BASE,
    };
    board.settle();
}

/// Puts a record at the image's end that goes on past it: a string without a NUL, sets or a table with one more than there is room for.
fn end_at_top(rng: &mut Rng, board: &mut Board, version: [u16; 4], sets_ptr: usize, count_at: usize) {
    match rng.below(4) {
        0 => {
            if let Some(&(last, _)) = board.heads.last() {
                let (first, _) = board.heads[0];
                // a set of 64 bytes, with no pointers to blocks
                if has_long_sets(version) {
                    board.put(last + 15, &[1]);
                    board.put(last + 16, &[0xFF; 48]);
                    board.pointers.retain(|(at, _)| *at < last + 16 || *at >= last + 64);
                }
                let len = last + 64 - first;
                if first + len <= board.image.len() {
                    let to = board.copy_to_end(first, len);
                    board.turn(sets_ptr, to);
                    board.image[count_at] = board.image[count_at].saturating_add(1);
                }
            }
        }
        1 => {
            // records overlap at times: a count may have been overwritten
            let room = |&(at, table): &(usize, usize)| {
                let len = 4 * board.image[at + 12] as usize;
                (len > 0 && table + len <= board.image.len()).then_some((at, table, len))
            };
            let with_roms: Vec<_> = board.heads.iter().filter_map(room).collect();
            if !with_roms.is_empty() {
                let (head, table, len) = rng.pick(&with_roms);
                let to = board.copy_to_end(table, len);
                board.turn(head + 8, to);
                board.image[head + 12] = board.image[head + 12].saturating_add(1);
            }
        }
        _ => {
            let chunks = rng.pick(&[1, 1, 1, 2, 3, 15, 16, 17]);
            let to = board.room(64 * chunks);
            board.image[to..].fill(b'q');
            if rng.once_in(8) {
                let at = rng.between(to, board.image.len() - 1);
                board.image[at] = 0;
            }
            let skip = if rng.once_in(8) { rng.below(64) } else { 0 };
            let at = if board.names.is_empty() || rng.once_in(3) { HEADER + rng.pick(&[12, 24]) } else { rng.pick(&board.names) };
            board.turn(at, to + skip);
        }
    }
}

/// Damages a board: bytes, pointers, its length.
pub fn damage(rng: &mut Rng, board: &mut Board) {
    for _ in 0..rng.between(1, 3) {
        let len = board.image.len();
        if len == 0 {
            return;
        }
        match rng.below(8) {
            0 => {
                let at = rng.below(len);
                board.image[at] = rng.byte();
            }
            1 => {
                let at = rng.below(len);
                board.image[at] = rng.pick(&[0, 1, 2, 3, 5, 6, 7, 8, 16, 24, 33, 34, 254, 255]);
            }
            2 if len > HEADER_END => {
                let at = HEADER + rng.below(64);
                board.image[at] = rng.pick(&[0, 1, 2, 3, 4, 5, 6, 7, 8, 255]);
            }
            3..=5 if !board.pointers.is_empty() => {
                let (at, to) = rng.pick(&board.pointers);
                if at + 4 <= len {
                    let base = board.base();
                    let end = base.wrapping_add(len as u32);
                    let back = rng.pick(&[0, 1, 3, 4, 7, 8, 15, 16, 63, 64, 65, 87, 88, 89, 127, 128, 255, 256, 257, 1024]);
                    let word = match rng.below(6) {
                        0 => rng.pick(&[0, u32::MAX, base.wrapping_sub(1), base, base.wrapping_add(1), end]),
                        1 => rng.word(),
                        2 => base.wrapping_add(rng.below(len) as u32),
                        3 => base.wrapping_add(to as u32).wrapping_add(rng.pick(&[1, 2, 4, u32::MAX])),
                        _ => end.wrapping_sub(back),
                    };
                    board.image[at..at + 4].copy_from_slice(&word.to_le_bytes());
                }
            }
            6 => {
                let end = if board.ends.is_empty() || rng.once_in(4) { rng.below(len) } else { rng.pick(&board.ends) };
                let end = (end + rng.pick(&[0, 0, 1, 63, 64, 87, 88])).saturating_sub(rng.pick(&[0, 0, 1]));
                let end = if rng.once_in(4) { end } else { end.max(HEADER_END) };
                board.image.truncate(end.min(len));
            }
            _ => {
                let more = rng.pick(&[1, 64, 168, 256]);
                board.image.resize(len + more, rng.byte());
            }
        }
    }
    // a board at the top stays there or close to it
    if board.flash_base as u64 + board.image.len() as u64 > TOP && !rng.once_in(4) {
        board.flash_base = (TOP - board.image.len() as u64) as u32;
    }
}
