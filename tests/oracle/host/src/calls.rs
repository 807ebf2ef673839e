//! Calls on an opened board: size, ROM data, byte reads and same set. The Rust's answers by the board as it holds it, with the rules.

use onerom_fw_parser::readers::{Window, block_on};
use onerom_fw_parser::{Parser, SdrrAddress, SdrrInfo, SdrrLogicalAddress};

use crate::ffi::{self, Address, JOBS, Lent, ROM_WORDS, Rows, SET_WORDS};
use crate::mangling::{self, MANGLE_TEXTS, cs_set, demangle_pin, lacks_rows, mangle_panic};
use crate::opening::Opened;
use crate::rng::Rng;
use crate::rust::{Answer, ask, number_of};
use crate::strings::is_beyond;
use crate::tally::{Compared, Difference, Rule, Tally, differ, same};

const LENT: u32 = 0xA5A5_5A5A;
const LENT_BYTE: u8 = 0xA5;

/// Bytes behind the lent ones, which no call may touch.
const GUARD: usize = 16;

const DATA_TEXTS: &[(&str, u32)] =
    &[("ROM set ", 80), ("Read extends past ROM set data ", 81), ("Failed to read ROM data", 2), ("Pin configuration not available", 70)];

#[derive(Debug, Clone, Copy, PartialEq, Eq)]
pub enum Call {
    Size { set: u32 },
    Same { a: u32, b: u32 },
    Data { set: u32, offset: u32, len: usize, count: u32 },
    Byte { set: u32, address: Address, demangled: bool, count: u32 },
    Own { set: u32, address: u32, levels: [u8; 5], count: u32 },
}

impl Call {
    /// Not a size, nor same set.
    pub fn is_read(self) -> bool {
        !matches!(self, Call::Size { .. } | Call::Same { .. })
    }

    /// The read by the set's own ROMs with the arguments of a logical read. It is not drawn by itself, so that what is drawn, and with it the
    /// sample, stays as it is.
    pub fn by_own_roms(self) -> Option<Call> {
        match self {
            Call::Byte { set, address: Address::Logical(address, levels), count, .. } => Some(Call::Own { set, address, levels, count }),
            _ => None,
        }
    }
}

/// For whom a read is, a job beside others. The Rust has no jobs: the `count` of a call is this job's.
#[derive(Debug, Clone, Copy, PartialEq, Eq, Default)]
pub struct Job {
    pub number: u32,
    /// What the counts hold, but for the job's own.
    pub others: [u32; JOBS],
}

impl Job {
    /// The eight counts with the job's own, if there is such a job.
    pub fn counts(&self, own: u32) -> [u32; JOBS] {
        let mut counts = self.others;
        if let Some(count) = counts.get_mut(self.number as usize) {
            *count = own;
        }
        counts
    }

    /// The job's own of eight counts; 0 if there is no such job.
    pub fn own(&self, counts: &[u32; JOBS]) -> u32 {
        counts.get(self.number as usize).copied().unwrap_or(0)
    }
}

/// Number, value or bytes, and the job's count afterwards.
type Reply = (u32, Vec<u8>, u32);

type Asked<T> = Result<T, Box<Difference>>;

fn unknown<T>(answer: impl std::fmt::Debug) -> Asked<T> {
    differ("a call: no number is known for this answer of the Rust's", "", answer)
}

/// The Rust's board with the rows as they are lent.
struct Asker<'a> {
    lent: Lent<'a>,
    base: u32,
    info: &'a mut SdrrInfo,
    tally: &'a mut Tally,
}

impl Asker<'_> {
    fn served(&self) -> u32 {
        self.info.rom_sets.len() as u32
    }

    /// The Rust's set number is a byte, and 255 is never one of a board.
    fn set(&mut self, set: u32) -> u8 {
        if set > 255 {
            self.tally.rule(Rule::SetAboveByte);
        }
        set.min(255) as u8
    }

    /// 4: the named set is served and its row isn't among those lent.
    fn lacks_set(&mut self, set: u32) -> bool {
        let lacks = set < self.served() && SET_WORDS * (set as usize + 1) > self.lent.sets.len();
        if lacks {
            self.tally.rule(Rule::LentRows);
        }
        lacks
    }

    fn size(&mut self, set: u32) -> Asked<(u32, u32)> {
        if self.lacks_set(set) {
            return Ok((4, LENT));
        }
        let byte = self.set(set);
        match ask(|| self.info.get_rom_set_size(byte)) {
            Answer::Gave(size) => Ok((0, size as u32)),
            Answer::Refused(text) => number_of(&text, DATA_TEXTS).map_or_else(|| unknown(text), |n| Ok((n, LENT))),
            other => unknown(other),
        }
    }

    /// The number of a panic of `read_rom_set_data`.
    fn data_panic(&mut self, panic: &crate::rust::Panic, set: u32, offset: u32, len: usize) -> Option<u32> {
        let row = self.info.rom_sets.get(set as usize)?;
        let end = offset as u64 + len as u64;
        if !panic.is_overflow_in("info.rs") {
            None
        } else if end > u32::MAX as u64 {
            self.tally.rule(Rule::DataOffsetTop);
            Some(81)
        } else if end <= row.size as u64 && row.data_ptr as u64 + offset as u64 > u32::MAX as u64 {
            self.tally.rule(Rule::DataAddressTop);
            Some(2)
        } else {
            None
        }
    }

    /// 82: the count would pass 4,294,967,295.
    fn passes(&mut self, count: u32, len: usize) -> bool {
        let passes = count as u64 + len as u64 > u32::MAX as u64;
        if passes {
            self.tally.rule(Rule::CountTop);
        }
        passes
    }

    fn data(&mut self, set: u32, offset: u32, len: usize, count: u32) -> Asked<Reply> {
        let untouched = vec![LENT_BYTE; len];
        if self.lacks_set(set) {
            return Ok((4, untouched, count));
        }
        let byte = self.set(set);
        let mut buffer = untouched.clone();
        let mut window = Window { image: self.lent.image, base: self.base };
        let mut parser = Parser::with_base_flash_address(&mut window, self.base, 0);
        let number = match ask(|| block_on(self.info.read_rom_set_data(&mut parser, byte, offset, &mut buffer))) {
            Answer::Gave(()) if self.passes(count, len) => 82,
            Answer::Gave(()) => return Ok((0, buffer, count + len as u32)),
            Answer::Refused(text) => number_of(&text, DATA_TEXTS).map_or_else(|| unknown(text), Ok)?,
            Answer::Panicked(p) => self.data_panic(&p, set, offset, len).map_or_else(|| unknown(p), Ok)?,
        };
        Ok((number, untouched, count))
    }

    /// The offset of a logical address, or mangling's number.
    fn offset(&mut self, address: u32, levels: &[u8; 5]) -> Asked<Result<u32, u32>> {
        let rows = Rows { served: self.served(), sets: self.lent.sets, roms: self.lent.roms };
        if self.info.pins.is_some() && rows.served != 0 && lacks_rows(rows) {
            self.tally.rule(Rule::LentRows);
            return Ok(Err(4));
        }
        match ask(|| self.info.mangle_address(&SdrrLogicalAddress::new(address, cs_set(levels)))) {
            Answer::Gave(offset) => Ok(Ok(offset)),
            Answer::Refused(text) => number_of(&text, MANGLE_TEXTS).map_or_else(|| unknown(text), |n| Ok(Err(n))),
            Answer::Panicked(p) => {
                let Some(pins) = &self.info.pins else { return unknown(p) };
                let Some(set) = self.info.rom_sets.first() else { return unknown(p) };
                let kind = set.roms.first().map(|r| r.rom_type);
                let Some((rule, number)) = mangle_panic(&p, pins, set.rom_count as u32, kind) else { return unknown(p) };
                self.tally.rule(rule);
                Ok(Err(number))
            }
        }
    }

    fn byte(&mut self, set: u32, address: Address, demangled: bool, count: u32) -> Asked<Reply> {
        let refused = |number| Ok((number, vec![LENT_BYTE], count));
        let (offset, asked) = match address {
            Address::Raw(offset) => (offset, SdrrAddress::Raw(offset)),
            Address::Logical(address, levels) => match self.offset(address, &levels)? {
                Ok(offset) => (offset, SdrrAddress::Logical(SdrrLogicalAddress::new(address, cs_set(&levels)))),
                Err(number) => return refused(number),
            },
        };
        if self.lacks_set(set) {
            return refused(4);
        }
        let byte = self.set(set);
        let mut window = Window { image: self.lent.image, base: self.base };
        let mut parser = Parser::with_base_flash_address(&mut window, self.base, 0);
        let raw = match ask(|| block_on(self.info.read_rom_byte_raw(&mut parser, byte, asked))) {
            Answer::Gave(raw) => raw,
            Answer::Refused(text) => return refused(number_of(&text, DATA_TEXTS).map_or_else(|| unknown(text), Ok)?),
            Answer::Panicked(p) => return refused(self.data_panic(&p, set, offset, 1).map_or_else(|| unknown(p), Ok)?),
        };
        if self.passes(count, 1) {
            return refused(82);
        }
        if !demangled {
            return Ok((0, vec![raw], count + 1));
        }
        match ask(|| block_on(self.info.read_rom_byte_demangled(&mut parser, byte, asked))) {
            Answer::Gave(value) => Ok((0, vec![value], count + 1)),
            Answer::Refused(text) => refused(number_of(&text, DATA_TEXTS).map_or_else(|| unknown(text), Ok)?),
            Answer::Panicked(p) => match &self.info.pins {
                Some(pins) if demangle_pin(&p, &pins.data) => {
                    self.tally.rule(Rule::DemanglePin);
                    refused(79)
                }
                _ => unknown(p),
            },
        }
    }

    /// The Rust has no such read. It is asked for the old one, of a board on which the named set has set 0's place, and with it its rows.
    fn own(&mut self, set: u32, address: u32, levels: [u8; 5], count: u32) -> Asked<Reply> {
        let refused = |number| Ok((number, vec![LENT_BYTE], count));
        if set >= self.served() {
            return refused(80);
        }
        let set = set as usize;
        let whole = self.lent.sets;
        let sets = whole.get(SET_WORDS * set..).unwrap_or(&[]);
        // 4 comes before 70 here
        if lacks_rows(Rows { served: 1, sets, roms: self.lent.roms }) {
            self.tally.rule(Rule::LentRows);
            return refused(4);
        }
        self.lent.sets = sets;
        self.info.rom_sets.swap(0, set);
        let reply = self.byte(0, Address::Logical(address, levels), true, count);
        self.info.rom_sets.swap(0, set);
        self.lent.sets = whole;
        reply
    }
}

/// The number of the read of set 0 by its own ROMs, where the old read's is this: 80 and 4 come before 70, and nothing served is 80.
fn own_number(old: u32, rows: Rows<'_>) -> u32 {
    match old {
        70 | 71 if rows.served == 0 => 80,
        70 if lacks_rows(rows) => 4,
        number => number,
    }
}

/// Document 01's same set, by the rows: the Rust has no such call.
fn same_by_rows(lent: Lent<'_>, served: u32, a: u32, b: u32) -> (u32, u32) {
    if a >= served || b >= served {
        return (80, LENT);
    }
    let mut facts = Vec::new();
    for set in [a, b] {
        let Some(row) = lent.sets.get(SET_WORDS * set as usize..SET_WORDS * (set as usize + 1)) else { return (4, LENT) };
        let (first, count) = (row[2] as usize, row[3] as usize);
        // a set without ROMs needs no ROM row, wherever its first would stand
        let part = if count == 0 { 0..0 } else { ROM_WORDS * first..ROM_WORDS * (first + count) };
        let Some(roms) = lent.roms.get(part) else { return (4, LENT) };
        let types: Vec<u32> = roms.chunks(ROM_WORDS).map(|r| r[0]).collect();
        if types.iter().any(|t| *t > 33) {
            return (4, LENT);
        }
        facts.push((row[1], row[3], row[4], types));
    }
    (0, u32::from(facts[0] == facts[1]))
}

/// One call on both sides. `opened` is the Rust's board.
pub fn compare(lent: Lent<'_>, opened: &mut Opened, call: Call, job: Job, tally: &mut Tally) -> Compared {
    let Some(info) = &mut opened.info else { return Ok(()) };
    let beyond = is_beyond(lent.flash_base, lent.image);
    let no_job = job.number as usize >= JOBS;
    // 1, then 83: the Rust has neither, and is not asked
    let added = if beyond { Some(1) } else { no_job.then_some(83) };
    let with_counts = |(number, bytes, own): Reply| (number, bytes, job.counts(own));
    let mut rust = Asker { lent, base: opened.base, info, tally };
    match call {
        Call::Size { set } => {
            let mut value = LENT;
            let number = ffi::size(lent, set, &mut value);
            same("a set's size", (number, value), rust.size(set)?)?;
            tally.number("size", number);
        }
        Call::Same { a, b } => {
            let mut value = LENT;
            let number = ffi::same_set(lent, a, b, &mut value);
            tally.rule(Rule::SameSet);
            same("same set", (number, value), same_by_rows(lent, lent.report.served(), a, b))?;
            tally.number("same set", number);
        }
        Call::Data { set, offset, len, count } => {
            let (mut buffer, mut counts) = (vec![LENT_BYTE; len + GUARD], job.counts(count));
            let number = ffi::data(lent, set, offset, &mut buffer[..len], job.number, &mut counts);
            same("the bytes behind the buffer", &buffer[len..], &[LENT_BYTE; GUARD])?;
            buffer.truncate(len);
            let expected = match added {
                Some(number) => (number, vec![LENT_BYTE; len], count),
                None => rust.data(set, offset, len, count)?,
            };
            same("ROM data", (number, buffer, counts), with_counts(expected))?;
            tally.number("ROM data", number);
        }
        Call::Byte { set, address, demangled, count } => {
            let (mut value, mut counts) = (LENT_BYTE, job.counts(count));
            let number = ffi::byte(lent, set, address, demangled, job.number, &mut counts, &mut value);
            let expected = match added {
                Some(number) => (number, vec![LENT_BYTE], count),
                None => rust.byte(set, address, demangled, count)?,
            };
            same("a byte read", (number, vec![value], counts), with_counts(expected))?;
            tally.number(if demangled { "byte, demangled" } else { "byte, raw" }, number);
        }
        Call::Own { set, address, levels, count } => {
            let (mut value, mut counts) = (LENT_BYTE, job.counts(count));
            let number = ffi::byte_own(lent, set, address, levels, job.number, &mut counts, &mut value);
            let expected = match added {
                Some(number) => (number, vec![LENT_BYTE], count),
                None => rust.own(set, address, levels, count)?,
            };
            tally.rule(Rule::OwnRoms);
            same("a byte read by the set's own ROMs", (number, vec![value], counts), with_counts(expected))?;
            if set == 0 {
                let (mut old_value, mut old_counts) = (LENT_BYTE, job.counts(count));
                let old = ffi::byte(lent, 0, Address::Logical(address, levels), true, job.number, &mut old_counts, &mut old_value);
                let rows = Rows { served: lent.report.served(), sets: lent.sets, roms: lent.roms };
                tally.rule(Rule::OwnRomsOfSet0);
                same("set 0 by its own ROMs, and by the old read", (number, value, counts), (own_number(old, rows), old_value, old_counts))?;
            }
            tally.number("byte, own ROMs", number);
        }
    }
    if beyond {
        tally.rule(Rule::WindowCheck);
    } else if no_job && call.is_read() {
        tally.rule(Rule::NoJob);
    }
    Ok(())
}

// ---- inputs

fn a_set(rng: &mut Rng, served: usize) -> u32 {
    match rng.below(16) {
        0 => served as u32,
        1 => rng.pick(&[255, 256, 257, u32::MAX]),
        _ => rng.below(served.max(1)) as u32,
    }
}

fn a_count(rng: &mut Rng, len: usize) -> u32 {
    if rng.once_in(8) { u32::MAX - rng.pick(&[0, 1, len as u32, (len as u32).wrapping_sub(1)]) } else { rng.word() >> 1 }
}

/// A job beside seven others; `none`: a number that is no job's. Drawn apart from the calls, which so stay what they are.
pub fn a_job(rng: &mut Rng, none: bool) -> Job {
    let others = std::array::from_fn(|_| if rng.once_in(4) { rng.pick(&[0, 1, u32::MAX - 1, u32::MAX]) } else { rng.word() });
    let number = match rng.below(3) {
        _ if !none => rng.below(JOBS) as u32,
        0 => rng.pick(&[8, 9, 255, 256, 263, 65536, u32::MAX - 7, u32::MAX]),
        1 => 8 << rng.below(29),
        _ => rng.word().max(8),
    };
    Job { number, others }
}

/// A call on a board with these sets; offsets around the ends of the sets and of the image.
pub fn random(rng: &mut Rng, opened: &Opened, image_len: usize) -> Call {
    let served = opened.report.sets[2] as usize;
    let set = a_set(rng, served);
    let row = opened.set_rows.get(SET_WORDS * set as usize..SET_WORDS * (set as usize + 1)).unwrap_or(&[0; SET_WORDS]);
    let len = rng.pick(&[0, 0, 1, 1, 2, 16, 63, 64, 65, 256]);
    let len = if row[1] <= 65536 && rng.once_in(24) { row[1] as usize + rng.below(2) } else { len };
    let end = (opened.base as u64 + image_len as u64).wrapping_sub(row[0] as u64) as u32;
    let back = rng.pick(&[0, 0, 1, len as u32, len as u32 + 1]);
    let offset = match rng.below(8) {
        _ if len > 256 && rng.once_in(2) => 0,
        0 => rng.word(),
        1 => row[1].wrapping_sub(back),
        2 => end.wrapping_sub(back),
        3 => 0u32.wrapping_sub(row[0]).wrapping_sub(back),
        4 => u32::MAX - rng.pick(&[0, 1, len as u32]),
        _ => rng.below(64) as u32,
    };
    match rng.below(10) {
        0 => Call::Size { set },
        1 => Call::Same { a: set, b: a_set(rng, served) },
        2..=4 => Call::Data { set, offset, len, count: a_count(rng, len) },
        _ => {
            let address = if rng.once_in(3) { Address::Raw(offset) } else { Address::Logical(mangling::address(rng), mangling::levels(rng)) };
            Call::Byte { set, address, demangled: rng.once_in(2), count: a_count(rng, 1) }
        }
    }
}
