//! Whole boards: the opening on both sides, then calls on what it opened.

use onerom_fw_parser::readers::Tried;

use crate::board;
use crate::calls::{self, Call, Job};
use crate::ffi::{self, CReport, Lent, ROM_NAME_REASON, ROM_WORDS};
use crate::fixed::{TEMPLATES, template};
use crate::image::Board;
use crate::opening::{self, Opened, Opening};
use crate::report::Report;
use crate::rng::Rng;
use crate::strings::is_beyond;
use crate::tally::{Compared, Difference, Rule, Tally, differ, same};

const LENT: u32 = 0xA5A5_5A5A;

/// How many words are lent beside those that the rows need; fewer where negative.
#[derive(Debug, Clone, Copy, PartialEq, Eq, Default)]
pub struct Slack {
    pub sets: i32,
    pub roms: i32,
}

/// A call, for whom it is, and the numbers of words that are lent to it.
#[derive(Debug, Clone, Copy, PartialEq, Eq)]
pub struct Lending {
    pub call: Call,
    pub job: Job,
    /// At a base from which the image would reach past 2^32.
    pub beyond: bool,
    pub set_words: usize,
    pub rom_words: usize,
}

/// Words behind the lent ones, which no call may touch.
const GUARD: usize = 16;

/// A buffer of which a front part is lent.
#[derive(Default)]
struct Words {
    all: Vec<u32>,
    lent: usize,
}

impl Words {
    /// Lends so many words, all of them filled anew.
    fn lend(&mut self, needed: usize, slack: i32) {
        self.lent = (needed as i64 + slack as i64).max(0) as usize;
        self.all.clear();
        self.all.resize(self.lent + GUARD, LENT);
    }

    fn part(&mut self) -> &mut [u32] {
        &mut self.all[..self.lent]
    }

    /// The rows, and behind them no word changed.
    fn hold(&self, what: &str, rows: &[u32]) -> Compared {
        let (written, rest) = self.all.split_at(rows.len());
        same(what, written, rows)?;
        match rest.iter().position(|w| *w != LENT) {
            None => Ok(()),
            Some(at) => differ(format!("{what}: a word past the rows was written"), (rows.len() + at, rest[at]), LENT),
        }
    }
}

/// Rows that are lent, reused from board to board.
#[derive(Default)]
pub struct Buffers {
    sets: Words,
    roms: Words,
    log: Vec<Tried>,
}

impl Buffers {
    /// The words lent to the last opening: set rows, ROM rows.
    pub fn lent(&self) -> (usize, usize) {
        (self.sets.lent, self.roms.lent)
    }
}

/// A board that both sides opened alike.
pub struct Both {
    pub opened: Box<Opened>,
    pub report: CReport,
}

/// 44, then 45: lent rows that are short of an accepted walk's. Document 01 adds both.
fn short_rows(opened: &Opened, buffers: &Buffers) -> u32 {
    if buffers.sets.lent < opened.set_rows.len() {
        44
    } else if buffers.roms.lent < opened.rom_rows.len() {
        45
    } else {
        0
    }
}

fn same_report(ours: &Report, rust: &Report) -> Compared {
    same("the header's fields", &ours.fields, &rust.fields)?;
    same("build date: number, offset, length, width", ours.build_date, rust.build_date)?;
    same("hardware revision: number, offset, length, width", ours.hw_rev, rust.hw_rev)?;
    same("extra info", &ours.extra, &rust.extra)?;
    same("metadata's number", ours.metadata, rust.metadata)?;
    same("sets: number, count, served", ours.sets, rust.sets)?;
    same("pins", &ours.pins, &rust.pins)
}

fn count_numbers(report: &Report, rom_rows: &[u32], tally: &mut Tally) {
    tally.number("build date", report.build_date[0]);
    tally.number("hardware rev.", report.hw_rev[0]);
    tally.number("extra info", report.extra.number);
    if report.metadata != crate::report::NOT_LOOKED_FOR {
        tally.number("metadata", report.metadata);
    }
    tally.number("sets", report.sets[0]);
    tally.number("pins", report.pins.number);
    for row in rom_rows.chunks(ROM_WORDS) {
        tally.number("names", row[ROM_NAME_REASON]);
    }
}

/// A refused opening: its number, the fixed report, and no word written.
fn refused(ours: &ffi::COpening, number: u32, buffers: &Buffers, tally: &mut Tally) -> Compared {
    same("the opening's number", ours.number, number)?;
    match ours.report.values() {
        Some(report) => same_report(&report, &Report::none())?,
        None => return differ("a refused opening's report", "a flag or mark out of range", ""),
    }
    buffers.sets.hold("set rows", &[])?;
    buffers.roms.hold("ROM rows", &[])?;
    tally.number("opening", number);
    Ok(())
}

pub fn compare(image: &[u8], flash_base: u32, slack: Slack, buffers: &mut Buffers, tally: &mut Tally) -> Result<Option<Both>, Box<Difference>> {
    let rust = if is_beyond(flash_base, image) {
        tally.rule(Rule::WindowCheck);
        Opening::Refused(1)
    } else {
        opening::of_rust(image, flash_base, &mut buffers.log, tally)?
    };
    let (sets, roms) = match &rust {
        Opening::Opened(o) => (o.set_rows.len(), o.rom_rows.len()),
        Opening::Refused(_) => (0, 0),
    };
    buffers.sets.lend(sets, slack.sets);
    buffers.roms.lend(roms, slack.roms);
    let ours = ffi::open(image, flash_base, buffers.sets.part(), buffers.roms.part());
    let opened = match rust {
        Opening::Refused(number) => return refused(&ours, number, buffers, tally).map(|()| None),
        Opening::Opened(o) => o,
    };
    let short = short_rows(&opened, buffers);
    if short != 0 {
        tally.rule(Rule::RowsShort);
        return refused(&ours, short, buffers, tally).map(|()| None);
    }
    same("the opening's number", ours.number, 0)?;
    match ours.report.values() {
        Some(report) => same_report(&report, &opened.report)?,
        None => return differ("the report", "a flag or mark out of range", &opened.report),
    }
    buffers.sets.hold("set rows", &opened.set_rows)?;
    buffers.roms.hold("ROM rows", &opened.rom_rows)?;
    tally.number("opening", 0);
    count_numbers(&opened.report, &opened.rom_rows, tally);
    Ok(Some(Both { opened, report: ours.report }))
}

pub fn compare_call(image: &[u8], flash_base: u32, both: &mut Both, lending: Lending, tally: &mut Tally) -> Compared {
    let sets = both.opened.set_rows.clone();
    let roms = both.opened.rom_rows.clone();
    let (sets, roms) = (&sets[..lending.set_words.min(sets.len())], &roms[..lending.rom_words.min(roms.len())]);
    let report = both.report;
    let flash_base = if lending.beyond { u32::MAX } else { flash_base };
    calls::compare(Lent { image, flash_base, report: &report, sets, roms }, &mut both.opened, lending.call, lending.job, tally)
}

/// A call on the board, for a job that is drawn from `jobs`; now and then with fewer rows than there are.
pub fn random_call(rng: &mut Rng, jobs: &mut Rng, both: &Both, image: &[u8]) -> Lending {
    let call = calls::random(rng, &both.opened, image.len());
    let job = calls::a_job(jobs, false);
    let (mut set_words, mut rom_words) = (both.opened.set_rows.len(), both.opened.rom_rows.len());
    if rng.once_in(16) {
        set_words = rng.below(set_words + 1);
    }
    if rng.once_in(16) {
        rom_words = rng.below(rom_words + 1);
    }
    Lending { call, job, beyond: false, set_words, rom_words }
}

/// Now and then the same read once more, to be refused with 1 or 83 before all else.
pub fn refused_first(jobs: &mut Rng, read: Lending) -> Option<Lending> {
    if !read.call.is_read() || !jobs.once_in(8) {
        return None;
    }
    let (none, beyond) = jobs.pick(&[(true, false), (true, false), (true, true), (false, true)]);
    Some(Lending { job: calls::a_job(jobs, none), beyond, ..read })
}

// ---- inputs

pub fn slack(rng: &mut Rng) -> Slack {
    let mut one = || match rng.below(16) {
        0 => -(rng.between(1, 16) as i32),
        1..=8 => 0,
        _ => rng.below(20) as i32,
    };
    Slack { sets: one(), roms: one() }
}

/// What a run does with each board.
pub type Each<'a> = &'a mut dyn FnMut(&'static str, &Board, &mut Rng) -> Compared;

/// Bytes that records are judged by.
const EDGES: &[u8] = &[0, 1, 2, 3, 4, 5, 6, 7, 8, 24, 33, 34, 127, 128, 254, 255];

/// Every length of the template boards; every value of every byte; every address in every pointer. `whole`: all of them.
pub fn exhaustive(rng: &mut Rng, whole: bool, each: Each<'_>) -> Compared {
    let every: Vec<u8> = (0..=255).collect();
    let values = if whole { &every } else { EDGES };
    for which in 0..TEMPLATES {
        let made = template(which);
        let len = made.image.len();
        for keep in 0..=len + 200 {
            let mut b = made.clone();
            b.image.resize(keep, 0);
            each("boards: every length", &b, rng)?;
            // the same at the top, where lines but the Rp2350's have no other base
            b.flash_base = 0u32.wrapping_sub(keep as u32);
            b.settle();
            each("boards: every length, at 2^32", &b, rng)?;
        }
        for at in 0..len {
            let mut b = made.clone();
            for &value in values {
                b.image[at] = value;
                each("boards: every value of every byte", &b, rng)?;
            }
        }
        let step = if whole { 1 } else { 7 };
        for at in made.pointer_places() {
            for to in (0..len + 4).step_by(step) {
                let mut b = made.clone();
                b.write_pointer(at, (to as u32).wrapping_sub(2));
                each("boards: every address in every pointer", &b, rng)?;
            }
        }
    }
    Ok(())
}

/// Random boards, each followed by damaged copies.
pub fn random(rng: &mut Rng, count: usize, each: Each<'_>) -> Compared {
    let mut made = Board::default();
    let mut hurt = Board::default();
    let mut left = count;
    let mut number = 0;
    while left > 0 {
        number += 1;
        let (kind, plan) = match number % 1000 {
            0 => ("boards: up to 255 sets", &board::MANY),
            333 => ("boards: up to 255 ROMs in a set", &board::MANY_ROMS),
            666 => ("boards: 64 KiB of ROM data", &board::LARGE),
            _ => ("boards: random", &board::SMALL),
        };
        board::make(rng, plan, &mut made);
        each(kind, &made, rng)?;
        left -= 1;
        for _ in 0..rng.below(3).min(left) {
            hurt.clone_from(&made);
            board::damage(rng, &mut hurt);
            each("boards: damaged", &hurt, rng)?;
            left -= 1;
        }
    }
    Ok(())
}
