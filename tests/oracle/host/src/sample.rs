//! A sample of the answers on which both sides agree, for the gate to replay without the Rust: `input|answer`, a line each.
//!
//! Inputs: a letter for the kind, numbers of eight hexadecimal digits, bytes in hexadecimal. Answers: decimal.
//!   r RAM-base record                  the runtime record: number, and its words where accepted
//!   S base pointer image               a string: number, offset, length, width
//!   g pins-number served set-words rom-words first count type address levels pins      mangling: number, value
//!   d pins-number byte data-pins       demangling: number, value
//!   o flash-base CS0-base info-offset set-words rom-words image      the opening: number; the report; set rows; ROM rows
//!   c kind set address levels length count      a call on the board of the last line `o`. size, same: number, value; data, raw, raw-raw,
//!                                      logical, logical-raw: number, bytes in hexadecimal (`-` for none), the count of the job that reads
//! Levels have a digit each, CS1 the lowest: 0 low, 1 high, 2 not given. The report's words are document 01's in order, a word each; a text of
//! it is its number, offset, length and width; metadata that is not looked for is 256.

use crate::board;
use crate::boards::{self, Both, Buffers, Lending};
use crate::calls::Call;
use crate::ffi::{self, Address, Lent};
use crate::image::{Board, CS0_BASE, INFO_OFFSET};
use crate::mangling::{self, Subject};
use crate::report::{NOT_LOOKED_FOR, Report};
use crate::rng::Rng;
use crate::tally::{Compared, Tally};
use crate::{runtime, strings};
use std::collections::BTreeMap;

fn hex(bytes: &[u8]) -> String {
    bytes.iter().map(|b| format!("{b:02x}")).collect()
}

fn line(kind: &str, numbers: &[u32], bytes: &[u8], answer: &[u32]) {
    let numbers: Vec<String> = numbers.iter().map(|n| format!("{n:08x}")).collect();
    let answer: Vec<String> = answer.iter().map(u32::to_string).collect();
    println!("{kind} {} {}|{}", numbers.join(" "), hex(bytes), answer.join(" "));
}

/// Keeps inputs until each outcome is there so many times.
struct Wanted {
    times: usize,
    seen: BTreeMap<(&'static str, u32), usize>,
}

impl Wanted {
    fn new(times: usize) -> Wanted {
        Wanted { times, seen: BTreeMap::new() }
    }

    fn takes(&mut self, outcomes: &[(&'static str, u32)]) -> bool {
        let news = outcomes.iter().any(|o| self.seen.get(o).is_none_or(|n| *n < self.times));
        if news {
            for o in outcomes {
                *self.seen.entry(*o).or_default() += 1;
            }
        }
        news
    }
}

fn runtimes(rng: &mut Rng, tally: &mut Tally) -> Compared {
    let mut wanted = Wanted::new(6);
    runtime::run(rng, 3000, |_, record, ram_base| {
        runtime::compare(record, ram_base, tally)?;
        let mut words = [0; ffi::RUNTIME_WORDS];
        let number = ffi::runtime(record, ram_base, &mut words);
        let groups = words[7] | words[15] << 1 | words[18] << 2 | words[22] << 3;
        if wanted.takes(&[("number", number), ("groups", groups), ("length", record.len() as u32 / 8)]) {
            let all = [&[number], &words[..]].concat();
            line("r", &[ram_base], record, if number == 0 { &all } else { &all[..1] });
        }
        Ok(())
    })
}

fn texts(rng: &mut Rng, tally: &mut Tally) -> Compared {
    let mut wanted = Wanted::new(3);
    strings::run(rng, false, 3000, &mut |kind, image, base, pointer| {
        strings::compare(image, base, pointer, tally)?;
        let mut part = [0; ffi::PART_WORDS];
        let number = ffi::string(image, base, pointer, &mut part);
        let [offset, length, width] = part;
        // long images where nothing shorter would do
        let short = image.len() <= 130 || number == 20 || length > 1000;
        let lead = image.first().map_or(0, |b| *b as u32 / 4);
        if short && wanted.takes(&[(kind, number), ("length", length / 32), ("lead", lead), ("bytes above the width", (length - width).min(4))]) {
            line("S", &[base, pointer], image, &[number, offset, length, width]);
        }
        Ok(())
    })
}

fn digits(levels: &[u8; 5]) -> u32 {
    levels.iter().rev().fold(0, |all, level| all << 4 | (*level).min(2) as u32)
}

fn pins_bytes(pins: &ffi::Pins) -> Vec<u8> {
    [&[pins.rom_pins], &pins.data[..], &pins.addr, &pins.control].concat()
}

fn mangles(rng: &mut Rng, tally: &mut Tally, subject: &mut Subject) -> Compared {
    let mut wanted = Wanted::new(5);
    mangling::run_mangles(rng, false, 20_000, |kind, case| {
        subject.compare_mangle(case, tally)?;
        let mut value = 0;
        let number = ffi::mangle(&case.pins, case.rows(), case.address, &case.levels, &mut value);
        let word = |rows: &[u32], at: usize| rows.get(at).copied().unwrap_or(0);
        let (first, count) = (word(&case.sets, 2), word(&case.sets, 3));
        let rom_type = word(&case.roms, ffi::ROM_WORDS * first as usize);
        // the list gives rows by their lengths and the words that count
        if kind == "mangles: random" && wanted.takes(&[("number", number), ("type", 100 * u32::from(number == 0) + rom_type)]) {
            let (served, words) = (case.served, (case.sets.len() as u32, case.roms.len() as u32));
            let numbers = [case.pins.number as u32, served, words.0, words.1, first, count, rom_type, case.address, digits(&case.levels)];
            line("g", &numbers, &pins_bytes(&case.pins), &[number, value]);
        }
        Ok(())
    })?;
    let mut wanted = Wanted::new(40);
    mangling::run_demangles(rng, 2000, |kind, pins, byte| {
        subject.compare_demangle(pins, byte, tally)?;
        let mut value = 0;
        let number = ffi::demangle(pins, byte, &mut value);
        if kind == "demangles: random" && wanted.takes(&[("number", number)]) {
            line("d", &[pins.number as u32, byte as u32], &pins.data, &[number, value as u32]);
        }
        Ok(())
    })
}

/// The report's words, in document 01's order.
fn report_words(r: &Report) -> Vec<u32> {
    let f = &r.fields;
    let mut w: Vec<u32> = f.version.iter().map(|v| *v as u32).collect();
    w.extend(f.commit.iter().map(|b| *b as u32));
    w.extend([f.line, f.storage, f.freq]);
    w.extend(f.flags.iter().map(|f| u32::from(*f)));
    w.push(u32::from(f.counting));
    w.extend(f.boot_config.iter().map(|b| *b as u32));
    w.extend(r.build_date);
    w.extend(r.hw_rev);
    let e = &r.extra;
    w.extend([e.number, e.rtt_ptr, u32::from(e.usb_dfu), e.usb_port, e.vbus_pin, e.pio_default, e.runtime_ptr]);
    w.push(if r.metadata == NOT_LOOKED_FOR { 256 } else { r.metadata });
    w.extend(r.sets);
    w.push(r.pins.number);
    w.extend(r.pins.pins.iter().map(|b| *b as u32));
    w
}

fn joined(words: &[u32]) -> String {
    words.iter().map(u32::to_string).collect::<Vec<_>>().join(" ")
}

fn open_line(board: &Board, number: u32, set_words: usize, rom_words: usize, both: Option<&Both>) {
    let numbers = [board.flash_base, CS0_BASE, INFO_OFFSET, set_words as u32, rom_words as u32].map(|n| format!("{n:08x}")).join(" ");
    let parts = match both {
        None => String::new(),
        Some(b) => {
            let o = &b.opened;
            format!("; {}; {}; {}", joined(&report_words(&o.report)), joined(&o.set_rows), joined(&o.rom_rows))
        }
    };
    println!("o {numbers} {}|{number}{parts}", hex(&board.image));
}

/// Bytes that were read; none where the call was refused.
fn bytes_read(number: u32, bytes: &[u8]) -> String {
    if number == 0 && !bytes.is_empty() { hex(bytes) } else { "-".into() }
}

/// The kind's name, the numbers, and the answer as our call gives it.
fn call_line(lending: Lending, lent: Lent<'_>) {
    let job = lending.job;
    let (kind, numbers, answer) = match lending.call {
        Call::Size { set } => {
            let mut value = 0;
            let number = ffi::size(lent, set, &mut value);
            ("size", [set, 0, 0, 0, 0], format!("{number} {value}"))
        }
        Call::Same { a, b } => {
            let mut value = 0;
            let number = ffi::same_set(lent, a, b, &mut value);
            ("same", [a, b, 0, 0, 0], format!("{number} {value}"))
        }
        Call::Data { set, offset, len, count } => {
            let (mut buffer, mut counts) = (vec![0; len], job.counts(count));
            let number = ffi::data(lent, set, offset, &mut buffer, job.number, &mut counts);
            let after = job.own(&counts);
            ("data", [set, offset, 0, len as u32, count], format!("{number} {} {after}", bytes_read(number, &buffer)))
        }
        Call::Byte { set, address, demangled, count } => {
            let (mut value, mut counts) = (0, job.counts(count));
            let number = ffi::byte(lent, set, address, demangled, job.number, &mut counts, &mut value);
            let after = job.own(&counts);
            let (kind, at, levels) = match (address, demangled) {
                (Address::Raw(at), false) => ("raw-raw", at, 0),
                (Address::Raw(at), true) => ("raw", at, 0),
                (Address::Logical(at, levels), false) => ("logical-raw", at, digits(&levels)),
                (Address::Logical(at, levels), true) => ("logical", at, digits(&levels)),
            };
            (kind, [set, at, levels, 1, count], format!("{number} {} {after}", bytes_read(number, &[value])))
        }
        // never drawn: the sample holds the Rust's answers, and the Rust has no such read
        Call::Own { .. } => return,
    };
    println!("c {kind} {}|{answer}", numbers.map(|n| format!("{n:08x}")).join(" "));
}

fn one_board(rng: &mut Rng, jobs: &mut Rng, board: &Board, wanted: &mut Wanted, buffers: &mut Buffers, tally: &mut Tally) -> Compared {
    if board.image.len() > 1000 {
        return Ok(());
    }
    let slack = boards::slack(rng);
    let both = boards::compare(&board.image, board.flash_base, slack, buffers, tally)?;
    let (set_words, rom_words) = buffers.lent();
    let Some(mut both) = both else {
        let number = ffi::open(&board.image, board.flash_base, &mut vec![0; set_words], &mut vec![0; rom_words]).number;
        if wanted.takes(&[("opening", number)]) {
            open_line(board, number, set_words, rom_words, None);
        }
        return Ok(());
    };
    let r = &both.opened.report;
    let mut outcomes = vec![
        ("date", r.build_date[0]),
        ("revision", r.hw_rev[0]),
        ("extra info", r.extra.number),
        ("metadata", r.metadata),
        ("sets", r.sets[0]),
        ("pins", r.pins.number),
        ("version", 100 * r.fields.version[1] as u32 + r.fields.version[2].min(2) as u32),
        ("line", r.fields.line),
    ];
    outcomes.extend(both.opened.rom_rows.chunks(ffi::ROM_WORDS).map(|row| ("name", row[ffi::ROM_NAME_REASON])));
    let mut lendings = Vec::new();
    for _ in 0..8 {
        // the whole rows: the list says nothing of rows that are cut
        let lending = Lending { set_words: usize::MAX, rom_words: usize::MAX, ..boards::random_call(rng, jobs, &both, &board.image) };
        let before = tally.numbers_seen();
        boards::compare_call(&board.image, board.flash_base, &mut both, lending, tally)?;
        outcomes.extend(tally.numbers_since(&before));
        lendings.push(lending);
    }
    if !wanted.takes(&outcomes) {
        return Ok(());
    }
    open_line(board, 0, set_words, rom_words, Some(&both));
    let o = &both.opened;
    let lent = Lent { image: &board.image, flash_base: board.flash_base, report: &both.report, sets: &o.set_rows, roms: &o.rom_rows };
    // a panic of the Rust's opening leaves no board to ask
    if o.info.is_some() {
        for lending in lendings {
            call_line(lending, lent);
        }
    }
    Ok(())
}

fn whole_boards(rng: &mut Rng, jobs: &mut Rng, tally: &mut Tally) -> Compared {
    let mut wanted = Wanted::new(2);
    let mut buffers = Buffers::default();
    let mut board = Board::default();
    for i in 0..20_000 {
        if i % 2 == 0 || board.image.is_empty() {
            board::make(rng, &board::SMALL, &mut board);
        } else {
            board::damage(rng, &mut board);
        }
        one_board(rng, jobs, &board, &mut wanted, &mut buffers, tally)?;
    }
    Ok(())
}

pub fn print(seed: u64) -> Compared {
    let mut rng = Rng::new(seed);
    let mut tally = Tally::default();
    let mut subject = Subject::new();
    runtimes(&mut rng, &mut tally)?;
    texts(&mut rng, &mut tally)?;
    mangles(&mut rng, &mut tally, &mut subject)?;
    // which job a call is for shows in no line
    whole_boards(&mut rng, &mut Rng::new(seed + 1), &mut tally)
}
