//! The runtime record: our call and the Rust's functions on the same bytes.

use onerom_fw_parser::SdrrRuntimeInfo;
use onerom_fw_parser::readers;

use crate::ffi::{self, RUNTIME_WORDS};
use crate::rng::Rng;
use crate::rust::{Answer, Panic, ask, number_of};
use crate::tally::{Compared, Rule, Tally, differ, same};

/// What lent words hold before a call.
const LENT: u32 = 0xA5A5_5A5A;

/// What the Rust's parser reads of a record.
const PARSER_READS: usize = 64;

const TEXTS: &[(&str, u32)] = &[
    ("Runtime info data too small", 2),
    ("Failed to parse runtime info header: magic", 60),
    ("Invalid runtime info size", 61),
];

/// The Rust's fields in the order of the words; a group is present where its fields are given.
fn words_of(r: SdrrRuntimeInfo) -> [u32; RUNTIME_WORDS] {
    let mut w = vec![
        r.image_sel as u32,
        r.rom_set_index as u32,
        r.count_rom_access as u32,
        r.last_parsed_access_count,
        r.account_count_address,
        r.rom_table_address,
        r.rom_table_size,
    ];
    let group = |w: &mut Vec<u32>, fields: &[Option<u32>]| {
        let present = fields.iter().all(Option::is_some);
        // a group of which a part alone is given has no words: 2 makes it a difference
        w.push(if present { 1 } else if fields.iter().all(Option::is_none) { 0 } else { 2 });
        w.extend(fields.iter().map(|f| f.unwrap_or(0)));
    };
    let flag = |f: Option<bool>| f.map(u32::from);
    group(
        &mut w,
        &[
            flag(r.overclock_enabled),
            flag(r.status_led_enabled),
            flag(r.swd_enabled),
            r.fire_vreg.map(|v| v as u32),
            r.ice_freq_mhz.map(u32::from),
            r.fire_freq_mhz.map(u32::from),
            r.sysclk_mhz.map(u32::from),
        ],
    );
    group(&mut w, &[r.fire_serve_mode.map(|m| m as u32), r.bit_mode.map(|m| m as u32)]);
    group(&mut w, &[flag(r.rom_dma_copy), r.num_data_pins.map(u32::from), flag(r.force_16_bit)]);
    group(&mut w, &[r.peri_en.map(u32::from), r.limp_mode.map(|m| m as u32)]);
    w.try_into().expect("25 words")
}

/// 62: RAM base plus 8 above 2^32 − 1, on a record that is not refused before.
fn runtime_base_top(panic: &Panic, record: &[u8], ram_base: u32) -> bool {
    panic.is_overflow_in("lib.rs") && ram_base > u32::MAX - 8 && record.len() >= 20 && record.starts_with(b"sdrr") && record[4] >= 20
}

fn expected(answer: Answer<SdrrRuntimeInfo>, record: &[u8], ram_base: u32, tally: &mut Tally) -> Result<(u32, [u32; RUNTIME_WORDS]), String> {
    let untouched = [LENT; RUNTIME_WORDS];
    match answer {
        Answer::Gave(r) => Ok((0, words_of(r))),
        Answer::Refused(text) => match number_of(&text, TEXTS) {
            Some(number) => Ok((number, untouched)),
            None => Err(text),
        },
        Answer::Panicked(p) if runtime_base_top(&p, record, ram_base) => {
            tally.rule(Rule::RuntimeBaseTop);
            Ok((62, untouched))
        }
        Answer::Panicked(p) => Err(format!("{p:?}")),
    }
}

pub fn compare(record: &[u8], ram_base: u32, tally: &mut Tally) -> Compared {
    let mut words = [LENT; RUNTIME_WORDS];
    let number = ffi::runtime(record, ram_base, &mut words);
    let rust = match expected(ask(|| readers::runtime(record, ram_base)), record, ram_base, tally) {
        Ok(rust) => rust,
        Err(other) => return differ("the runtime record", (number, words), other),
    };
    same("the runtime record", (number, words), rust)?;
    tally.number("runtime", number);
    Ok(())
}

/// The same through the Rust's parser, which reads 64 bytes.
pub fn compare_parser(memory: &[u8], ram_base: u32, tally: &mut Tally) -> Compared {
    let answer = ask(|| readers::ram(memory, ram_base));
    if memory.len() < PARSER_READS {
        return match answer {
            Answer::Refused(text) if text.starts_with("Failed to read SDRR runtime info") => {
                tally.rule(Rule::RuntimeShort);
                Ok(())
            }
            other => differ("a short record through the parser", "", other),
        };
    }
    let record = &memory[..PARSER_READS];
    let mut words = [LENT; RUNTIME_WORDS];
    let number = ffi::runtime(record, ram_base, &mut words);
    match expected(answer, record, ram_base, tally) {
        Ok(rust) => same("the runtime record through the parser", (number, words), rust),
        Err(other) => differ("the runtime record through the parser", (number, words), other),
    }
}

// ---- inputs

pub const RAM_BASE: u32 = 0x2000_0000;

const BASES: &[u32] = &[RAM_BASE, 0, 1, u32::MAX - 9, u32::MAX - 8, u32::MAX - 7, u32::MAX];

fn record(rng: &mut Rng, len: usize) -> Vec<u8> {
    let mut r = vec![0; len];
    rng.fill(&mut r);
    let kinds: &[(usize, &[u8])] = &[(27, &[0, 31, 32, 253, 254, 255, 11]), (34, &[0, 1, 2]), (35, &[0, 1, 2, 3]), (56, &[0, 3, 4])];
    for &(at, values) in kinds {
        if at < len && !rng.once_in(8) {
            r[at] = rng.pick(values);
        }
    }
    if len > 4 {
        r[..4].copy_from_slice(b"sdrr");
        r[4] = rng.pick(&[0, 19, 20, 33, 34, 35, 36, 38, 39, 56, 57, 64, 255]);
        if rng.once_in(16) {
            let at = rng.below(5);
            r[at] = rng.byte();
        }
    }
    r
}

/// Every length with every size byte; every value of every byte; then random records.
pub fn run(rng: &mut Rng, random: usize, mut each: impl FnMut(&'static str, &[u8], u32) -> Compared) -> Compared {
    for len in 0..=66 {
        for size in 0..=255 {
            let mut r = record(rng, len);
            if len > 4 {
                r[..4].copy_from_slice(b"sdrr");
                r[4] = size;
            }
            each("runtime: every length and size byte", &r, RAM_BASE)?;
        }
    }
    for at in 0..64 {
        for value in 0..=255 {
            let mut r = record(rng, 64);
            r[4] = 57;
            r[at] = value;
            each("runtime: every value of every byte", &r, RAM_BASE)?;
        }
    }
    for _ in 0..random {
        let len = rng.pick(&[0, 4, 19, 20, 21, 33, 34, 35, 36, 38, 39, 56, 57, 63, 64, 65, 100]);
        let len = if rng.once_in(4) { rng.below(80) } else { len };
        let base = if rng.once_in(4) { rng.word() } else { rng.pick(BASES) };
        each("runtime: random", &record(rng, len), base)?;
    }
    Ok(())
}
