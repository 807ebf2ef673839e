//! Mangling and demangling: our calls, and the Rust's on a board that it opened itself and whose pins and first set are then replaced.

use deku::prelude::*;
use onerom_fw_parser::readers::{Window, block_on};
use onerom_fw_parser::{Parser, SdrrCsSet, SdrrInfo, SdrrLogicalAddress, SdrrPins, SdrrRomType};

use crate::ffi::{self, Pins, ROM_WORDS, Rows, SET_WORDS};
use crate::fixed::template;
use crate::rng::Rng;
use crate::rust::{Answer, Panic, ask, number_of};
use crate::tally::{Compared, Rule, Tally, differ, same};

const LENT: u32 = 0xA5A5_5A5A;
const LENT_BYTE: u8 = 0xA5;

pub const MANGLE_TEXTS: &[(&str, u32)] = &[
    ("Pin configuration not available", 70),
    ("No ROM sets available", 71),
    ("ROM type ", 75),
    ("RAM 6116 not supported for address mangling", 75),
    ("Requested Address 0x", 77),
];

#[derive(Debug, Clone)]
pub struct Case {
    pub pins: Pins,
    pub served: u32,
    pub sets: Vec<u32>,
    pub roms: Vec<u32>,
    pub address: u32,
    pub levels: [u8; 5],
}

impl Case {
    pub fn rows(&self) -> Rows<'_> {
        Rows { served: self.served, sets: &self.sets, roms: &self.roms }
    }
}

/// A level of include/onerom.h; the Rust's CS1 is always given.
pub fn cs_set(levels: &[u8; 5]) -> SdrrCsSet {
    let level = |n: u8| match n {
        1 => Some(true),
        0 => Some(false),
        _ => None,
    };
    SdrrCsSet::new(levels[0] == 1, level(levels[1]), level(levels[2]), level(levels[3]), level(levels[4]))
}

pub fn rom_type(number: u32) -> Option<SdrrRomType> {
    let byte = u8::try_from(number).ok()?;
    SdrrRomType::from_bytes((&[byte], 0)).ok().map(|(_, t)| t)
}

/// Document 01's 4, right after 71: a needed row isn't among those lent, or a needed type is above 33.
pub fn lacks_rows(rows: Rows<'_>) -> bool {
    if rows.sets.len() < SET_WORDS {
        return true;
    }
    let (first, count) = (rows.sets[2] as usize, rows.sets[3]);
    count != 0 && (ROM_WORDS * (first + 1) > rows.roms.len() || rows.roms[ROM_WORDS * first] > 33)
}

/// The number of a panic of `mangle_address`, each under its own condition.
pub fn mangle_panic(panic: &Panic, pins: &SdrrPins, rom_count: u32, rom_type: Option<SdrrRomType>) -> Option<(Rule, u32)> {
    if panic.file != "info.rs" {
        return None;
    }
    let mut pins = pins.clone();
    pins.base_zero();
    let several = rom_count > 1;
    let low = pins.x1 < 16 && pins.x2 < 16;
    let mapped = pins.addr.contains(&pins.x1) || pins.addr.contains(&pins.x2);
    let message = panic.message.as_str();
    match message {
        "X1 and X2 pins must be less than 16" if several && !low => return Some((Rule::MangleX, 72)),
        "X1 and X2 pins must not overlap with other address pins" if several && low && mapped => return Some((Rule::MangleMapped, 73)),
        "index out of bounds: the len is 0 but the index is 0" if rom_count == 0 => return Some((Rule::MangleNoRom, 74)),
        "internal error: entered unreachable code" if rom_type == Some(SdrrRomType::Rom28C16) => return Some((Rule::Mangle28C16, 78)),
        _ => {}
    }
    let control = [("CS1", pins.cs1), ("CS2", pins.cs2), ("CS3", pins.cs3), ("CE", pins.ce), ("OE", pins.oe)];
    let rom_type = rom_type?;
    if let Some(index) = message.strip_prefix("index out of bounds: the len is 16 but the index is ") {
        let index: u8 = index.parse().ok()?;
        let used = control.iter().any(|(_, pin)| *pin == index);
        return (used && index < 18 && rom_type.rom_pins() == 28).then_some((Rule::MangleControl28, 76));
    }
    // "CS1 pin for 2364 must be less than 16"
    let (name, rest) = message.split_once(" pin for ")?;
    let (kind, limit) = rest.split_once(" must be less than ")?;
    let pin = control.iter().find(|(n, _)| *n == name)?.1;
    let limit: u8 = limit.parse().ok()?;
    (kind == rom_type.to_string() && limit >= 16 && pin >= limit).then_some((Rule::MangleControl, 76))
}

/// The board that the Rust is asked about.
pub struct Subject {
    info: SdrrInfo,
}

impl Subject {
    pub fn new() -> Subject {
        let made = template(0);
        let mut window = Window { image: &made.image, base: made.flash_base };
        let mut parser = Parser::with_base_flash_address(&mut window, made.flash_base, 0);
        let info = block_on(parser.parse_flash()).expect("the template opens");
        assert!(!info.rom_sets.is_empty() && !info.rom_sets[0].roms.is_empty() && info.pins.is_some(), "the template has a set and pins");
        Subject { info }
    }

    fn put_pins(&mut self, pins: &Pins) {
        let p = self.info.pins.as_mut().expect("kept");
        p.rom_pins = pins.rom_pins;
        p.data.copy_from_slice(&pins.data);
        p.addr.copy_from_slice(&pins.addr);
        [p.cs1, p.cs2, p.cs3, p.x1, p.x2, p.ce, p.oe] = pins.control;
    }

    /// A question put without pins where the item is refused, and without sets where none is served.
    fn ask<T>(&mut self, pins_number: u8, served: u32, question: impl Fn(&SdrrInfo) -> Result<T, String>) -> Answer<T> {
        let pins = if pins_number != 0 { self.info.pins.take() } else { None };
        let sets = if served == 0 { std::mem::take(&mut self.info.rom_sets) } else { Vec::new() };
        let answer = ask(|| question(&self.info));
        if pins_number != 0 {
            self.info.pins = pins;
        }
        if served == 0 {
            self.info.rom_sets = sets;
        }
        answer
    }

    pub fn compare_mangle(&mut self, case: &Case, tally: &mut Tally) -> Compared {
        let mut value = LENT;
        let number = ffi::mangle(&case.pins, case.rows(), case.address, &case.levels, &mut value);
        let asked = case.pins.number == 0 && case.served != 0;
        if asked && lacks_rows(case.rows()) {
            tally.rule(Rule::LentRows);
            same("mangling", (number, value), (4, LENT))?;
            tally.number("mangle", number);
            return Ok(());
        }
        self.put_pins(&case.pins);
        let mut kind = None;
        if asked {
            let (first, count) = (case.sets[2] as usize, case.sets[3]);
            let set = &mut self.info.rom_sets[0];
            if count > 255 {
                tally.rule(Rule::LentCount);
            }
            set.rom_count = count.min(255) as u8;
            let mut rom = set.roms.pop().expect("kept");
            if count != 0 {
                kind = rom_type(case.roms[ROM_WORDS * first]);
                rom.rom_type = kind.expect("at most 33");
            }
            set.roms.push(rom);
        }
        let address = SdrrLogicalAddress::new(case.address, cs_set(&case.levels));
        let without_rom = asked && case.sets[3] == 0;
        let kept = if without_rom { self.info.rom_sets[0].roms.pop() } else { None };
        let answer = self.ask(case.pins.number, case.served, |info| info.mangle_address(&address));
        if let Some(rom) = kept {
            self.info.rom_sets[0].roms.push(rom);
        }
        let rust = match &answer {
            Answer::Gave(value) => Some((0, *value)),
            Answer::Refused(text) => number_of(text, MANGLE_TEXTS).map(|number| (number, LENT)),
            Answer::Panicked(p) => {
                let count = if asked { case.sets[3] } else { 0 };
                mangle_panic(p, self.info.pins.as_ref().expect("kept"), count, kind).map(|(rule, number)| {
                    tally.rule(rule);
                    (number, LENT)
                })
            }
        };
        match rust {
            Some(rust) => same("mangling", (number, value), rust)?,
            None => return differ("mangling", (number, value), answer),
        }
        tally.number("mangle", number);
        Ok(())
    }

    pub fn compare_demangle(&mut self, pins: &Pins, byte: u8, tally: &mut Tally) -> Compared {
        let mut value = LENT_BYTE;
        let number = ffi::demangle(pins, byte, &mut value);
        self.put_pins(pins);
        let answer = self.ask(pins.number, 1, |info| info.demangle_byte(byte));
        let rust = match &answer {
            Answer::Gave(value) => Some((0, *value)),
            Answer::Refused(text) => number_of(text, MANGLE_TEXTS).map(|number| (number, LENT_BYTE)),
            Answer::Panicked(p) if demangle_pin(p, &pins.data) => {
                tally.rule(Rule::DemanglePin);
                Some((79, LENT_BYTE))
            }
            Answer::Panicked(_) => None,
        };
        match rust {
            Some(rust) => same("demangling", (number, value), rust)?,
            None => return differ("demangling", (number, value), answer),
        }
        tally.number("demangle", number);
        Ok(())
    }
}

/// 79: a data pin at 8 or above.
pub fn demangle_pin(panic: &Panic, data: &[u8]) -> bool {
    panic.file == "info.rs" && panic.message.starts_with("Physical pin ") && data.iter().any(|p| *p >= 8)
}

// ---- inputs

/// Types that the Rust mangles.
pub const MANGLED: &[u8] = &[0, 1, 2, 3, 4, 5, 8, 9, 10, 11, 12, 13, 14, 27, 28];

const ADDRESSES: &[u32] = &[
    0, 1, 2, 0x7FF, 0x800, 0xFFF, 0x1000, 0x1FFF, 0x2000, 0x3FFF, 0x4000, 0x7FFF, 0x8000, 0xFFFF, 0x1_0000, 0x1_FFFF, 0x2_0000, u32::MAX,
];

fn shuffle(rng: &mut Rng, pins: &mut [u8]) {
    for i in (1..pins.len()).rev() {
        pins.swap(i, rng.below(i + 1));
    }
}

/// Pins as boards have them: sixteen places in some order, moved up together, some not used; at times anything.
pub fn pins(rng: &mut Rng) -> Pins {
    let mut p = Pins { number: 0, rom_pins: rng.pick(&[24, 24, 28, 28, 24, 28, 32, 0, 255]), data: [0; 8], addr: [255; 16], control: [255; 7] };
    let style = rng.below(16);
    if style == 0 {
        rng.fill(&mut p.addr);
        rng.fill(&mut p.control);
    } else if style == 1 {
        for pin in p.addr.iter_mut().chain(p.control.iter_mut()) {
            *pin = rng.pick(&[0, 1, 2, 3, 4, 5, 6, 7, 8, 9, 10, 11, 12, 13, 14, 15, 16, 17, 18, 255]);
        }
    } else {
        let mut places: [u8; 16] = std::array::from_fn(|i| i as u8);
        if rng.once_in(2) {
            shuffle(rng, &mut places);
        }
        let up = if rng.once_in(2) { 0 } else { rng.below(32) as u8 };
        let wires = if rng.once_in(4) { 16 } else { rng.between(9, 14) };
        for i in 0..wires {
            p.addr[i] = places[i] + up;
        }
        // 28-pin boards don't move control pins down with the address pins
        let up = if p.rom_pins == 24 { up } else { 0 };
        // X1 and X2 take the last two places, the others what is left
        let free = if wires < 14 { wires..14 } else { 0..16 };
        for i in 0..7 {
            let place = if i == 3 || i == 4 { 11 + i } else { rng.between(free.start, free.end - 1) };
            p.control[i] = match rng.below(24) {
                0 => 255,
                1 => rng.below(19) as u8 + up,
                2 => rng.byte(),
                _ => places[place] + up,
            };
        }
    }
    p.data = std::array::from_fn(|i| i as u8);
    match rng.below(6) {
        0 => rng.fill(&mut p.data),
        1 => {
            let at = rng.below(8);
            p.data[at] = rng.byte();
        }
        2 => {
            for pin in &mut p.data {
                *pin = rng.below(9) as u8;
            }
        }
        _ => shuffle(rng, &mut p.data),
    }
    p
}

pub fn address(rng: &mut Rng) -> u32 {
    match rng.below(16) {
        0 => rng.pick(ADDRESSES),
        1 => rng.word(),
        2..=5 => rng.word() & rng.pick(&[0xFFF, 0x1FFF, 0x3FFF, 0x7FFF, 0xFFFF, 0x1_FFFF]),
        _ => rng.word() & rng.pick(&[0x3F, 0x3FF, 0x7FF]),
    }
}

pub fn levels(rng: &mut Rng) -> [u8; 5] {
    std::array::from_fn(|_| rng.pick(&[0, 1, 1, 2, 255]))
}

fn case() -> Case {
    let pins = Pins { number: 0, rom_pins: 24, data: [0, 1, 2, 3, 4, 5, 6, 7], addr: [255; 16], control: [255; 7] };
    Case { pins, served: 1, sets: vec![0; SET_WORDS], roms: vec![0; ROM_WORDS], address: 0, levels: [0; 5] }
}

fn random_case(rng: &mut Rng, c: &mut Case) {
    c.pins = pins(rng);
    c.pins.number = if rng.once_in(64) { rng.pick(&[2, 3, 50, 1, 255]) } else { 0 };
    c.served = if rng.once_in(64) { 0 } else { rng.pick(&[1, 2, 255, u32::MAX]) };
    let first = if rng.once_in(4) { rng.below(4) } else { 0 };
    c.sets.clear();
    c.sets.resize(SET_WORDS * rng.between(1, 2), 7);
    c.sets[2] = first as u32;
    c.sets[3] = if rng.once_in(16) { rng.pick(&[0, 0, 255, 256, u32::MAX]) } else { rng.pick(&[1, 1, 2, 3, 4]) };
    c.roms.clear();
    c.roms.resize(ROM_WORDS * (first + rng.between(1, 2)), 3);
    c.roms[ROM_WORDS * first] = if rng.once_in(4) { rng.below(36) as u32 } else { rng.pick(MANGLED) as u32 };
    if rng.once_in(64) {
        let left = rng.below(c.sets.len() + 1);
        c.sets.truncate(left);
    }
    if rng.once_in(64) {
        let left = rng.below(c.roms.len() + 1);
        c.roms.truncate(left);
    }
    c.address = address(rng);
    c.levels = levels(rng);
}

/// Every type with every level and the edges of every mask; every value of every pin with every type; then random calls.
pub fn run_mangles(rng: &mut Rng, whole: bool, random: usize, mut each: impl FnMut(&'static str, &Case) -> Compared) -> Compared {
    let mut c = case();
    let counts = [0, 1, 2];
    for board in 0..3 {
        // 24 pins moved up; 28 pins; 28 pins with room for X1 and X2
        c.pins.rom_pins = if board == 0 { 24 } else { 28 };
        let (up, wires) = [(8, 11), (0, 16), (0, 13)][board];
        c.pins.addr = std::array::from_fn(|i| if i < wires { i as u8 + up } else { 255 });
        c.pins.control = [[19, 20, 21, 22, 23, 20, 19], [3, 4, 5, 255, 255, 9, 8], [3, 4, 5, 13, 14, 9, 8]][board];
        for kind in 0..=34 {
            c.roms[0] = kind;
            for count in counts {
                c.sets[3] = count;
                for all in 0..243 {
                    c.levels = std::array::from_fn(|i| (all / 3usize.pow(i as u32) % 3) as u8);
                    for &address in if whole { ADDRESSES } else { &[0x5A5, 0x1_FFFF] } {
                        c.address = address;
                        each("mangles: every type and level", &c)?;
                    }
                }
            }
        }
    }
    c.levels = [1, 1, 0, 1, 0];
    c.address = 0x2A5;
    for kind in 0..34 {
        c.roms[0] = kind;
        for at in 0..23 {
            for value in (0..=255).filter(|v| whole || *v < 20 || *v > 253) {
                for (rom_pins, count) in [(24, 1), (24, 2), (28, 1), (28, 2)] {
                    c.pins.rom_pins = rom_pins;
                    c.sets[3] = count;
                    let kept = c.pins;
                    if at < 16 {
                        c.pins.addr[at] = value;
                    } else {
                        c.pins.control[at - 16] = value;
                    }
                    each("mangles: every value of every pin", &c)?;
                    c.pins = kept;
                }
            }
        }
    }
    for _ in 0..random {
        random_case(rng, &mut c);
        each("mangles: random", &c)?;
    }
    Ok(())
}

/// Every value of every pin, every byte on whole orders, then random calls.
pub fn run_demangles(rng: &mut Rng, random: usize, mut each: impl FnMut(&'static str, &Pins, u8) -> Compared) -> Compared {
    let mut p = case().pins;
    for at in 0..8 {
        for value in 0..=255 {
            p.data[at] = value;
            for byte in [0, 1, 0x80, 0xA5, 0xFF] {
                each("demangles: every value of every pin", &p, byte)?;
            }
            p.data[at] = at as u8;
        }
    }
    for _ in 0..64 {
        shuffle(rng, &mut p.data);
        for byte in 0..=255 {
            each("demangles: every byte", &p, byte)?;
        }
    }
    for _ in 0..random {
        let mut p = pins(rng);
        p.number = if rng.once_in(64) { rng.pick(&[2, 3, 50, 255]) } else { 0 };
        each("demangles: random", &p, rng.byte())?;
    }
    Ok(())
}
