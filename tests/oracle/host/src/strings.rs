//! Strings of the image: our call and both string readers of the Rust.

use onerom_fw_parser::readers::{self, Window};

use crate::ffi::{self, PART_WORDS};
use crate::rng::Rng;
use crate::rust::{Answer, Panic, ask, number_of};
use crate::tally::{Compared, Rule, Tally, differ, same};

const LENT: u32 = 0xA5A5_5A5A;
const TOP: u64 = 1 << 32;

pub const TEXTS: &[(&str, u32)] = &[
    ("Invalid pointer: 0x", 3),
    ("Failed to read string at 0x", 2),
    ("String too long (>1KB)", 20),
    ("Invalid UTF-8 string", 21),
];

/// "Window check": base plus image length above 2^32.
pub fn is_beyond(base: u32, image: &[u8]) -> bool {
    base as u64 + image.len() as u64 > TOP
}

/// The number where the Rust's next chunk address overflows: some whole chunks end at 2^32 and hold no NUL.
pub fn string_top(panic: &Panic, image: &[u8], base: u32, pointer: u32) -> Option<u32> {
    let left = (TOP - pointer as u64) as usize;
    let at_top = base as u64 + image.len() as u64 == TOP && base <= pointer && left % 64 == 0 && left <= 1024;
    let overflows = panic.is_overflow_in("lib.rs") || panic.is_overflow_in("parsing.rs");
    let no_nul = at_top && !image[image.len() - left..].contains(&0);
    (overflows && no_nul).then_some(if left == 1024 { 20 } else { 2 })
}

/// A string as the report and the rows show it: number, offset, length, width.
pub type Part = [u32; 4];

/// A refused string shows its number alone.
pub fn refused_part(number: u32) -> Part {
    [number, 0, 0, 0]
}

/// What the Rust's answer is worth here.
pub fn part_of(answer: &Answer<String>, image: &[u8], base: u32, pointer: u32) -> Option<Part> {
    match answer {
        Answer::Gave(s) => {
            let offset = pointer.checked_sub(base)?;
            let part = image.get(offset as usize..offset as usize + s.len())?;
            (part == s.as_bytes()).then_some([0, offset, s.len() as u32, s.chars().count() as u32])
        }
        Answer::Refused(text) => number_of(text, TEXTS).map(refused_part),
        Answer::Panicked(_) => None,
    }
}

pub fn compare(image: &[u8], base: u32, pointer: u32, tally: &mut Tally) -> Compared {
    let mut part = [LENT; PART_WORDS];
    let number = ffi::string(image, base, pointer, &mut part);
    if is_beyond(base, image) {
        tally.rule(Rule::WindowCheck);
        return same("a string", (number, part), (1, [LENT; PART_WORDS]));
    }
    for (what, reader) in [("a string (lib.rs)", readers::string as fn(&mut Window<'_>, u32) -> _), ("a string (parsing.rs)", readers::name)] {
        let answer = ask(|| reader(&mut Window { image, base }, pointer));
        let rust = match &answer {
            Answer::Panicked(p) => match string_top(p, image, base, pointer) {
                Some(number) => {
                    tally.rule(Rule::StringTop);
                    refused_part(number)
                }
                None => return differ(what, (number, part), answer),
            },
            _ => match part_of(&answer, image, base, pointer) {
                Some(part) => part,
                None => return differ(what, (number, part), answer),
            },
        };
        let [rust_number, offset, length, width] = rust;
        let left = if rust_number == 0 { [offset, length, width] } else { [LENT; PART_WORDS] };
        same(what, (number, part), (rust_number, left))?;
    }
    tally.number("string", number);
    Ok(())
}

// ---- inputs

const BASE: u32 = 0x0800_0000;

/// Bytes at which the rules for what may follow a lead change.
const EDGES: &[u8] = &[0x00, 0x41, 0x7F, 0x80, 0x8F, 0x90, 0x9F, 0xA0, 0xBF, 0xC0, 0xC2, 0xDF, 0xE0, 0xED, 0xEF, 0xF0, 0xF4, 0xF5, 0xFF];

type Each<'a> = &'a mut dyn FnMut(&'static str, &[u8], u32, u32) -> Compared;

/// Every string of up to three bytes, and four bytes of which the last two stand at the edges. In part: later bytes at the edges alone.
fn short(whole: bool, each: Each<'_>) -> Compared {
    let mut image = [0; 64];
    let every: Vec<u8> = (0..=255).collect();
    let (second, third) = if whole { (&every[..], &every[..]) } else { (&every[..], EDGES) };
    for a in 0..=255 {
        for &b in second {
            for &c in third {
                image[..4].copy_from_slice(&[a, b, c, 0]);
                each("strings: up to three bytes", &image, BASE, BASE)?;
            }
        }
        for &b in if whole { &every } else { EDGES } {
            for &c in EDGES {
                for &d in EDGES {
                    image[..4].copy_from_slice(&[a, b, c, d]);
                    each("strings: four bytes", &image, BASE, BASE)?;
                }
            }
        }
    }
    Ok(())
}

/// Images of every length up to two chunks and a bit, every pointer around them, the NUL at every place, at the bottom and at 2^32.
fn places(step: usize, each: Each<'_>) -> Compared {
    for len in (0..=130).step_by(step) {
        for nul in (0..=len).step_by(step) {
            let mut image = vec![b'x'; len];
            if nul < len {
                image[nul] = 0;
            }
            let top = (TOP - len as u64) as u32;
            for base in [BASE, if len == 0 { u32::MAX } else { top }, if len < 2 { u32::MAX } else { top + 1 }] {
                for back in [1, 2, 63, 64, 65, 127, 128, 129, len] {
                    each("strings: every length and place", &image, base, base.wrapping_add(len.wrapping_sub(back) as u32))?;
                }
                for pointer in [base.wrapping_sub(1), base, base.wrapping_add(len as u32), 0, u32::MAX] {
                    each("strings: every length and place", &image, base, pointer)?;
                }
            }
        }
    }
    // around each chunk's end, and the sixteenth's
    for chunk in 1..=17 {
        for nul in [64 * chunk - 2, 64 * chunk - 1, 64 * chunk, usize::MAX] {
            for len in [64 * chunk - 1, 64 * chunk, 64 * chunk + 1] {
                let mut image = vec![b'y'; len];
                if nul < len {
                    image[nul] = 0;
                }
                each("strings: every length and place", &image, BASE, BASE)?;
                each("strings: every length and place", &image, (TOP - len as u64) as u32, (TOP - len as u64) as u32)?;
            }
        }
    }
    Ok(())
}

/// Text of about `len` bytes, at times with characters of more bytes, at times damaged.
pub fn text(rng: &mut Rng, len: usize, out: &mut Vec<u8>) {
    let style = rng.below(8);
    let start = out.len();
    while out.len() < start + len {
        match style {
            0 if rng.once_in(3) => {
                let c = rng.pick(&['é', '€', '𐍈', '\u{7FF}', '\u{800}', '\u{D7FF}', '\u{E000}', '\u{FFFF}', '\u{10000}', '\u{10FFFF}']);
                out.extend_from_slice(c.encode_utf8(&mut [0; 4]).as_bytes());
            }
            1 if rng.once_in(12) => out.push(rng.pick(EDGES)),
            _ => out.push(b' ' + rng.below(95) as u8),
        }
    }
}

fn random(rng: &mut Rng, each: Each<'_>) -> Compared {
    let mut image = Vec::new();
    for _ in 0..rng.below(3) {
        let len = rng.pick(&[0, 1, 5, 20, 62, 63, 64, 65, 127, 128, 129, 200, 700, 1022, 1023, 1024, 1025]);
        text(rng, len, &mut image);
        if !rng.once_in(4) {
            image.push(0);
        }
    }
    for _ in 0..rng.pick(&[0, 0, 1, 40, 63, 64, 200]) {
        image.push(rng.byte());
    }
    let top = (TOP - image.len() as u64).min(u32::MAX as u64) as u32;
    let base = match rng.below(6) {
        0 => top,
        1 => top.wrapping_add(rng.below(3) as u32),
        2 => rng.word(),
        3 => 0,
        _ => BASE,
    };
    let pointer = match rng.below(6) {
        0 => rng.pick(&[0, u32::MAX, base.wrapping_sub(1), base.wrapping_add(image.len() as u32)]),
        1 => base.wrapping_add(image.len() as u32).wrapping_sub(rng.pick(&[1, 63, 64, 65, 128, 1024])),
        2 => base,
        _ => base.wrapping_add(rng.below(image.len() + 2) as u32),
    };
    each("strings: random", &image, base, pointer)
}

pub fn run(rng: &mut Rng, whole: bool, count: usize, each: Each<'_>) -> Compared {
    short(whole, each)?;
    places(if whole { 1 } else { 5 }, each)?;
    for _ in 0..count {
        random(rng, each)?;
    }
    Ok(())
}
