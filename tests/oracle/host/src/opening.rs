//! What the Rust's opening is worth here: document 01's numbers, the report and the rows, with the rules for intended differences.

use onerom_fw_parser::readers::{self, Header, Logged, Tried, Window, block_on};
use onerom_fw_parser::{McuLine, Parser, SdrrExtraInfo, SdrrInfo, SdrrPins, SdrrRomSet};

use crate::ffi::{ROM_NAME, ROM_WORDS, SET_WORDS};
use crate::image::{CS0_BASE, INFO_OFFSET};
use crate::reads::{RomSeen, SetSeen, Stop, Terms, sets_seen, walk_reads};
use crate::report::{ExtraInfo, Fields, NOT_LOOKED_FOR, PinsItem, Report};
use crate::rust::{Answer, Panic, ask, number_of};
use crate::strings::{Part, part_of, refused_part, string_top};
use crate::tally::{Difference, Rule, Tally, differ};

const HEADER_TEXTS: &[(&str, u32)] = &[
    ("Failed to read SDRR header", 2),
    ("Failed to parse header: magic", 10),
    ("Failed to parse header: id McuLine ", 11),
    ("Failed to parse header: id McuStorage ", 12),
    ("Firmware v0.7.0 and later uses the schema format", 13),
];

const EXTRA_TEXTS: &[(&str, u32)] = &[("ROM Extra Info invalid pointer", 3), ("Failed to read extra info at ", 2)];

const METADATA_TEXTS: &[(&str, u32)] = &[
    ("Failed to read One ROM metadata header as pointer invalid", 3),
    ("Failed to read One ROM metadata header at ", 2),
    ("Failed to parse One ROM metadata header: magic", 30),
    ("Metadata: Invalid version ", 31),
    ("Metadata: Invalid ROM sets pointer ", 32),
];

const PINS_TEXTS: &[(&str, u32)] =
    &[("Invalid pins pointer: ", 3), ("Failed to read pins data", 2), ("Failed to parse pins: id SdrrMcuPort ", 50)];

/// Some of the walk's texts name a set or a ROM before the reason.
fn sets_number(text: &str) -> Option<u32> {
    let plain = [
        ("ROM set pointer ", 3),
        ("Failed to read ROM set header ", 2),
        ("Failed to read serve_config for ROM set ", 2),
        ("Failed to read firmware_overrides for ROM set ", 2),
        ("ROM infos pointer ", 3),
        ("Failed to read ROM info pointer ", 2),
        ("Failed to read ROM info ", 2),
    ];
    let reason = |front: &str, table: &[(&str, u32)]| number_of(text.strip_prefix(front)?.split_once(": ")?.1, table);
    let info = [("id SdrrRomType ", 42), ("id SdrrCsState ", 43)];
    number_of(text, &plain)
        .or_else(|| reason("Failed to parse ROM set header ", &[("id SdrrServe ", 40), ("id SdrrCsState ", 41)]))
        .or_else(|| reason("Failed to parse ROM info with logging ", &info))
        .or_else(|| reason("Failed to parse ROM info basic ", &info))
}

/// The walk's answer with the reads that it tried, what it was given, and the ROM infos whose names were hidden from it.
struct Walked {
    sets: Answer<Vec<SdrrRomSet>>,
    log: Vec<Tried>,
    terms: Terms,
    hidden: Vec<u32>,
}

/// The items' answers, from the Rust's opening or, where that panics, one by one.
struct Items {
    date: Answer<String>,
    rev: Answer<String>,
    extra: Answer<SdrrExtraInfo>,
    metadata: u32,
    walked: Walked,
    pins: Answer<SdrrPins>,
}

/// set rows, ROM rows
type Rows = (Vec<u32>, Vec<u32>);

pub struct Opened {
    pub report: Report,
    pub set_rows: Vec<u32>,
    pub rom_rows: Vec<u32>,
    pub base: u32,
    /// The board as the Rust holds it, for further calls; not where its opening panics.
    pub info: Option<SdrrInfo>,
}

pub enum Opening {
    Refused(u32),
    Opened(Box<Opened>),
}

type Asked<T> = Result<T, Box<Difference>>;

fn unknown<T>(what: &str, answer: impl std::fmt::Debug) -> Asked<T> {
    differ(format!("{what}: no number is known for this answer of the Rust's"), "", answer)
}

fn from_050(version: [u16; 4]) -> bool {
    version >= [0, 5, 0, 0]
}

fn terms(h: &Header, base: u32, count: u8, pointer: u32) -> Terms {
    let names = h.version >= [0, 5, 1, 0] || h.flags[5] != 0;
    Terms { base, count, pointer, names, long: h.version >= [0, 6, 0, 0] }
}

// ---- asking

fn found<T>(value: Option<T>, info: &SdrrInfo, field: &str) -> Answer<T> {
    let text = info.parse_errors.iter().find(|e| e.field == field).map(|e| e.reason.clone());
    match (value, text) {
        (Some(value), None) => Answer::Gave(value),
        (_, text) => Answer::Refused(text.unwrap_or("no text".into())),
    }
}

/// Metadata's number, and the count and pointer that it holds. Its reader gives the reason that the opening hides.
fn metadata(image: &[u8], base: u32, h: &Header) -> Asked<(u32, u32, u8, u32)> {
    if !from_050(h.version) {
        return Ok((NOT_LOOKED_FOR, 0, h.rom_set_count, h.rom_sets_ptr));
    }
    match ask(|| readers::metadata(&mut Window { image, base }, h.rom_sets_ptr)) {
        Answer::Gave((version, count, pointer)) => Ok((0, version, count, pointer)),
        Answer::Refused(text) => number_of(&text, METADATA_TEXTS).map_or_else(|| unknown("metadata", text), |n| Ok((n, 0, 0, 0))),
        other => unknown("metadata", other),
    }
}

fn items_of_opening(image: &[u8], base: u32, h: &Header, info: &SdrrInfo, log: &[Tried]) -> Asked<Items> {
    let known = ["Build Date", "Hardware Revision", "Extra Info", "Metadata", "ROM Sets", "Pins", "Board", "MCU Variant"];
    if let Some(other) = info.parse_errors.iter().find(|e| !known.contains(&e.field.as_str())) {
        return unknown("a parse error", other);
    }
    let (mut number, _, _, pointer) = metadata(image, base, h)?;
    if let Some(e) = info.parse_errors.iter().find(|e| e.field == "Metadata") {
        number = number_of(&e.reason, METADATA_TEXTS).map_or_else(|| unknown("metadata", e), Ok)?;
    }
    if info.metadata_present != (number == 0) {
        return unknown("metadata_present", (info.metadata_present, number));
    }
    if info.runtime_info_ptr != info.extra_info.as_ref().map_or(u32::MAX, |e| e.runtime_info_ptr) {
        return unknown("runtime_info_ptr", info.runtime_info_ptr);
    }
    Ok(Items {
        date: found(info.build_date.clone(), info, "Build Date"),
        rev: found(info.hw_rev.clone(), info, "Hardware Revision"),
        extra: found(info.extra_info.clone(), info, "Extra Info"),
        metadata: number,
        walked: Walked {
            sets: found(Some(info.rom_sets.clone()), info, "ROM Sets"),
            log: walk_reads(log, image, base, h, from_050(h.version)).to_vec(),
            terms: terms(h, base, info.rom_set_count, pointer),
            hidden: Vec::new(),
        },
        pins: found(info.pins.clone(), info, "Pins"),
    })
}

fn walk(image: &[u8], flash_base: u32, terms: Terms, hidden: Vec<u32>) -> Walked {
    let mut log = Vec::new();
    let mut window = Logged { window: Window { image, base: terms.base }, log: &mut log, hidden: &hidden };
    let sets = ask(|| readers::sets(image, flash_base, &mut window, terms.count, terms.pointer));
    Walked { sets, log, terms, hidden }
}

/// Each item by the Rust's own reader of it, where the opening as a whole panics.
fn items_one_by_one(image: &[u8], flash_base: u32, base: u32, h: &Header) -> Asked<Items> {
    let (mut number, version, mut count, mut pointer) = metadata(image, base, h)?;
    if number == 0 {
        // these two refusals are made in the opening itself
        number = if version != 1 { 31 } else if count != 0 && pointer == 0 { 32 } else { 0 };
    }
    if number != 0 && number != NOT_LOOKED_FOR {
        (count, pointer) = (0, 0);
    }
    Ok(Items {
        date: ask(|| readers::string(&mut Window { image, base }, h.build_date_ptr)),
        rev: ask(|| readers::string(&mut Window { image, base }, h.hw_rev_ptr)),
        extra: ask(|| readers::extra_info(&mut Window { image, base }, h.extra_ptr, h.version)),
        metadata: number,
        walked: walk(image, flash_base, terms(h, base, count, pointer), Vec::new()),
        pins: ask(|| readers::pins(&mut Window { image, base }, h.pins_ptr)),
    })
}

// ---- what the answers are worth

fn string_part(what: &str, answer: &Answer<String>, image: &[u8], base: u32, pointer: u32, tally: &mut Tally) -> Asked<Part> {
    if let Answer::Panicked(p) = answer {
        if let Some(number) = string_top(p, image, base, pointer) {
            tally.rule(Rule::StringTop);
            return Ok(refused_part(number));
        }
    }
    part_of(answer, image, base, pointer).map_or_else(|| unknown(what, answer), Ok)
}

fn extra_item(answer: &Answer<SdrrExtraInfo>) -> Asked<ExtraInfo> {
    match answer {
        Answer::Gave(e) => Ok(ExtraInfo::of(e)),
        Answer::Refused(text) => number_of(text, EXTRA_TEXTS).map_or_else(|| unknown("extra info", text), |n| Ok(ExtraInfo::refused(n))),
        other => unknown("extra info", other),
    }
}

/// Pins of 88 to 255 readable bytes, which the Rust refuses since it reads 256: asked again with zeros behind them.
fn pins_88(image: &[u8], base: u32, pointer: u32) -> Option<Answer<SdrrPins>> {
    let rest = image.get(pointer.checked_sub(base)? as usize..)?;
    if rest.len() < 88 || rest.len() >= 256 {
        return None;
    }
    let mut padded = [0; 256];
    padded[..rest.len()].copy_from_slice(rest);
    Some(ask(|| readers::pins(&mut Window { image: &padded, base: pointer }, pointer)))
}

fn pins_item(answer: &Answer<SdrrPins>) -> Asked<PinsItem> {
    match answer {
        Answer::Gave(p) => Ok(PinsItem::of(p)),
        Answer::Refused(text) => number_of(text, PINS_TEXTS).map_or_else(|| unknown("pins", text), |n| Ok(PinsItem::refused(n))),
        other => unknown("pins", other),
    }
}

/// The name's words of a ROM row: offset, length, reason, width.
type NameWords = [u32; ROM_WORDS - ROM_NAME];

fn no_name(reason: u32) -> NameWords {
    [0, 0, reason, 0]
}

fn name_words(filename: Option<&String>, rom: &RomSeen, image: &[u8], base: u32) -> Asked<NameWords> {
    let pointer = rom.name_ptr;
    match filename {
        Some(s) => match part_of(&Answer::Gave(s.clone()), image, base, pointer) {
            Some([_, offset, length, width]) => Ok([offset, length, 0, width]),
            None => unknown("a name", (s, pointer)),
        },
        None if pointer < base || pointer == u32::MAX => Ok(no_name(1)),
        None => {
            let answer = ask(|| readers::name(&mut Window { image, base }, pointer));
            match part_of(&answer, image, base, pointer) {
                Some([number, ..]) if number != 0 => Ok(no_name(number)),
                _ => unknown("a name that the opening left out", answer),
            }
        }
    }
}

/// The Rust keeps the bytes of both blocks where there are overrides.
fn blocks_agree(set: &SdrrRomSet, seen: &SetSeen, image: &[u8], base: u32) -> bool {
    let bytes = |pointer: u32| &image[(pointer - base) as usize..][..64];
    match &set.firmware_overrides {
        None => seen.overrides == 0,
        Some(o) => {
            let config = if seen.config != 0 { bytes(seen.config) } else { &[] };
            let params = o.serve_alg_params.as_ref().map(|p| p.params.as_slice());
            seen.overrides != 0 && o.bytes == bytes(seen.overrides) && params == Some(config)
        }
    }
}

fn rows(sets: &[SdrrRomSet], seen: &[SetSeen], image: &[u8], base: u32) -> Asked<Rows> {
    let (mut set_rows, mut rom_rows) = (Vec::with_capacity(SET_WORDS * sets.len()), Vec::new());
    for (set, seen) in sets.iter().zip(seen) {
        let roms = set.rom_count as usize;
        if set.roms.len() != roms || seen.roms.len() != roms || !blocks_agree(set, seen, image, base) {
            return unknown("a set", set);
        }
        let first = (rom_rows.len() / ROM_WORDS) as u32;
        let (serve, state) = (set.serve as u32, set.multi_rom_cs1_state as u32);
        set_rows.extend_from_slice(&[set.data_ptr, set.size, first, roms as u32, serve, state, seen.config, seen.overrides]);
        for (rom, seen) in set.roms.iter().zip(&seen.roms) {
            rom_rows.extend_from_slice(&[rom.rom_type as u32, rom.cs1_state as u32, rom.cs2_state as u32, rom.cs3_state as u32]);
            rom_rows.extend_from_slice(&name_words(rom.filename.as_ref(), seen, image, base)?);
        }
    }
    Ok((set_rows, rom_rows))
}

/// The sets item and the rows. A name that ends at 2^32 makes the walk panic: it is made again without that name.
fn sets_item(mut w: Walked, image: &[u8], flash_base: u32, tally: &mut Tally) -> Asked<([u32; 3], Rows)> {
    let count = w.terms.count as u32;
    let mut numbers = Vec::new();
    loop {
        let (seen, stop) = sets_seen(&w.log, image, &w.terms, &w.hidden);
        match (&w.sets, stop) {
            (Answer::Gave(sets), None) if sets.len() == seen.len() && sets.len() == count as usize => {
                let (set_rows, mut rom_rows) = rows(sets, &seen, image, w.terms.base)?;
                for (row, rom) in rom_rows.chunks_mut(ROM_WORDS).zip(seen.iter().flat_map(|s| &s.roms)) {
                    if let Some(i) = w.hidden.iter().position(|info| *info == rom.info) {
                        row[ROM_NAME..].copy_from_slice(&no_name(numbers[i]));
                    }
                }
                return Ok(([0, count, count], (set_rows, rom_rows)));
            }
            (Answer::Refused(text), _) => match sets_number(text) {
                Some(number) => return Ok(([number, count, 0], Rows::default())),
                None => return unknown("sets", text),
            },
            (Answer::Panicked(p), Some(Stop::Name { pointer, info })) => match string_top(p, image, w.terms.base, pointer) {
                Some(number) => {
                    tally.rule(Rule::NameTop);
                    numbers.push(number);
                    w.hidden.push(info);
                    w = walk(image, flash_base, w.terms, w.hidden);
                }
                None => return unknown("sets", p),
            },
            (Answer::Panicked(p), stop) => {
                tally.rule(top_rule(p, &stop).map_or_else(|| unknown("sets", (p, &stop)), Ok)?);
                return Ok(([2, count, 0], Rows::default()));
            }
            (_, stop) => return unknown("the walk's reads", (stop, seen.len(), count)),
        }
    }
}

/// 2 where a header's or a table entry's address would pass 2^32 − 1.
fn top_rule(panic: &Panic, stop: &Option<Stop>) -> Option<Rule> {
    match stop {
        _ if !panic.is_overflow_in("parsing.rs") => None,
        Some(Stop::Header(at)) if *at > u32::MAX as u64 => Some(Rule::SetsTop),
        Some(Stop::Table(at)) if *at > u32::MAX as u64 => Some(Rule::TableTop),
        _ => None,
    }
}

fn judge(image: &[u8], flash_base: u32, base: u32, h: &Header, mut items: Items, mut info: Option<SdrrInfo>, tally: &mut Tally) -> Asked<Opening> {
    if let Answer::Refused(_) = items.pins {
        if let Some(answer) = pins_88(image, base, h.pins_ptr) {
            tally.rule(Rule::Pins88);
            if let (Some(info), Answer::Gave(p)) = (&mut info, &answer) {
                info.pins = Some(p.clone());
            }
            items.pins = answer;
        }
    }
    let (mut sets, (set_rows, rom_rows)) = sets_item(items.walked, image, flash_base, tally)?;
    if items.metadata == 2 {
        if sets != [0, 0, 0] {
            return unknown("sets where metadata ended", sets);
        }
        tally.rule(Rule::MetadataEnded);
        sets = [2, 0, 0];
    }
    let report = Report {
        fields: Fields::of(h),
        build_date: string_part("build date", &items.date, image, base, h.build_date_ptr, tally)?,
        hw_rev: string_part("hardware revision", &items.rev, image, base, h.hw_rev_ptr, tally)?,
        extra: extra_item(&items.extra)?,
        metadata: items.metadata,
        sets,
        pins: pins_item(&items.pins)?,
    };
    Ok(Opening::Opened(Box::new(Opened { report, set_rows, rom_rows, base, info })))
}

fn fields_of(info: &SdrrInfo) -> Fields {
    Fields {
        version: [info.major_version, info.minor_version, info.patch_version, info.build_number],
        commit: info.commit,
        line: info.stm_line as u32,
        storage: info.stm_storage as u32,
        freq: info.freq as u32,
        flags: [
            info.overclock,
            info.swd_enabled,
            info.preload_image_to_ram,
            info.bootloader_capable,
            info.status_led_enabled,
            info.boot_logging_enabled,
            info.mco_enabled,
        ],
        counting: info.count_rom_access,
        boot_config: info.boot_config,
    }
}

/// What the Rust's opening of the image is worth.
pub fn of_rust(image: &[u8], flash_base: u32, log: &mut Vec<Tried>, tally: &mut Tally) -> Asked<Opening> {
    log.clear();
    let mut reader = Logged { window: Window { image, base: flash_base }, log, hidden: &[] };
    let answer = ask(|| block_on(Parser::with_base_flash_address(&mut reader, flash_base, 0).parse_flash()));
    if let Answer::Panicked(p) = &answer {
        if p.is_overflow_in("lib.rs") && flash_base > u32::MAX - INFO_OFFSET {
            tally.rule(Rule::HeaderTop);
            return Ok(Opening::Refused(2));
        }
    }
    if let Answer::Refused(text) = &answer {
        return number_of(text, HEADER_TEXTS).map_or_else(|| unknown("the header", text), |n| Ok(Opening::Refused(n)));
    }
    let h = match ask(|| readers::header(image, flash_base)) {
        Answer::Gave(h) => h,
        other => return unknown("the header", other),
    };
    let base = if h.stm_line == McuLine::Rp2350 { CS0_BASE } else { flash_base };
    match answer {
        Answer::Gave(info) => {
            if fields_of(&info) != Fields::of(&h) {
                return unknown("the header's fields", (fields_of(&info), h));
            }
            let items = items_of_opening(image, base, &h, &info, log)?;
            judge(image, flash_base, base, &h, items, Some(info), tally)
        }
        _ => judge(image, flash_base, base, &h, items_one_by_one(image, flash_base, base, &h)?, None, tally),
    }
}
