//! A safe wrapper of the C entry points, as a user would write it. include/onerom.h says what each number means.
//!
//! Every struct is plain numbers, so any value of it is a report that the library takes. The constants are those of the header, without ONEROM_.

// A program uses what it needs of this.
#![allow(dead_code)]

use std::fmt;
use std::mem::size_of;

// ---- the usual settings, and the most rows that a board can need

pub const FLASH_BASE: u32 = 0x0800_0000;
pub const CS0_BASE: u32 = 0x1000_0000;
pub const INFO_OFFSET: u32 = 512;
pub const MAX_SETS: usize = 255;
pub const MAX_ROMS: usize = 65025;

// ---- lines

pub const LINE_F401DE: u8 = 0;
pub const LINE_F405: u8 = 1;
pub const LINE_F411: u8 = 2;
pub const LINE_F446: u8 = 3;
pub const LINE_F401BC: u8 = 4;
pub const LINE_RP2350: u8 = 5;

// ---- storage

pub const STORAGE_8: u8 = 0;
pub const STORAGE_B: u8 = 1;
pub const STORAGE_C: u8 = 2;
pub const STORAGE_D: u8 = 3;
pub const STORAGE_E: u8 = 4;
pub const STORAGE_F: u8 = 5;
pub const STORAGE_G: u8 = 6;
pub const STORAGE_2MB: u8 = 7;

// ---- ports

pub const PORT_NONE: u8 = 0;
pub const PORT_A: u8 = 1;
pub const PORT_B: u8 = 2;
pub const PORT_C: u8 = 3;
pub const PORT_D: u8 = 4;
pub const PORT_0: u8 = 5;

// ---- the PIO default

pub const PIO_OFF: u8 = 0;
pub const PIO_ON: u8 = 1;
pub const PIO_NOT_GIVEN: u8 = 2;

// ---- the words of a set row

pub const SET_DATA_POINTER: usize = 0;
pub const SET_SIZE: usize = 1;
pub const SET_FIRST_ROM: usize = 2;
pub const SET_ROM_COUNT: usize = 3;
pub const SET_SERVE: usize = 4;
pub const SET_STATE: usize = 5;
pub const SET_CONFIG: usize = 6;
pub const SET_OVERRIDES: usize = 7;
pub const SET_WORDS: usize = 8;

// ---- the words of a ROM row

pub const ROM_TYPE: usize = 0;
pub const ROM_CS1: usize = 1;
pub const ROM_CS2: usize = 2;
pub const ROM_CS3: usize = 3;
pub const ROM_NAME_OFFSET: usize = 4;
pub const ROM_NAME_LENGTH: usize = 5;
pub const ROM_NAME_REASON: usize = 6;
pub const ROM_NAME_WIDTH: usize = 7;
pub const ROM_WORDS: usize = 8;
/// A name's reason: no pointer was read, or one that leads nowhere.
pub const NO_NAME: u32 = 1;

// ---- the words of a string's part

pub const PART_OFFSET: usize = 0;
pub const PART_LENGTH: usize = 1;
pub const PART_WIDTH: usize = 2;
pub const PART_WORDS: usize = 3;

// ---- serve

pub const SERVE_TWO_CS_ONE_ADDR: u32 = 0;
pub const SERVE_ADDR_ON_CS: u32 = 1;
pub const SERVE_ADDR_ON_ANY_CS: u32 = 2;

// ---- states, of chip selects and of sets of several ROMs

pub const STATE_ACTIVE_LOW: u32 = 0;
pub const STATE_ACTIVE_HIGH: u32 = 1;
pub const STATE_NOT_USED: u32 = 2;

// ---- ROM types

pub const TYPE_ROM2316: u32 = 0;
pub const TYPE_ROM2332: u32 = 1;
pub const TYPE_ROM2364: u32 = 2;
pub const TYPE_ROM23128: u32 = 3;
pub const TYPE_ROM23256: u32 = 4;
pub const TYPE_ROM23512: u32 = 5;
pub const TYPE_ROM2704: u32 = 6;
pub const TYPE_ROM2708: u32 = 7;
pub const TYPE_ROM2716: u32 = 8;
pub const TYPE_ROM2732: u32 = 9;
pub const TYPE_ROM2764: u32 = 10;
pub const TYPE_ROM27128: u32 = 11;
pub const TYPE_ROM27256: u32 = 12;
pub const TYPE_ROM27512: u32 = 13;
pub const TYPE_ROM231024: u32 = 14;
pub const TYPE_ROM27C010: u32 = 15;
pub const TYPE_ROM27C020: u32 = 16;
pub const TYPE_ROM27C040: u32 = 17;
pub const TYPE_ROM27C080: u32 = 18;
pub const TYPE_ROM27C400: u32 = 19;
pub const TYPE_RAM6116: u32 = 20;
pub const TYPE_ROM27C301: u32 = 21;
pub const TYPE_SYSTEM_PLUGIN: u32 = 22;
pub const TYPE_USER_PLUGIN: u32 = 23;
pub const TYPE_PIO_PLUGIN: u32 = 24;
pub const TYPE_ROM_SST39SF040: u32 = 25;
pub const TYPE_ROM28C16: u32 = 26;
pub const TYPE_ROM28C64: u32 = 27;
pub const TYPE_ROM28C256: u32 = 28;
pub const TYPE_ROM28C512: u32 = 29;
pub const TYPE_ROM23QL512: u32 = 30;
pub const TYPE_ROM23QL384: u32 = 31;
pub const TYPE_ROM23C1001: u32 = 32;
pub const TYPE_ROM27C200: u32 = 33;

// ---- levels, in their order; one is high at `HIGH`, and low at every other value

pub const LEVEL_CS1: usize = 0;
pub const LEVEL_CS2: usize = 1;
pub const LEVEL_CS3: usize = 2;
pub const LEVEL_X1: usize = 3;
pub const LEVEL_X2: usize = 4;
pub const LEVELS: usize = 5;
pub const LOW: u8 = 0;
pub const HIGH: u8 = 1;

// ---- jobs: a ROM read is for one of 0 to 7

pub const JOBS: usize = 8;

// ---- items, as `Report::items` lists them

pub const ITEM_BUILD_DATE: usize = 0;
pub const ITEM_HW_REV: usize = 1;
pub const ITEM_EXTRA_INFO: usize = 2;
pub const ITEM_METADATA: usize = 3;
pub const ITEM_ROM_SETS: usize = 4;
pub const ITEM_PINS: usize = 5;

// ---- numbers

pub const ACCEPTED: u32 = 0;
pub const REFUSED_WINDOW: u32 = 1;
pub const REFUSED_ENDED: u32 = 2;
pub const REFUSED_BELOW_BASE: u32 = 3;
pub const REFUSED_ROW: u32 = 4;
pub const REFUSED_MAGIC: u32 = 10;
pub const REFUSED_LINE: u32 = 11;
pub const REFUSED_STORAGE: u32 = 12;
pub const REFUSED_VERSION: u32 = 13;
pub const REFUSED_NO_NUL: u32 = 20;
pub const REFUSED_UTF8: u32 = 21;
pub const REFUSED_METADATA_MAGIC: u32 = 30;
pub const REFUSED_METADATA_VERSION: u32 = 31;
pub const REFUSED_METADATA_POINTER: u32 = 32;
pub const REFUSED_SERVE: u32 = 40;
pub const REFUSED_STATE: u32 = 41;
pub const REFUSED_TYPE: u32 = 42;
pub const REFUSED_CS_STATE: u32 = 43;
pub const REFUSED_SET_ROWS: u32 = 44;
pub const REFUSED_ROM_ROWS: u32 = 45;
pub const REFUSED_PORT: u32 = 50;
pub const REFUSED_RUNTIME_MAGIC: u32 = 60;
pub const REFUSED_RUNTIME_SIZE: u32 = 61;
pub const REFUSED_RUNTIME_BASE: u32 = 62;
pub const REFUSED_NO_PINS: u32 = 70;
pub const REFUSED_NO_SETS: u32 = 71;
pub const REFUSED_X_PIN: u32 = 72;
pub const REFUSED_X_MAPPED: u32 = 73;
pub const REFUSED_NO_ROM: u32 = 74;
pub const REFUSED_UNSUPPORTED: u32 = 75;
pub const REFUSED_CONTROL_PIN: u32 = 76;
pub const REFUSED_ADDRESS: u32 = 77;
pub const REFUSED_ROM28C16: u32 = 78;
pub const REFUSED_DATA_PIN: u32 = 79;
pub const REFUSED_NO_SUCH_SET: u32 = 80;
pub const REFUSED_PAST_SET: u32 = 81;
pub const REFUSED_COUNT: u32 = 82;
pub const REFUSED_JOB: u32 = 83;

/// A number in plain words. A name's reason is such a number too, but for `NO_NAME`.
pub fn reason(number: u32) -> &'static str {
    match number {
        ACCEPTED => "accepted",
        REFUSED_WINDOW => "from its base the image would reach past address 0xffffffff",
        REFUSED_ENDED => "not all of it lies within the image",
        REFUSED_BELOW_BASE => "its address is below the image's base",
        REFUSED_ROW => "a row that is needed is missing, or its type is unknown",
        REFUSED_MAGIC => "no info header (SDRR) at the info offset",
        REFUSED_LINE => "the microcontroller line is unknown",
        REFUSED_STORAGE => "the storage code is unknown",
        REFUSED_VERSION => "the firmware is 0.7.0 or later, which is not known here",
        REFUSED_NO_NUL => "no end of the text within 1,024 bytes",
        REFUSED_UTF8 => "the text is not UTF-8",
        REFUSED_METADATA_MAGIC => "metadata does not start with ONEROM_METADATA",
        REFUSED_METADATA_VERSION => "metadata's version is not 1",
        REFUSED_METADATA_POINTER => "metadata counts sets, but gives no address",
        REFUSED_SERVE => "a set's serving is unknown",
        REFUSED_STATE => "a set's multi-ROM state is unknown",
        REFUSED_TYPE => "a ROM's type is unknown",
        REFUSED_CS_STATE => "a ROM's chip-select state is unknown",
        REFUSED_SET_ROWS => "more sets than there are rows for",
        REFUSED_ROM_ROWS => "more ROMs than there are rows for",
        REFUSED_PORT => "a port of the pins is unknown",
        REFUSED_RUNTIME_MAGIC => "the runtime record does not start with sdrr",
        REFUSED_RUNTIME_SIZE => "the runtime record's size byte is under 20",
        REFUSED_RUNTIME_BASE => "the access count would stand past address 0xffffffff",
        REFUSED_NO_PINS => "the pins are refused, and this read needs them",
        REFUSED_NO_SETS => "the board serves no set",
        REFUSED_X_PIN => "X1 or X2 is not on one of the sixteen pins that are read",
        REFUSED_X_MAPPED => "X1 or X2 is at a pin that an address line has",
        REFUSED_NO_ROM => "the set that governs has no ROM",
        REFUSED_UNSUPPORTED => "the governing set's first ROM is of a type that logical reads do not cover",
        REFUSED_CONTROL_PIN => "a control pin of the type is not on one of the sixteen pins that are read",
        REFUSED_ADDRESS => "the address is above the ROM's last",
        REFUSED_ROM28C16 => "logical reads do not cover a 28C16",
        REFUSED_DATA_PIN => "a data pin is at 8 or above",
        REFUSED_NO_SUCH_SET => "there is no such set",
        REFUSED_PAST_SET => "the read goes past the set's size",
        REFUSED_COUNT => "the count of bytes served would pass 4,294,967,295",
        REFUSED_JOB => "there is no such job",
        _ => "no refusal has this number",
    }
}

// ---- the structs of the header

#[repr(C)]
#[derive(Clone, Copy)]
pub struct Header {
    pub major: u16,
    pub minor: u16,
    pub patch: u16,
    pub build: u16,
    pub freq: u16,
    pub commit: [u8; 8],
    pub line: u8,
    pub storage: u8,
    pub overclock: u8,
    pub swd_enabled: u8,
    pub preload_image_to_ram: u8,
    pub bootloader_capable: u8,
    pub status_led_enabled: u8,
    pub boot_logging_enabled: u8,
    pub mco_enabled: u8,
    pub count_rom_access: u8,
    pub boot_config: [u8; 4],
}

#[repr(C)]
#[derive(Clone, Copy)]
pub struct Text {
    pub number: u8,
    pub offset: u32,
    pub length: u32,
    /// How many code points it has.
    pub width: u32,
}

#[repr(C)]
#[derive(Clone, Copy)]
pub struct ExtraInfo {
    pub number: u8,
    pub usb_dfu: u8,
    pub usb_port: u8,
    pub vbus_pin: u8,
    pub fire_pio_default: u8,
    pub rtt_ptr: u32,
    pub runtime_info_ptr: u32,
}

#[repr(C)]
#[derive(Clone, Copy)]
pub struct Metadata {
    pub looked_for: u8,
    pub number: u8,
}

#[repr(C)]
#[derive(Clone, Copy)]
pub struct Sets {
    pub number: u8,
    pub rom_set_count: u8,
    pub served: u32,
}

#[repr(C)]
#[derive(Clone, Copy)]
pub struct Pins {
    pub number: u8,
    pub ports: [u8; 5],
    pub rom_pins: u8,
    pub data: [u8; 8],
    pub addr: [u8; 16],
    pub cs: [u8; 3],
    pub reserved: [u8; 3],
    pub x1: u8,
    pub x2: u8,
    pub ce: u8,
    pub oe: u8,
    pub x_jumper_pull: u8,
    pub swclk_sel: u8,
    pub swdio_sel: u8,
    pub sel: [u8; 7],
    pub sel_jumper_pull: u8,
    pub status: u8,
    pub extended: u8,
    pub data2: [u8; 8],
    pub addr2: [u8; 16],
}

#[repr(C)]
#[derive(Clone, Copy)]
pub struct Report {
    pub header: Header,
    pub build_date: Text,
    pub hw_rev: Text,
    pub extra_info: ExtraInfo,
    pub metadata: Metadata,
    pub rom_sets: Sets,
    pub pins: Pins,
}

#[repr(C)]
struct Opening {
    number: u32,
    report: Report,
}

const _: () = assert!(size_of::<Header>() == 32);
const _: () = assert!(size_of::<Text>() == 16);
const _: () = assert!(size_of::<ExtraInfo>() == 16);
const _: () = assert!(size_of::<Metadata>() == 2);
const _: () = assert!(size_of::<Sets>() == 8);
const _: () = assert!(size_of::<Pins>() == 78);
const _: () = assert!(size_of::<Report>() == 172);
const _: () = assert!(size_of::<Opening>() == 176);

impl Report {
    /// Each item's number; metadata's is 0 where it was not looked for.
    pub fn items(&self) -> [u8; 6] {
        let mut numbers = [0; 6];
        numbers[ITEM_BUILD_DATE] = self.build_date.number;
        numbers[ITEM_HW_REV] = self.hw_rev.number;
        numbers[ITEM_EXTRA_INFO] = self.extra_info.number;
        numbers[ITEM_METADATA] = self.metadata.number;
        numbers[ITEM_ROM_SETS] = self.rom_sets.number;
        numbers[ITEM_PINS] = self.pins.number;
        numbers
    }
}

unsafe extern "C" {
    fn onerom_string(image: *const u8, image_len: usize, base: u32, pointer: u32, part: *mut u32) -> u32;
    fn onerom_open(
        image: *const u8,
        image_len: usize,
        flash_base: u32,
        cs0_base: u32,
        info_offset: u32,
        set_rows: *mut u32,
        set_words: usize,
        rom_rows: *mut u32,
        rom_words: usize,
    ) -> Opening;
    fn onerom_same_set(
        served: u32,
        set_rows: *const u32,
        set_words: usize,
        rom_rows: *const u32,
        rom_words: usize,
        a: u32,
        b: u32,
        value: *mut u32,
    ) -> u32;
    fn onerom_read_rom_set_data(
        image: *const u8,
        image_len: usize,
        flash_base: u32,
        cs0_base: u32,
        report: Report,
        set_rows: *const u32,
        set_words: usize,
        set: u32,
        offset: u32,
        buffer: *mut u8,
        buffer_len: usize,
        job: u32,
        counts: *mut u32,
    ) -> u32;
    fn onerom_read_rom_byte_own(
        image: *const u8,
        image_len: usize,
        flash_base: u32,
        cs0_base: u32,
        report: Report,
        set_rows: *const u32,
        set_words: usize,
        rom_rows: *const u32,
        rom_words: usize,
        set: u32,
        address: u32,
        levels: *const u8,
        job: u32,
        counts: *mut u32,
        value: *mut u8,
    ) -> u32;
}

/// Where the image stands.
#[derive(Clone, Copy)]
pub struct Settings {
    pub flash_base: u32,
    pub cs0_base: u32,
    pub info_offset: u32,
}

impl Default for Settings {
    fn default() -> Self {
        Settings { flash_base: FLASH_BASE, cs0_base: CS0_BASE, info_offset: INFO_OFFSET }
    }
}

/// The refusal's number.
#[derive(Debug, PartialEq, Eq)]
pub struct Refused(pub u32);

impl fmt::Display for Refused {
    fn fmt(&self, f: &mut fmt::Formatter<'_>) -> fmt::Result {
        write!(f, "refused {}: {}", self.0, reason(self.0))
    }
}

fn accepted(number: u32) -> Result<(), Refused> {
    if number == ACCEPTED { Ok(()) } else { Err(Refused(number)) }
}

/// A part of the image that the library took for a string.
fn text_at(image: &[u8], offset: u32, length: u32) -> Option<&str> {
    std::str::from_utf8(image.get(offset as usize..)?.get(..length as usize)?).ok()
}

/// The string at a pointer of an image that starts at a base, and its width: how many code points it has.
pub fn string(image: &[u8], base: u32, pointer: u32) -> Result<(&str, u32), Refused> {
    let mut part = [0; PART_WORDS];
    accepted(unsafe { onerom_string(image.as_ptr(), image.len(), base, pointer, part.as_mut_ptr()) })?;
    let text = text_at(image, part[PART_OFFSET], part[PART_LENGTH]);
    Ok((text.expect("an accepted string is UTF-8, and a part of the image"), part[PART_WIDTH]))
}

/// An opened board: the image, its report, its rows, and a count for each job.
pub struct Board<'a> {
    image: &'a [u8],
    settings: Settings,
    pub report: Report,
    set_rows: Vec<u32>,
    rom_rows: Vec<u32>,
    /// The bytes that each job has read: the sum of its accepted lengths since the opening.
    pub counts: [u32; JOBS],
}

impl<'a> Board<'a> {
    /// Rows for as many ROMs as are asked for, and for every set; `REFUSED_ROM_ROWS` says that those were too few, which `MAX_ROMS` never are.
    pub fn open(image: &'a [u8], settings: Settings, roms: usize) -> Result<Board<'a>, Refused> {
        let mut set_rows = vec![0; MAX_SETS * SET_WORDS];
        let mut rom_rows = vec![0; roms * ROM_WORDS];
        // Each slice is valid for its length, and no two overlap.
        let opening = unsafe {
            onerom_open(
                image.as_ptr(),
                image.len(),
                settings.flash_base,
                settings.cs0_base,
                settings.info_offset,
                set_rows.as_mut_ptr(),
                set_rows.len(),
                rom_rows.as_mut_ptr(),
                rom_rows.len(),
            )
        };
        accepted(opening.number)?;
        Ok(Board { image, settings, report: opening.report, set_rows, rom_rows, counts: [0; JOBS] })
    }

    /// The row of a set that is served.
    pub fn set(&self, i: u32) -> Option<&[u32]> {
        (i < self.report.rom_sets.served).then(|| &self.set_rows[SET_WORDS * i as usize..][..SET_WORDS])
    }

    /// A ROM row; a set's `SET_FIRST_ROM` says where its rows begin.
    pub fn rom(&self, row: u32) -> Option<&[u32]> {
        self.rom_rows.get(ROM_WORDS * row as usize..)?.get(..ROM_WORDS)
    }

    /// The name of a ROM row, a part of the image, and its width: how many code points it has.
    pub fn name(&self, row: u32) -> Option<(&'a str, u32)> {
        let rom = self.rom(row)?;
        let text = text_at(self.image, rom[ROM_NAME_OFFSET], rom[ROM_NAME_LENGTH])?;
        (rom[ROM_NAME_REASON] == 0).then_some((text, rom[ROM_NAME_WIDTH]))
    }

    /// A text of the report, the build date or the revision, in the same way.
    pub fn text(&self, text: Text) -> Option<(&'a str, u32)> {
        (text.number == 0).then_some((text_at(self.image, text.offset, text.length)?, text.width))
    }

    pub fn same_set(&self, a: u32, b: u32) -> Result<bool, Refused> {
        let mut value = 0;
        let served = self.report.rom_sets.served;
        accepted(unsafe {
            onerom_same_set(
                served,
                self.set_rows.as_ptr(),
                self.set_rows.len(),
                self.rom_rows.as_ptr(),
                self.rom_rows.len(),
                a,
                b,
                &mut value,
            )
        })?;
        Ok(value == 1)
    }

    /// Fills the buffer with a set's bytes from an offset on, for a job.
    pub fn read(&mut self, set: u32, offset: u32, buffer: &mut [u8], job: u32) -> Result<(), Refused> {
        accepted(unsafe {
            onerom_read_rom_set_data(
                self.image.as_ptr(),
                self.image.len(),
                self.settings.flash_base,
                self.settings.cs0_base,
                self.report,
                self.set_rows.as_ptr(),
                self.set_rows.len(),
                set,
                offset,
                buffer.as_mut_ptr(),
                buffer.len(),
                job,
                self.counts.as_mut_ptr(),
            )
        })
    }

    /// The byte that a set's socket sees at a logical address, for a job: the set's own ROM count and first type govern, whichever set it is.
    pub fn read_rom_byte_own(&mut self, set: u32, address: u32, levels: &[u8; LEVELS], job: u32) -> Result<u8, Refused> {
        let mut value = 0;
        accepted(unsafe {
            onerom_read_rom_byte_own(
                self.image.as_ptr(),
                self.image.len(),
                self.settings.flash_base,
                self.settings.cs0_base,
                self.report,
                self.set_rows.as_ptr(),
                self.set_rows.len(),
                self.rom_rows.as_ptr(),
                self.rom_rows.len(),
                set,
                address,
                levels.as_ptr(),
                job,
                self.counts.as_mut_ptr(),
                &mut value,
            )
        })?;
        Ok(value)
    }
}
