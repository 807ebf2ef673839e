//! The C entry points of include/onerom.h, as safe functions. The only unsafe code of the host.

use crate::image::{CS0_BASE, INFO_OFFSET};
use crate::report::{ExtraInfo, Fields, NOT_LOOKED_FOR, PinsItem, Report};

unsafe extern "C" {
    fn onerom_runtime(record: *const u8, record_len: usize, ram_base: u32, words: *mut u32) -> u32;
    fn onerom_string(image: *const u8, image_len: usize, base: u32, pointer: u32, part: *mut u32) -> u32;
    fn onerom_mangle(
        pins_number: u8,
        rom_pins: u8,
        addr: *const u8,
        control: *const u8,
        served: u32,
        set_rows: *const u32,
        set_words: usize,
        rom_rows: *const u32,
        rom_words: usize,
        address: u32,
        levels: *const u8,
        value: *mut u32,
    ) -> u32;
    fn onerom_demangle(pins_number: u8, data: *const u8, byte: u8, value: *mut u8) -> u32;
    fn onerom_open(
        image: *const u8,
        image_len: usize,
        flash_base: u32,
        cs0_base: u32,
        info_offset: u32,
        set_rows: *mut u32,
        set_words: usize,
        rom_rows: *mut u32,
        rom_words: usize,
    ) -> COpening;
    fn onerom_get_rom_set_size(served: u32, set_rows: *const u32, set_words: usize, set: u32, value: *mut u32) -> u32;
    fn onerom_same_set(
        served: u32,
        set_rows: *const u32,
        set_words: usize,
        rom_rows: *const u32,
        rom_words: usize,
        a: u32,
        b: u32,
        value: *mut u32,
    ) -> u32;
    fn onerom_read_rom_set_data(
        image: *const u8,
        image_len: usize,
        flash_base: u32,
        cs0_base: u32,
        report: CReport,
        set_rows: *const u32,
        set_words: usize,
        set: u32,
        offset: u32,
        buffer: *mut u8,
        buffer_len: usize,
        job: u32,
        counts: *mut u32,
    ) -> u32;
    fn onerom_read_rom_byte_raw(
        image: *const u8,
        image_len: usize,
        flash_base: u32,
        cs0_base: u32,
        report: CReport,
        set_rows: *const u32,
        set_words: usize,
        rom_rows: *const u32,
        rom_words: usize,
        set: u32,
        logical: u8,
        address: u32,
        levels: *const u8,
        job: u32,
        counts: *mut u32,
        value: *mut u8,
    ) -> u32;
    fn onerom_read_rom_byte_demangled(
        image: *const u8,
        image_len: usize,
        flash_base: u32,
        cs0_base: u32,
        report: CReport,
        set_rows: *const u32,
        set_words: usize,
        rom_rows: *const u32,
        rom_words: usize,
        set: u32,
        logical: u8,
        address: u32,
        levels: *const u8,
        job: u32,
        counts: *mut u32,
        value: *mut u8,
    ) -> u32;
    fn onerom_read_rom_byte_own(
        image: *const u8,
        image_len: usize,
        flash_base: u32,
        cs0_base: u32,
        report: CReport,
        set_rows: *const u32,
        set_words: usize,
        rom_rows: *const u32,
        rom_words: usize,
        set: u32,
        address: u32,
        levels: *const u8,
        job: u32,
        counts: *mut u32,
        value: *mut u8,
    ) -> u32;
}

// ---- the structs of the header

#[repr(C)]
#[derive(Clone, Copy)]
struct CHeader {
    version: [u16; 4],
    freq: u16,
    commit: [u8; 8],
    line: u8,
    storage: u8,
    flags: [u8; 7],
    count_rom_access: u8,
    boot_config: [u8; 4],
}

#[repr(C)]
#[derive(Clone, Copy)]
struct CText {
    number: u8,
    offset: u32,
    length: u32,
    width: u32,
}

#[repr(C)]
#[derive(Clone, Copy)]
struct CExtraInfo {
    number: u8,
    usb_dfu: u8,
    usb_port: u8,
    vbus_pin: u8,
    fire_pio_default: u8,
    rtt_ptr: u32,
    runtime_info_ptr: u32,
}

#[repr(C)]
#[derive(Clone, Copy)]
struct CMetadata {
    looked_for: u8,
    number: u8,
}

#[repr(C)]
#[derive(Clone, Copy)]
struct CSets {
    number: u8,
    rom_set_count: u8,
    served: u32,
}

#[repr(C)]
#[derive(Clone, Copy)]
struct CPins {
    number: u8,
    pins: [u8; 77],
}

#[repr(C)]
#[derive(Clone, Copy)]
pub struct CReport {
    header: CHeader,
    build_date: CText,
    hw_rev: CText,
    extra_info: CExtraInfo,
    metadata: CMetadata,
    rom_sets: CSets,
    pins: CPins,
}

#[repr(C)]
pub struct COpening {
    pub number: u32,
    pub report: CReport,
}

const _: () = assert!(size_of::<CHeader>() == 32);
const _: () = assert!(size_of::<CText>() == 16);
const _: () = assert!(size_of::<CExtraInfo>() == 16);
const _: () = assert!(size_of::<CMetadata>() == 2);
const _: () = assert!(size_of::<CSets>() == 8);
const _: () = assert!(size_of::<CPins>() == 78);
const _: () = assert!(size_of::<CReport>() == 172);
const _: () = assert!(size_of::<COpening>() == 176);

impl CReport {
    /// The values as the host compares them. A flag that is neither 0 nor 1 is none.
    pub fn values(&self) -> Option<Report> {
        let h = &self.header;
        let flag = |b: u8| (b < 2).then_some(b == 1);
        let mut flags = [false; 7];
        for (to, from) in flags.iter_mut().zip(h.flags) {
            *to = flag(from)?;
        }
        let string = |s: CText| [s.number as u32, s.offset, s.length, s.width];
        Some(Report {
            fields: Fields {
                version: h.version,
                commit: h.commit,
                line: h.line as u32,
                storage: h.storage as u32,
                freq: h.freq as u32,
                flags,
                counting: flag(h.count_rom_access)?,
                boot_config: h.boot_config,
            },
            build_date: string(self.build_date),
            hw_rev: string(self.hw_rev),
            extra: ExtraInfo {
                number: self.extra_info.number as u32,
                rtt_ptr: self.extra_info.rtt_ptr,
                usb_dfu: flag(self.extra_info.usb_dfu)?,
                usb_port: self.extra_info.usb_port as u32,
                vbus_pin: self.extra_info.vbus_pin as u32,
                pio_default: self.extra_info.fire_pio_default as u32,
                runtime_ptr: self.extra_info.runtime_info_ptr,
            },
            metadata: match (self.metadata.looked_for, self.metadata.number) {
                (0, 0) => NOT_LOOKED_FOR,
                (1, number) => number as u32,
                _ => return None,
            },
            sets: [self.rom_sets.number as u32, self.rom_sets.rom_set_count as u32, self.rom_sets.served],
            pins: PinsItem { number: self.pins.number as u32, pins: self.pins.pins },
        })
    }

    pub fn served(&self) -> u32 {
        self.rom_sets.served
    }
}

// ---- the calls

pub const RUNTIME_WORDS: usize = 25;
/// A string's part: offset, length, width.
pub const PART_WORDS: usize = 3;
pub const SET_WORDS: usize = 8;
pub const ROM_WORDS: usize = 8;
/// A ROM read is for one of so many jobs, and is lent a count for each.
pub const JOBS: usize = 8;
/// Where a ROM row holds its name: offset, length, reason, width.
pub const ROM_NAME: usize = 4;
pub const ROM_NAME_REASON: usize = 6;

pub fn runtime(record: &[u8], ram_base: u32, words: &mut [u32; RUNTIME_WORDS]) -> u32 {
    unsafe { onerom_runtime(record.as_ptr(), record.len(), ram_base, words.as_mut_ptr()) }
}

pub fn string(image: &[u8], base: u32, pointer: u32, part: &mut [u32; PART_WORDS]) -> u32 {
    unsafe { onerom_string(image.as_ptr(), image.len(), base, pointer, part.as_mut_ptr()) }
}

/// The pins that mangling and demangling look at.
#[derive(Debug, Clone, Copy, PartialEq, Eq)]
pub struct Pins {
    pub number: u8,
    pub rom_pins: u8,
    pub data: [u8; 8],
    pub addr: [u8; 16],
    /// CS1, CS2, CS3, X1, X2, CE, OE
    pub control: [u8; 7],
}

/// The sets served, with set rows and ROM rows.
#[derive(Debug, Clone, Copy)]
pub struct Rows<'a> {
    pub served: u32,
    pub sets: &'a [u32],
    pub roms: &'a [u32],
}

pub fn mangle(pins: &Pins, rows: Rows<'_>, address: u32, levels: &[u8; 5], value: &mut u32) -> u32 {
    unsafe {
        onerom_mangle(
            pins.number,
            pins.rom_pins,
            pins.addr.as_ptr(),
            pins.control.as_ptr(),
            rows.served,
            rows.sets.as_ptr(),
            rows.sets.len(),
            rows.roms.as_ptr(),
            rows.roms.len(),
            address,
            levels.as_ptr(),
            value,
        )
    }
}

pub fn demangle(pins: &Pins, byte: u8, value: &mut u8) -> u32 {
    unsafe { onerom_demangle(pins.number, pins.data.as_ptr(), byte, value) }
}

pub fn open(image: &[u8], flash_base: u32, set_rows: &mut [u32], rom_rows: &mut [u32]) -> COpening {
    let (sets, roms) = (set_rows.as_mut_ptr(), rom_rows.as_mut_ptr());
    unsafe { onerom_open(image.as_ptr(), image.len(), flash_base, CS0_BASE, INFO_OFFSET, sets, set_rows.len(), roms, rom_rows.len()) }
}

/// An opened board as it is lent to a call.
#[derive(Clone, Copy)]
pub struct Lent<'a> {
    pub image: &'a [u8],
    pub flash_base: u32,
    pub report: &'a CReport,
    pub sets: &'a [u32],
    pub roms: &'a [u32],
}

pub fn size(lent: Lent<'_>, set: u32, value: &mut u32) -> u32 {
    unsafe { onerom_get_rom_set_size(lent.report.served(), lent.sets.as_ptr(), lent.sets.len(), set, value) }
}

pub fn same_set(lent: Lent<'_>, a: u32, b: u32, value: &mut u32) -> u32 {
    let (sets, roms) = (lent.sets, lent.roms);
    unsafe { onerom_same_set(lent.report.served(), sets.as_ptr(), sets.len(), roms.as_ptr(), roms.len(), a, b, value) }
}

pub fn data(lent: Lent<'_>, set: u32, offset: u32, buffer: &mut [u8], job: u32, counts: &mut [u32; JOBS]) -> u32 {
    unsafe {
        onerom_read_rom_set_data(
            lent.image.as_ptr(),
            lent.image.len(),
            lent.flash_base,
            CS0_BASE,
            *lent.report,
            lent.sets.as_ptr(),
            lent.sets.len(),
            set,
            offset,
            buffer.as_mut_ptr(),
            buffer.len(),
            job,
            counts.as_mut_ptr(),
        )
    }
}

/// A raw offset, or a logical address with its levels.
#[derive(Debug, Clone, Copy, PartialEq, Eq)]
pub enum Address {
    Raw(u32),
    Logical(u32, [u8; 5]),
}

pub fn byte(lent: Lent<'_>, set: u32, address: Address, demangled: bool, job: u32, counts: &mut [u32; JOBS], value: &mut u8) -> u32 {
    let (logical, address, levels) = match address {
        Address::Raw(address) => (0, address, [0; 5]),
        Address::Logical(address, levels) => (1, address, levels),
    };
    let call = if demangled { onerom_read_rom_byte_demangled } else { onerom_read_rom_byte_raw };
    unsafe {
        call(
            lent.image.as_ptr(),
            lent.image.len(),
            lent.flash_base,
            CS0_BASE,
            *lent.report,
            lent.sets.as_ptr(),
            lent.sets.len(),
            lent.roms.as_ptr(),
            lent.roms.len(),
            set,
            logical,
            address,
            levels.as_ptr(),
            job,
            counts.as_mut_ptr(),
            value,
        )
    }
}

/// A byte at a logical address, by the named set's own ROMs.
pub fn byte_own(lent: Lent<'_>, set: u32, address: u32, levels: [u8; 5], job: u32, counts: &mut [u32; JOBS], value: &mut u8) -> u32 {
    unsafe {
        onerom_read_rom_byte_own(
            lent.image.as_ptr(),
            lent.image.len(),
            lent.flash_base,
            CS0_BASE,
            *lent.report,
            lent.sets.as_ptr(),
            lent.sets.len(),
            lent.roms.as_ptr(),
            lent.roms.len(),
            set,
            address,
            levels.as_ptr(),
            job,
            counts.as_mut_ptr(),
            value,
        )
    }
}
