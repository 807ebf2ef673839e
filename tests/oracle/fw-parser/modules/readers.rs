//! Stand-in for the module of readers: a window on an image, and doors to functions that the crate keeps to itself.
//!
//! A door calls the Rust's function and changes nothing of its answer.

use core::future::Future;
use core::pin::pin;
use core::task::{Context, Poll, Waker};

use onerom_config::fw::FirmwareVersion;

use crate::parsing;
use crate::{McuLine, McuStorage, Parser, Reader, SdrrExtraInfo, SdrrPins, SdrrRomSet, SdrrRuntimeInfo};

/// Document 01's window: a read of n bytes at address a succeeds exactly if base ≤ a and a + n ≤ base + image length.
pub struct Window<'a> {
    pub image: &'a [u8],
    pub base: u32,
}

impl Window<'_> {
    #[inline]
    fn copy(&self, addr: u32, buf: &mut [u8]) -> Result<(), ()> {
        let at = addr.checked_sub(self.base).ok_or(())? as usize;
        buf.copy_from_slice(self.image.get(at..at + buf.len()).ok_or(())?);
        Ok(())
    }
}

impl Reader for Window<'_> {
    type Error = ();

    #[inline]
    async fn read(&mut self, addr: u32, buf: &mut [u8]) -> Result<(), ()> {
        self.copy(addr, buf)
    }

    fn update_base_address(&mut self, base_address: u32) {
        self.base = base_address;
    }
}

/// One read that the Rust tried.
#[derive(Debug, Clone, Copy, PartialEq, Eq)]
pub struct Tried {
    pub addr: u32,
    pub len: u32,
    pub done: bool,
}

/// A window that keeps the reads tried, in order. ROM infos at the hidden addresses are shown with the name pointer FFFFFFFF; no other record
/// has eight bytes.
pub struct Logged<'a> {
    pub window: Window<'a>,
    pub log: &'a mut Vec<Tried>,
    pub hidden: &'a [u32],
}

impl Reader for Logged<'_> {
    type Error = ();

    async fn read(&mut self, addr: u32, buf: &mut [u8]) -> Result<(), ()> {
        let answer = self.window.copy(addr, buf);
        if buf.len() == 8 && self.hidden.contains(&addr) {
            buf[4..].fill(0xFF);
        }
        self.log.push(Tried { addr, len: buf.len() as u32, done: answer.is_ok() });
        answer
    }

    fn update_base_address(&mut self, base_address: u32) {
        self.window.base = base_address;
    }
}

/// No reader here ever waits, so the first poll gives the answer.
#[inline]
pub fn block_on<T>(future: impl Future<Output = T>) -> T {
    match pin!(future).poll(&mut Context::from_waker(Waker::noop())) {
        Poll::Ready(value) => value,
        Poll::Pending => unreachable!("no reader waits"),
    }
}

// ---- doors

/// A runtime record of any length. The Rust's parser always reads 64 bytes; its two functions below that take a slice.
pub fn runtime(record: &[u8], ram_base: u32) -> Result<SdrrRuntimeInfo, String> {
    let header = parsing::parse_and_validate_runtime_info(record)?;
    let mut none = Window { image: &[], base: 0 };
    let mut parser = Parser::with_base_flash_address(&mut none, 0, ram_base);
    block_on(parser.parse_ram_from_runtime_info(header, record))
}

/// The runtime record as the parser reads it: 64 bytes at the RAM base.
pub fn ram(memory: &[u8], ram_base: u32) -> Result<SdrrRuntimeInfo, String> {
    let mut window = Window { image: memory, base: ram_base };
    let mut parser = Parser::with_base_flash_address(&mut window, 0, ram_base);
    block_on(parser.parse_ram())
}

/// The string reader of lib.rs.
pub fn string(window: &mut Window<'_>, ptr: u32) -> Result<String, String> {
    let base = window.base;
    let mut parser = Parser::with_base_flash_address(window, base, 0);
    block_on(parser.read_string_at_ptr(ptr))
}

/// The string reader of parsing.rs, which serves ROM names.
pub fn name(window: &mut Window<'_>, ptr: u32) -> Result<String, String> {
    let base = window.base;
    block_on(parsing::read_string_at_ptr(window, ptr, base))
}

/// What the info header holds; the Rust's own struct is private.
#[derive(Debug, Clone)]
pub struct Header {
    pub version: [u16; 4],
    pub build_date_ptr: u32,
    pub commit: [u8; 8],
    pub hw_rev_ptr: u32,
    pub stm_line: McuLine,
    pub stm_storage: McuStorage,
    pub freq: u16,
    pub flags: [u8; 7],
    pub rom_set_count: u8,
    pub count_rom_access: u8,
    pub rom_sets_ptr: u32,
    pub pins_ptr: u32,
    pub boot_config: [u8; 4],
    pub extra_ptr: u32,
}

pub fn header(image: &[u8], flash_base: u32) -> Result<Header, String> {
    let mut window = Window { image, base: flash_base };
    let mut parser = Parser::with_base_flash_address(&mut window, flash_base, 0);
    let h = block_on(parser.retrieve_header())?;
    Ok(Header {
        version: [h.major_version, h.minor_version, h.patch_version, h.build_number],
        build_date_ptr: h.build_date_ptr,
        commit: h.commit,
        hw_rev_ptr: h.hw_rev_ptr,
        stm_line: h.stm_line,
        stm_storage: h.stm_storage,
        freq: h.freq,
        flags: [
            h.overclock,
            h.swd_enabled,
            h.preload_image_to_ram,
            h.bootloader_capable,
            h.status_led_enabled,
            h.boot_logging_enabled,
            h.mco_enabled,
        ],
        rom_set_count: h.rom_set_count,
        count_rom_access: h.count_rom_access,
        rom_sets_ptr: h.rom_sets_ptr,
        pins_ptr: h.pins_ptr,
        boot_config: h.boot_config,
        extra_ptr: h.extra_ptr,
    })
}

pub fn extra_info(window: &mut Window<'_>, ptr: u32, version: [u16; 4]) -> Result<SdrrExtraInfo, String> {
    let base = window.base;
    let [major, minor, patch, build] = version;
    block_on(parsing::read_extra_info(window, ptr, base, &FirmwareVersion::new(major, minor, patch, build)))
}

/// Metadata's version, set count and sets pointer. The opening hides why there is none.
pub fn metadata(window: &mut Window<'_>, ptr: u32) -> Result<(u32, u8, u32), String> {
    let base = window.base;
    let m = block_on(parsing::read_one_rom_metadata_header_info(window, ptr, base))?;
    Ok((m.version, m.rom_set_count, m.rom_sets_ptr))
}

/// The walk over `count` sets at `ptr`, with the version and flags of the header in the image.
pub fn sets(image: &[u8], flash_base: u32, walk: &mut Logged<'_>, count: u8, ptr: u32) -> Result<Vec<SdrrRomSet>, String> {
    let mut window = Window { image, base: flash_base };
    let mut parser = Parser::with_base_flash_address(&mut window, flash_base, 0);
    let mut h = block_on(parser.retrieve_header())?;
    let version = FirmwareVersion::new(h.major_version, h.minor_version, h.patch_version, h.build_number);
    h.rom_set_count = count;
    h.rom_sets_ptr = ptr;
    let base = walk.window.base;
    block_on(parsing::read_rom_sets(walk, &h, base, &version))
}

pub fn pins(window: &mut Window<'_>, ptr: u32) -> Result<SdrrPins, String> {
    let base = window.base;
    block_on(parsing::read_pins(window, ptr, base))
}
