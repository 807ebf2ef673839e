//! Stand-in for onerom_metadata. Three values matter to boards below 0.7.0: where the info header stands, the CS0 base, and the version at
//! which the schema format begins. The rest only lets the schema path compile; the host never enters it.

use onerom_config::fw::FirmwareVersion;

/// The Rust's own comment puts the header at 0x200 from the base.
pub const ONEROM_INFO_OFFSET: u32 = 0x200;

/// Where an RP2350 maps its first flash chip.
pub const FLASH_CS0_BASE_ADDR: u32 = 0x1000_0000;

/// Document 01 settles the limit: 0.7.0 build 0.
pub const MIN_SCHEMA_VERSION: FirmwareVersion = FirmwareVersion::new(0, 7, 0, 0);

pub const ONEROM_FAMILY_MAGIC: &str = "ORRM";
pub const ONEROM_INFO_MAGIC: &str = "SDRR";
pub const RUNTIME_INFO_MAGIC: &str = "sdrr";

pub const BUILD_DATE_BUF_LEN: usize = 64;
pub const METADATA_SIZE: usize = 16384;
pub const ONEROM_INFO_SIZE: usize = 64;
pub const ONEROM_RUNTIME_INFO_SIZE: usize = 64;
pub const ONEROM_INFO_MAGIC_OFFSET: usize = 0;
pub const ONEROM_INFO_MAJOR_VERSION_OFFSET: usize = 4;
pub const ONEROM_INFO_MINOR_VERSION_OFFSET: usize = 6;
pub const ONEROM_INFO_PATCH_VERSION_OFFSET: usize = 8;
pub const ONEROM_INFO_BUILD_DATE_OFFSET: usize = 12;
pub const ONEROM_INFO_METADATA_OFFSET: usize = 16;
pub const ONEROM_INFO_RUNTIME_OFFSET: usize = 20;

#[derive(Debug)]
pub enum FirmwareType {
    FirmwareTypeOneRom,
    FirmwareTypeLab,
}

#[derive(Debug)]
pub enum MaybeKnown<T> {
    Known(T),
    Unknown(u32),
}

pub struct Generations;

impl Generations {
    pub const UNKNOWN: Generations = Generations;
}

pub struct DeviceMemoryView;

impl DeviceMemoryView {
    pub fn new(_: &[u8], _: u32) -> Self {
        DeviceMemoryView
    }

    pub fn add_region(&mut self, _: &[u8], _: u32) {}
}

#[derive(Debug)]
pub struct ParseError;

pub struct OneromInfo {
    pub firmware_type: MaybeKnown<FirmwareType>,
}

impl OneromInfo {
    pub fn parse(_: &DeviceMemoryView, _: u32, _: Generations) -> Result<OneromInfo, ParseError> {
        unimplemented!("the schema format is not part of the oracle")
    }
}
