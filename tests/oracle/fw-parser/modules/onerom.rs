//! Stand-in for the module of the schema format, which document 01 leaves out. It lets lib.rs compile.

use crate::ParseError;
use onerom_config::fw::FirmwareVersion;
use onerom_metadata::DeviceMemoryView;

pub enum FirmwareFormat {
    Original,
    Schema,
}

pub enum RuntimeAbsence {
    NoPointer,
    NotRunning,
    Unreadable,
}

pub struct NewerGeneration;

pub struct OneRom;

impl OneRom {
    pub fn new(_: Option<()>, _: Vec<ParseError>, _: Option<RuntimeAbsence>) -> Self {
        OneRom
    }

    pub fn newer(_: FirmwareVersion, _: Vec<ParseError>) -> Self {
        OneRom
    }
}

pub fn parse_onerom_from_view(_: &DeviceMemoryView, _: u32, _: Vec<ParseError>, _: Option<RuntimeAbsence>) -> OneRom {
    OneRom
}
