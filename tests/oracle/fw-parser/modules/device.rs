//! Stand-in for the module of whole devices and image files, which document 01 leaves out. It lets lib.rs compile.

use crate::{OneRom, Sdrr};

pub enum ParsedDevice {
    Original(Sdrr),
    Schema(OneRom),
    Lab,
}

pub struct ImageFileError;
pub struct RomView;
pub struct SlotKind;
pub struct SlotReadError;
pub struct SlotView;
pub struct Slots;

pub fn image_file_reader() {}

pub fn parse_image_file() {}
