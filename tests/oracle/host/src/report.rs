//! What an opening answers, as both sides are brought to it.

use onerom_fw_parser::readers::Header;
use onerom_fw_parser::{SdrrExtraInfo, SdrrPins};

use crate::strings::{Part, refused_part};

pub const NOT_LOOKED_FOR: u32 = u32::MAX;

#[derive(Debug, Clone, PartialEq, Eq)]
pub struct Fields {
    pub version: [u16; 4],
    pub commit: [u8; 8],
    pub line: u32,
    pub storage: u32,
    pub freq: u32,
    pub flags: [bool; 7],
    pub counting: bool,
    pub boot_config: [u8; 4],
}

#[derive(Debug, Clone, PartialEq, Eq)]
pub struct ExtraInfo {
    pub number: u32,
    pub rtt_ptr: u32,
    pub usb_dfu: bool,
    pub usb_port: u32,
    pub vbus_pin: u32,
    /// 0 off, 1 on, 2 not given
    pub pio_default: u32,
    pub runtime_ptr: u32,
}

#[derive(Debug, Clone, PartialEq, Eq)]
pub struct PinsItem {
    pub number: u32,
    /// Document 01's order: five ports, ROM pins, data, address, CS1..CS3, reserved, X1, X2, CE, OE, X pull, SWCLK, SWDIO, sel, sel pull,
    /// status, extended, data2, addr2.
    pub pins: [u8; 77],
}

#[derive(Debug, Clone, PartialEq, Eq)]
pub struct Report {
    pub fields: Fields,
    pub build_date: Part,
    pub hw_rev: Part,
    pub extra: ExtraInfo,
    /// Its number, or `NOT_LOOKED_FOR`.
    pub metadata: u32,
    /// number, set count, sets served
    pub sets: [u32; 3],
    pub pins: PinsItem,
}

impl Fields {
    pub fn of(h: &Header) -> Fields {
        Fields {
            version: h.version,
            commit: h.commit,
            line: h.stm_line as u32,
            storage: h.stm_storage as u32,
            freq: h.freq as u32,
            flags: h.flags.map(|f| f != 0),
            counting: h.count_rom_access != 0,
            boot_config: h.boot_config,
        }
    }
}

impl ExtraInfo {
    pub fn of(e: &SdrrExtraInfo) -> ExtraInfo {
        ExtraInfo {
            number: 0,
            rtt_ptr: e.rtt_ptr,
            usb_dfu: e.usb_dfu,
            usb_port: e.usb_port as u32,
            vbus_pin: e.vbus_pin as u32,
            pio_default: e.fire_pio_default.map_or(2, u32::from),
            runtime_ptr: e.runtime_info_ptr,
        }
    }

    /// A refused item gives zeros, the PIO flag not given, and the runtime pointer FFFFFFFF.
    pub fn refused(number: u32) -> ExtraInfo {
        ExtraInfo { number, rtt_ptr: 0, usb_dfu: false, usb_port: 0, vbus_pin: 0, pio_default: 2, runtime_ptr: u32::MAX }
    }
}

impl PinsItem {
    pub fn of(p: &SdrrPins) -> PinsItem {
        let ports = [p.data_port, p.addr_port, p.cs_port, p.sel_port, p.status_port].map(|port| port as u8);
        let mut v = Vec::with_capacity(77);
        v.extend_from_slice(&ports);
        v.push(p.rom_pins);
        v.extend_from_slice(&p.data);
        v.extend_from_slice(&p.addr);
        v.extend_from_slice(&[p.cs1, p.cs2, p.cs3, p.reserved2a, p.reserved2b, p.reserved2c, p.x1, p.x2, p.ce, p.oe, p.x_jumper_pull]);
        v.extend_from_slice(&[p.swclk_sel, p.swdio_sel, p.sel0, p.sel1, p.sel2, p.sel3, p.sel4, p.sel5, p.sel6]);
        v.extend_from_slice(&[p.sel_jumper_pull, p.status, p.extended]);
        v.extend_from_slice(p.data2.as_deref().unwrap_or(&[0; 8]));
        v.extend_from_slice(p.addr2.as_deref().unwrap_or(&[0; 16]));
        PinsItem { number: 0, pins: v.try_into().expect("77 bytes") }
    }

    pub fn refused(number: u32) -> PinsItem {
        PinsItem { number, pins: [0; 77] }
    }
}

impl Report {
    /// What a refused opening hands back beside its number.
    pub fn none() -> Report {
        Report {
            fields: Fields {
                version: [0; 4],
                commit: [0; 8],
                line: 0,
                storage: 0,
                freq: 0,
                flags: [false; 7],
                counting: false,
                boot_config: [0; 4],
            },
            build_date: refused_part(0),
            hw_rev: refused_part(0),
            extra: ExtraInfo::refused(0),
            metadata: NOT_LOOKED_FOR,
            sets: [0; 3],
            pins: PinsItem::refused(0),
        }
    }
}
