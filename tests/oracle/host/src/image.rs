//! A board's image in the making: records with pointers between them, which are written once the base is known.

/// The Rust's constants; oracle runs use no other settings.
pub const INFO_OFFSET: u32 = onerom_fw_parser::SDRR_INFO_FW_OFFSET;
pub const CS0_BASE: u32 = 0x1000_0000;
pub const FLASH_BASE: u32 = 0x0800_0000;

pub const HEADER: usize = INFO_OFFSET as usize;
pub const HEADER_END: usize = HEADER + 64;
pub const TOP: u64 = 1 << 32;
pub const RP2350: u16 = 5;

#[derive(Debug, Clone, Default)]
pub struct Board {
    pub image: Vec<u8>,
    pub flash_base: u32,
    /// Where pointers stand in the image, and the offset that each points to.
    pub pointers: Vec<(usize, usize)>,
    /// Where records end.
    pub ends: Vec<usize>,
    /// Where name pointers stand.
    pub names: Vec<usize>,
    /// The set headers, with their tables.
    pub heads: Vec<(usize, usize)>,
    fill: u8,
}

impl Board {
    /// The base in force after the header.
    pub fn base(&self) -> u32 {
        match self.image.get(HEADER + 28..HEADER + 30) {
            Some([5, 0]) => CS0_BASE,
            _ => self.flash_base,
        }
    }

    pub fn clear(&mut self, fill: u8) {
        self.image.clear();
        self.pointers.clear();
        self.ends.clear();
        self.names.clear();
        self.heads.clear();
        self.fill = fill;
    }

    /// Room for a record behind what is there; the header's place is left free.
    pub fn room(&mut self, len: usize) -> usize {
        let mut at = self.image.len();
        if at < HEADER_END && at + len > HEADER {
            at = HEADER_END;
        }
        self.image.resize(at + len, self.fill);
        self.ends.push(at + len);
        at
    }

    pub fn put(&mut self, at: usize, bytes: &[u8]) {
        if self.image.len() < at + bytes.len() {
            self.image.resize(at + bytes.len(), self.fill);
        }
        self.image[at..at + bytes.len()].copy_from_slice(bytes);
    }

    pub fn put_word(&mut self, at: usize, word: u32) {
        self.put(at, &word.to_le_bytes());
    }

    /// A pointer, written when the base is known.
    pub fn point(&mut self, at: usize, to: usize) {
        self.put_word(at, 0);
        self.pointers.push((at, to));
    }

    /// Lets the pointer that stands there point elsewhere.
    pub fn turn(&mut self, at: usize, to: usize) {
        self.pointers.retain(|(place, _)| *place != at);
        self.point(at, to);
    }

    /// A copy of a part at the image's end, with the pointers in it.
    pub fn copy_to_end(&mut self, from: usize, len: usize) -> usize {
        let to = self.image.len();
        self.image.extend_from_within(from..from + len);
        for i in 0..self.pointers.len() {
            let (at, target) = self.pointers[i];
            if from <= at && at + 4 <= from + len {
                self.pointers.push((at - from + to, target));
            }
        }
        to
    }

    /// Writes the pointers by the base in force.
    pub fn settle(&mut self) {
        let base = self.base();
        for &(at, to) in &self.pointers {
            if let Some(place) = self.image.get_mut(at..at + 4) {
                place.copy_from_slice(&base.wrapping_add(to as u32).to_le_bytes());
            }
        }
    }

    pub fn pointer_places(&self) -> Vec<usize> {
        self.pointers.iter().map(|(at, _)| *at).collect()
    }

    /// A pointer to this offset, which may lie outside the image.
    pub fn write_pointer(&mut self, at: usize, to: u32) {
        let word = self.base().wrapping_add(to).to_le_bytes();
        self.image[at..at + 4].copy_from_slice(&word);
    }

    /// The header, with its pointers to build date, revision, sets or metadata, pins and extra info left open.
    pub fn put_header(&mut self, h: &Header) {
        let mut bytes = [0; 64];
        bytes[..4].copy_from_slice(b"SDRR");
        for (i, v) in h.version.iter().enumerate() {
            bytes[4 + 2 * i..6 + 2 * i].copy_from_slice(&v.to_le_bytes());
        }
        bytes[16..24].copy_from_slice(&h.commit);
        bytes[28..30].copy_from_slice(&h.line.to_le_bytes());
        bytes[30..32].copy_from_slice(&h.storage.to_le_bytes());
        bytes[32..34].copy_from_slice(&h.freq);
        bytes[34..43].copy_from_slice(&h.flags);
        bytes[52..56].copy_from_slice(&h.boot_config);
        self.put(HEADER, &bytes);
    }
}

pub struct Header {
    pub version: [u16; 4],
    pub commit: [u8; 8],
    pub line: u16,
    pub storage: u16,
    pub freq: [u8; 2],
    /// Seven flags, the set count, the counting flag.
    pub flags: [u8; 9],
    pub boot_config: [u8; 4],
}

/// Where the header's pointers stand.
pub const DATE_PTR: usize = HEADER + 12;
pub const REV_PTR: usize = HEADER + 24;
pub const SETS_PTR: usize = HEADER + 44;
pub const PINS_PTR: usize = HEADER + 48;
pub const EXTRA_PTR: usize = HEADER + 56;

pub fn has_metadata(version: [u16; 4]) -> bool {
    version >= [0, 5, 0, 0]
}

pub fn has_names(version: [u16; 4], boot_logging: u8) -> bool {
    version >= [0, 5, 1, 0] || boot_logging != 0
}

/// Whether extra byte 1 makes a set 64 bytes long.
pub fn has_long_sets(version: [u16; 4]) -> bool {
    version >= [0, 6, 0, 0]
}
