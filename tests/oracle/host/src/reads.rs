//! The Rust's reads, as the logged window kept them: where the walk's records stand, which the Rust's answer does not say.

use onerom_fw_parser::readers::{Header, Tried};

pub fn word(image: &[u8], at: usize) -> u32 {
    u32::from_le_bytes([image[at], image[at + 1], image[at + 2], image[at + 3]])
}

/// How many of the reads a string took.
fn string_reads(log: &[Tried], image: &[u8], base: u32, pointer: u32) -> usize {
    if pointer < base {
        return 0;
    }
    for (i, read) in log.iter().take(16).enumerate() {
        if !read.done || image[(read.addr - base) as usize..][..64].contains(&0) {
            return i + 1;
        }
    }
    log.len().min(16)
}

/// The walk's reads among an opening's: behind the header's, both strings', extra info's and metadata's.
pub fn walk_reads<'a>(log: &'a [Tried], image: &[u8], base: u32, h: &Header, metadata: bool) -> &'a [Tried] {
    let mut rest = &log[1..];
    for pointer in [h.build_date_ptr, h.hw_rev_ptr] {
        rest = &rest[string_reads(rest, image, base, pointer)..];
    }
    let one = |pointer: u32| usize::from(pointer >= base);
    rest = &rest[one(h.extra_ptr)..];
    if metadata { &rest[one(h.rom_sets_ptr)..] } else { rest }
}

pub struct RomSeen {
    /// The info's address.
    pub info: u32,
    /// FFFFFFFF where infos have no names.
    pub name_ptr: u32,
}

pub struct SetSeen {
    pub config: u32,
    pub overrides: u32,
    pub roms: Vec<RomSeen>,
}

/// Why the reads end before the walk does.
#[derive(Debug)]
pub enum Stop {
    /// before the header of a set, which would stand here
    Header(u64),
    /// before an entry of a table, which would stand here
    Table(u64),
    /// in a name, after a chunk that ends at 2^32
    Name { pointer: u32, info: u32 },
    /// a read is missing, or another one than the records call for
    Odd,
}

/// What the walk goes by.
#[derive(Clone, Copy)]
pub struct Terms {
    pub base: u32,
    pub count: u8,
    pub pointer: u32,
    /// ROM infos have names.
    pub names: bool,
    /// Extra byte 1 makes a set 64 bytes long.
    pub long: bool,
}

struct Reads<'a> {
    rest: std::slice::Iter<'a, Tried>,
    image: &'a [u8],
    terms: &'a Terms,
    hidden: &'a [u32],
}

impl Reads<'_> {
    /// The next read, done, of so many bytes at this address: its place in the image. `stop` where the reads end.
    fn done(&mut self, addr: u64, len: u32, stop: Stop) -> Result<usize, Stop> {
        match self.rest.next() {
            None => Err(stop),
            Some(read) if read.done && read.len == len && read.addr as u64 == addr => Ok((read.addr - self.terms.base) as usize),
            Some(_) => Err(Stop::Odd),
        }
    }

    fn set(&mut self, place: &mut u64) -> Result<SetSeen, Stop> {
        let at = self.done(*place, 64, Stop::Header(*place))?;
        let extra = self.image[at + 15] == 1;
        *place += if extra && self.terms.long { 64 } else { 16 };
        let mut set = SetSeen { config: 0, overrides: 0, roms: Vec::new() };
        for (at, seen) in [(at + 16, &mut set.config), (at + 20, &mut set.overrides)] {
            let pointer = word(self.image, at);
            if extra && pointer != 0 && pointer != u32::MAX {
                self.done(pointer as u64, 64, Stop::Odd)?;
                *seen = pointer;
            }
        }
        let table = word(self.image, at + 8) as u64;
        for i in 0..self.image[at + 12] as u64 {
            let rom = self.rom(table + 4 * i)?;
            set.roms.push(rom);
        }
        Ok(set)
    }

    fn rom(&mut self, entry: u64) -> Result<RomSeen, Stop> {
        let at = self.done(entry, 4, Stop::Table(entry))?;
        let info = word(self.image, at);
        let at = self.done(info as u64, if self.terms.names { 8 } else { 4 }, Stop::Odd)?;
        let named = self.terms.names && !self.hidden.contains(&info);
        let name_ptr = if named { word(self.image, at + 4) } else { u32::MAX };
        if name_ptr >= self.terms.base && name_ptr != u32::MAX {
            self.name(name_ptr, info)?;
        }
        Ok(RomSeen { info, name_ptr })
    }

    /// A chunk that fails ends the name alone.
    fn name(&mut self, pointer: u32, info: u32) -> Result<(), Stop> {
        for chunk in 0..16 {
            let place = pointer as u64 + 64 * chunk;
            let read = self.rest.next().ok_or(Stop::Odd)?;
            if read.addr as u64 != place || read.len != 64 {
                return Err(Stop::Odd);
            }
            if !read.done || self.image[(read.addr - self.terms.base) as usize..][..64].contains(&0) {
                return Ok(());
            }
            if place + 64 == 1 << 32 {
                return Err(Stop::Name { pointer, info });
            }
        }
        Ok(())
    }
}

/// The sets of a walk by its reads, and why they end early if they do.
pub fn sets_seen(log: &[Tried], image: &[u8], terms: &Terms, hidden: &[u32]) -> (Vec<SetSeen>, Option<Stop>) {
    let mut reads = Reads { rest: log.iter(), image, terms, hidden };
    let mut place = terms.pointer as u64;
    let mut sets = Vec::with_capacity(terms.count as usize);
    for _ in 0..terms.count {
        match reads.set(&mut place) {
            Ok(set) => sets.push(set),
            Err(stop) => return (sets, Some(stop)),
        }
    }
    (sets, None)
}
