//! Boards that are always the same: small ones of each version band, and those that are measured.

use crate::image::{
    Board, DATE_PTR, EXTRA_PTR, FLASH_BASE, HEADER_END, Header, PINS_PTR, REV_PTR, RP2350, SETS_PTR, has_long_sets, has_metadata, has_names,
};
use crate::rng::Rng;

const VERSIONS: &[[u16; 4]] = &[[0, 4, 2, 7], [0, 3, 0, 0], [0, 5, 0, 0], [0, 5, 1, 0], [0, 6, 0, 0], [0, 6, 3, 1]];
pub const TEMPLATES: usize = VERSIONS.len();

/// Two sets, of one and two ROMs, in about 1,000 bytes; the odd ones are Rp2350 boards.
pub fn template(which: usize) -> Board {
    let version = VERSIONS[which];
    let mut board = Board::default();
    let mut rng = Rng::new(7);
    board.room(4);
    let extra = board.room(256);
    rng.fill(&mut board.image[extra..extra + 12]);
    board.put(extra + 5, &[2]);
    let date = board.room(11);
    board.put(date, b"2025-11-02\0");
    let pins = board.room(88);
    board.put(pins, &[1, 2, 2, 3, 4, 24, 0, 0, 7, 6, 5, 4, 3, 2, 1, 0]);
    board.put(pins + 16, &[8, 9, 10, 11, 12, 13, 14, 15, 16, 17, 18, 255, 255, 255, 255, 255]);
    board.put(pins + 36, &[20, 19, 21, 0, 0, 0, 22, 23, 255, 255]);
    board.put(pins + 63, &[1]);
    let data = board.room(64);
    rng.fill(&mut board.image[data..data + 64]);
    let metadata = board.room(256);
    let sets = template_sets(&mut board, version, data);
    let rev = board.room(64);
    board.put(rev, b"fire-24-d\0");
    if has_metadata(version) {
        board.put(metadata, b"ONEROM_METADATA\0\x01\0\0\0\x02\0\0\0");
        board.point(metadata + 24, sets);
    }
    board.put_header(&Header {
        version,
        commit: *b"00abcdef",
        line: if which % 2 == 0 { 1 } else { RP2350 },
        storage: 7,
        freq: [150, 0],
        flags: [1, 0, 0, 1, 0, 0, 1, 2, 1],
        boot_config: [1, 2, 3, 4],
    });
    let sets = if has_metadata(version) { metadata } else { sets };
    for (at, to) in [(DATE_PTR, date), (REV_PTR, rev), (SETS_PTR, sets), (PINS_PTR, pins), (EXTRA_PTR, extra)] {
        board.point(at, to);
    }
    board.flash_base = FLASH_BASE;
    board.settle();
    board
}

/// The two sets, their table and three infos; the last one has no name.
fn template_sets(board: &mut Board, version: [u16; 4], data: usize) -> usize {
    // from 0.6.0 on the first set has its extra fields
    let long = has_long_sets(version);
    let first = board.room(if long { 64 } else { 16 });
    let second = board.room(16);
    let table = board.room(12);
    let name = board.room(8);
    board.put(name, b"rom.bin\0");
    for (at, size, table, rest) in [(first, 16384, table, [1, 1, 2, u8::from(long)]), (second, 65536, table + 4, [2, 2, 1, 0])] {
        board.point(at, data);
        board.put_word(at + 4, size);
        board.point(at + 8, table);
        board.put(at + 12, &rest);
    }
    if long {
        board.put_word(first + 16, u32::MAX);
        board.point(first + 20, data);
    }
    let names = has_names(version, 0);
    for (i, kind) in [2, 0, 1].into_iter().enumerate() {
        let info = board.room(if names { 8 } else { 4 });
        board.put(info, &[kind, 0, 1, 2]);
        if names {
            if i == 2 { board.put_word(info + 4, u32::MAX) } else { board.point(info + 4, name) }
        }
        board.point(table + 4 * i, info);
    }
    first
}

/// A board for measuring: 0.6.1 on an STM32, so many sets of so many ROMs each, every ROM of the same type and with a name of its own. The
/// sets share `data` bytes, which end the image.
pub fn measured(sets: usize, roms: usize, kind: u8, data: usize) -> Board {
    let mut board = Board::default();
    board.room(HEADER_END);
    let date = board.room(64);
    board.put(date, b"2025-11-02 10:15:00\0");
    let rev = board.room(64);
    board.put(rev, b"ice-24-f\0");
    let extra = board.room(256);
    let metadata = board.room(256);
    board.put(metadata, b"ONEROM_METADATA\0\x01\0\0\0");
    board.put(metadata + 20, &[sets as u8]);
    let pins = board.room(256);
    board.put(pins, &[1, 2, 2, 3, 4, 28, 0, 0, 7, 6, 5, 4, 3, 2, 1, 0]);
    board.put(pins + 16, &std::array::from_fn::<u8, 16, _>(|i| 15 - i as u8));
    board.put(pins + 36, &[13, 14, 15, 0, 0, 0, 255, 255, 14, 15]);
    let heads = board.room(16 * sets);
    board.point(metadata + 24, heads);
    let tables: Vec<usize> = (0..sets).map(|set| measured_roms(&mut board, set, roms, kind)).collect();
    board.room(64);
    let bytes = board.room(data);
    Rng::new(5).fill(&mut board.image[bytes..]);
    for (set, table) in tables.into_iter().enumerate() {
        let at = heads + 16 * set;
        board.point(at, bytes);
        board.put_word(at + 4, data as u32);
        board.point(at + 8, table);
        board.put(at + 12, &[roms as u8, 1, 2, 0]);
    }
    let (version, flags) = ([0, 6, 1, 0], [0; 9]);
    board.put_header(&Header { version, commit: *b"00abcdef", line: 1, storage: 4, freq: [84, 0], flags, boot_config: [0; 4] });
    for (at, to) in [(DATE_PTR, date), (REV_PTR, rev), (SETS_PTR, metadata), (PINS_PTR, pins), (EXTRA_PTR, extra)] {
        board.point(at, to);
    }
    board.flash_base = FLASH_BASE;
    board.settle();
    board
}

fn measured_roms(board: &mut Board, set: usize, roms: usize, kind: u8) -> usize {
    let table = board.room(4 * roms);
    for rom in 0..roms {
        let info = board.room(8);
        let name = board.room(16);
        board.put(name, format!("rom-{set:03}-{rom}.bin\0").as_bytes());
        board.put(info, &[kind, 0, 1, 2]);
        board.point(info + 4, name);
        board.names.push(info + 4);
        board.point(table + 4 * rom, info);
    }
    table
}

/// The board with no name stored for any ROM.
pub fn without_names(mut board: Board) -> Board {
    for at in std::mem::take(&mut board.names) {
        board.put_word(at, u32::MAX);
    }
    board
}
