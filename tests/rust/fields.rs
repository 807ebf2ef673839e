//! The structs of examples/rust/onerom.rs, field by field, on the board that tests/c/fields.c writes: each field holds the bytes that document 01 has at
//! its place in the record, and no two fields hold the same.

#[path = "../../examples/rust/onerom.rs"]
mod onerom;

use onerom::*;

const HEADER: usize = 512;
const EXTRA: usize = 768;
const PINS: usize = 1408;

fn check(name: &str, held: &[u8], expected: &[u8]) {
    if held != expected {
        println!("failed: {name}: {held:?}, not {expected:?}");
        std::process::exit(1);
    }
}

fn header(image: &[u8], h: &Header) {
    let at = |i: usize, n: usize| &image[HEADER + i..][..n];
    check("major", &h.major.to_le_bytes(), at(4, 2));
    check("minor", &h.minor.to_le_bytes(), at(6, 2));
    check("patch", &h.patch.to_le_bytes(), at(8, 2));
    check("build", &h.build.to_le_bytes(), at(10, 2));
    check("freq", &h.freq.to_le_bytes(), at(32, 2));
    check("commit", &h.commit, at(16, 8));
    check("line", &[h.line], &[LINE_F401BC]);
    check("storage", &[h.storage], &[STORAGE_2MB]);
    check("boot_config", &h.boot_config, at(52, 4));
}

/// One flag at a time, at its place.
fn flags(image: &[u8]) {
    for (i, at) in [34, 35, 36, 37, 38, 39, 40, 42].into_iter().enumerate() {
        let mut image = image.to_vec();
        image[HEADER + at] = 1;
        let h = opened(&image).report.header;
        let held = [
            h.overclock,
            h.swd_enabled,
            h.preload_image_to_ram,
            h.bootloader_capable,
            h.status_led_enabled,
            h.boot_logging_enabled,
            h.mco_enabled,
            h.count_rom_access,
        ];
        let mut expected = [0; 8];
        expected[i] = 1;
        check("flags", &held, &expected);
    }
    for (at, expected) in [(4, [1, PIO_OFF]), (7, [0, PIO_ON])] {
        let mut image = image.to_vec();
        image[EXTRA + at] = 1;
        let e = opened(&image).report.extra_info;
        check("usb_dfu, fire_pio_default", &[e.usb_dfu, e.fire_pio_default], &expected);
    }
}

fn items(image: &[u8], r: &Report) {
    let e = &r.extra_info;
    let at = |i: usize, n: usize| &image[EXTRA + i..][..n];
    check("rtt_ptr", &e.rtt_ptr.to_le_bytes(), at(0, 4));
    check("usb_port", &[e.usb_port], &[PORT_C]);
    check("vbus_pin", &[e.vbus_pin], at(6, 1));
    check("runtime_info_ptr", &e.runtime_info_ptr.to_le_bytes(), at(8, 4));
    let part = |t: Text| format!("{} {} {}", t.offset, t.length, t.width);
    check("build_date", part(r.build_date).as_bytes(), b"640 12 11");
    check("hw_rev", part(r.hw_rev).as_bytes(), b"704 6 5");
    check("metadata", &[r.metadata.looked_for], &[1]);
    check("rom_sets", &[r.rom_sets.rom_set_count, r.rom_sets.served as u8], &[2, 2]);
    check("no item is refused", &r.items(), &[0; 6]);
}

fn pins(image: &[u8], p: &Pins) {
    let at = |i: usize, n: usize| &image[PINS + i..][..n];
    check("ports", &p.ports, at(0, 5));
    check("rom_pins", &[p.rom_pins], at(5, 1));
    check("data", &p.data, at(8, 8));
    check("addr", &p.addr, at(16, 16));
    check("cs", &p.cs, at(36, 3));
    check("reserved", &p.reserved, at(39, 3));
    check("x1", &[p.x1], at(42, 1));
    check("x2", &[p.x2], at(43, 1));
    check("ce", &[p.ce], at(44, 1));
    check("oe", &[p.oe], at(45, 1));
    check("x_jumper_pull", &[p.x_jumper_pull], at(46, 1));
    check("swclk_sel", &[p.swclk_sel], at(50, 1));
    check("swdio_sel", &[p.swdio_sel], at(51, 1));
    check("sel", &p.sel, at(52, 7));
    check("sel_jumper_pull", &[p.sel_jumper_pull], at(59, 1));
    check("status", &[p.status], at(60, 1));
    check("extended", &[p.extended], at(63, 1));
    check("data2", &p.data2, at(64, 8));
    check("addr2", &p.addr2, at(72, 16));
}

/// Every item refused, each with a number of its own.
fn refused(image: &[u8]) {
    let mut image = image.to_vec();
    image[640] = 0xFF;
    image[HEADER + 24..][..4].copy_from_slice(&(FLASH_BASE - 1).to_le_bytes());
    image[HEADER + 56..][..4].copy_from_slice(&u32::MAX.to_le_bytes());
    image[1024 + 16] = 2;
    image[PINS] = 6;
    check("refused items", &opened(&image).report.items(), &[21, 3, 2, 31, 0, 50]);
    image[1024 + 16] = 1;
    image[1600] = 34;
    let r = opened(&image).report;
    check("refused items, with sets", &r.items(), &[21, 3, 2, 0, 42, 50]);
    check("refused sets", &[r.rom_sets.number, r.rom_sets.rom_set_count, r.rom_sets.served as u8], &[42, 2, 0]);
    check("refused metadata", &[r.metadata.looked_for, r.metadata.number], &[1, 0]);
    check("refused extra info", &[r.extra_info.fire_pio_default], &[PIO_NOT_GIVEN]);
    assert_eq!([r.build_date, r.hw_rev].map(|t| [t.offset, t.length, t.width]), [[0; 3]; 2]);
}

fn rows(board: &Board) {
    let set = board.set(1).expect("set 1 has a row");
    let held = [SET_FIRST_ROM, SET_ROM_COUNT, SET_SERVE, SET_STATE].map(|word| set[word] as u8);
    check("set row", &held, &[2, 3, SERVE_ADDR_ON_CS as u8, STATE_ACTIVE_HIGH as u8]);
    let addresses = [SET_DATA_POINTER, SET_SIZE, SET_CONFIG, SET_OVERRIDES].map(|word| set[word]);
    assert_eq!(addresses, [FLASH_BASE + 0x10204, 0x40507, FLASH_BASE + 1792, FLASH_BASE + 1856]);
    let rom = board.rom(4).expect("ROM 4 has a row");
    assert_eq!([ROM_TYPE, ROM_CS1, ROM_CS2, ROM_CS3].map(|word| rom[word]), [TYPE_ROM27C200, 0, 1, 2]);
    assert_eq!([ROM_NAME_OFFSET, ROM_NAME_LENGTH, ROM_NAME_REASON, ROM_NAME_WIDTH].map(|word| rom[word]), [1732, 4, 0, 3]);
    assert_eq!(board.name(4), Some(("s\u{e9}l", 3)));
    assert_eq!(board.rom(3).map(|rom| (rom[ROM_NAME_REASON], rom[ROM_NAME_WIDTH])), Some((NO_NAME, 0)));
    assert_eq!(board.name(3), None);
    assert_eq!(board.text(board.report.build_date), Some(("5 ao\u{fb}t 2026", 11)));
    assert_eq!(board.text(board.report.hw_rev), Some(("pi\u{e8}ce", 5)));
}

fn opened(image: &[u8]) -> Board<'_> {
    Board::open(image, Settings::default(), MAX_ROMS).unwrap_or_else(|refused| panic!("{refused}"))
}

fn main() {
    let image = std::fs::read(std::env::args().nth(1).expect("the board's path")).expect("the board");
    let board = opened(&image);
    let r = board.report;
    header(&image, &r.header);
    flags(&image);
    items(&image, &r);
    pins(&image, &r.pins);
    refused(&image);
    rows(&board);
    check("a refusal", &[Board::open(&image[..575], Settings::default(), 1).err() == Some(Refused(REFUSED_ENDED))].map(u8::from), &[1]);
    println!("ok");
}
