//! The wrapper's reads, on the sample boards, whose ROMs hold numbered lines of text (samples/make.py): by the set's own ROMs, and for several jobs;
//! and its strings and names, with their widths.

#[path = "../../examples/rust/onerom.rs"]
mod onerom;

use onerom::*;

const SETS: [&str; 5] = ["genoa.bin", "mainsail.bin", "spinnaker.bin", "genoa.bin", "mizzen.bin"];
const ALL_LOW: [u8; LEVELS] = [LOW; LEVELS];
/// The job that reads where only one does.
const JOB: u32 = 5;

/// Eight counts of which only that job's is not 0.
fn only(count: u32) -> [u32; JOBS] {
    let mut counts = [0; JOBS];
    counts[JOB as usize] = count;
    counts
}

fn sample(name: &str) -> Vec<u8> {
    std::fs::read(format!("samples/{name}")).expect("a sample board")
}

fn opened(image: &[u8]) -> Board<'_> {
    Board::open(image, Settings::default(), MAX_ROMS).unwrap_or_else(|refused| panic!("{refused}"))
}

fn text(name: &str) -> Vec<u8> {
    (0..4096).flat_map(|i| format!("{name} panel {i:02}\n").into_bytes()).collect()
}

fn high(lines: &[usize]) -> [u8; LEVELS] {
    let mut levels = ALL_LOW;
    for line in lines {
        levels[*line] = HIGH;
    }
    levels
}

/// The bytes of a set at the first 2,048 addresses.
fn seen(board: &mut Board, set: u32, levels: &[u8; LEVELS]) -> Vec<u8> {
    let byte =
        |address| board.read_rom_byte_own(set, address, levels, JOB).unwrap_or_else(|refused| panic!("set {set}, address {address}: {refused}"));
    (0..2048).map(byte).collect()
}

/// Four sets of a 2316; set 2 is a 2332, on which CS2 has the pin of A11.
fn one_rom_each() {
    let image = sample("rp2350.img");
    let mut board = opened(&image);
    for (set, name) in (0..).zip(SETS) {
        assert!(seen(&mut board, set, &ALL_LOW) == text(name)[..2048], "set {set}");
    }
    assert!(seen(&mut board, 2, &high(&[LEVEL_CS2])) == text(SETS[2])[2048..4096], "set 2, CS2 high");
    assert_eq!(board.counts, only(6 * 2048));

    // each set by its own type, and a refusal counts nothing
    assert_eq!(board.read_rom_byte_own(0, 2048, &ALL_LOW, JOB), Err(Refused(REFUSED_ADDRESS)));
    assert_eq!(board.read_rom_byte_own(2, 4096, &ALL_LOW, JOB), Err(Refused(REFUSED_ADDRESS)));
    assert_eq!(board.read_rom_byte_own(0, 0, &high(&[LEVEL_CS2]), JOB), Err(Refused(REFUSED_PAST_SET)));
    assert_eq!(board.read_rom_byte_own(5, 0, &ALL_LOW, JOB), Err(Refused(REFUSED_NO_SUCH_SET)));
    assert_eq!(board.counts, only(6 * 2048));
    assert_eq!(board.read_rom_byte_own(2, 2048, &ALL_LOW, JOB), Ok(b's'));
    board.counts = only(u32::MAX);
    assert_eq!(board.read_rom_byte_own(2, 2048, &ALL_LOW, JOB), Err(Refused(REFUSED_COUNT)));
    assert_eq!(board.counts, only(u32::MAX));
    board.report.pins.number = 50;
    assert_eq!(board.read_rom_byte_own(2, 0, &ALL_LOW, JOB), Err(Refused(REFUSED_NO_PINS)));
    assert_eq!(board.read_rom_byte_own(5, 0, &ALL_LOW, JOB), Err(Refused(REFUSED_NO_SUCH_SET)));
}

/// Each job has its own count, by either read; no other job's stands in its way.
fn jobs() {
    let image = sample("rp2350.img");
    let mut board = opened(&image);
    let mut buffer = [0; 10];
    assert_eq!(board.counts, [0; JOBS]);
    assert_eq!(board.read(1, 0, &mut buffer, 0), Ok(()));
    for address in 0..5 {
        assert_eq!(board.read_rom_byte_own(1, address, &ALL_LOW, 1), Ok(text(SETS[1])[address as usize]));
    }
    assert_eq!(board.read(1, 2048 - 9, &mut buffer, 0), Err(Refused(REFUSED_PAST_SET)));
    let counts = [10, 5, 0, 0, 0, 0, 0, 0];
    assert_eq!(board.counts, counts);

    // no such job
    buffer = [0xA5; 10];
    for job in [8, 9, 256, 257, u32::MAX] {
        assert_eq!(board.read(9, 0, &mut buffer, job), Err(Refused(REFUSED_JOB)));
        assert_eq!(board.read_rom_byte_own(9, 0, &ALL_LOW, job), Err(Refused(REFUSED_JOB)));
    }
    assert_eq!((board.counts, buffer), (counts, [0xA5; 10]));
    assert_eq!(Refused(REFUSED_JOB).to_string(), "refused 83: there is no such job");

    // job 3's count is full
    board.counts[3] = u32::MAX;
    assert_eq!(board.read(0, 0, &mut buffer, 3), Err(Refused(REFUSED_COUNT)));
    assert_eq!(board.read_rom_byte_own(0, 0, &ALL_LOW, 3), Err(Refused(REFUSED_COUNT)));
    assert_eq!(board.read(9, 0, &mut buffer, 3), Err(Refused(REFUSED_NO_SUCH_SET)));
    assert_eq!(board.read(0, 0, &mut [], 3), Ok(()));
    assert_eq!(board.read(0, 0, &mut buffer, 4), Ok(()));
    assert_eq!(board.counts, [10, 5, 0, u32::MAX, 10, 0, 0, 0]);

    // the last job, while all others are full
    board.counts = [u32::MAX; JOBS];
    board.counts[7] = 0;
    assert_eq!(board.read(0, 0, &mut buffer, 7), Ok(()));
    assert_eq!(board.counts[7], 10);
}

/// Set 0 has three ROMs, chosen by CS1, X1 and X2; set 1 has one, to which X1 and X2 are nothing.
fn several_roms() {
    let image = sample("multi.img");
    let mut board = opened(&image);
    let chosen = [("foresail.bin", high(&[])), ("topsail.bin", high(&[LEVEL_CS1])), ("staysail.bin", high(&[LEVEL_CS1, LEVEL_X1]))];
    for (name, levels) in chosen {
        assert!(seen(&mut board, 0, &levels) == text(name)[..2048], "{name}");
    }
    assert!(seen(&mut board, 1, &high(&[LEVEL_X1, LEVEL_X2])) == text("jib.bin")[..2048], "jib.bin");
}

/// A string that is accepted, and one that isn't; Rust counts its characters too.
fn strings() {
    for text in ["", "A", "\u{e9}", "\u{20ac}", "\u{1f600}", "e\u{301}", "grand-voile d'\u{e9}tai"] {
        let image = [b"xyz", text.as_bytes(), &[0; 64]].concat();
        assert_eq!(string(&image, FLASH_BASE, FLASH_BASE + 3), Ok((text, text.chars().count() as u32)));
        assert_eq!(string(&image[..66], FLASH_BASE, FLASH_BASE + 3), Err(Refused(REFUSED_ENDED)));
    }
    let longest = "\u{e9}".repeat(511) + "a";
    assert_eq!(string((longest.clone() + "\0").as_bytes(), 0, 0), Ok((longest.as_str(), 512)));
    assert_eq!(string(&[0xc3; 1024], 0, 0), Err(Refused(REFUSED_NO_NUL)));
    assert_eq!(string(&[], FLASH_BASE, FLASH_BASE - 1), Err(Refused(REFUSED_BELOW_BASE)));
}

/// The names and texts of the sample boards are as wide as they have characters.
fn widths() {
    for name in ["rp2350.img", "multi.img", "mixed.img", "stm32.img", "damaged.img"] {
        let image = sample(name);
        let board = opened(&image);
        let sets: Vec<_> = (0..board.report.rom_sets.served).filter_map(|i| board.set(i)).collect();
        let rows = sets.iter().flat_map(|set| set[SET_FIRST_ROM]..set[SET_FIRST_ROM] + set[SET_ROM_COUNT]);
        let texts = [board.report.build_date, board.report.hw_rev].map(|text| board.text(text));
        let named: Vec<_> = rows.map(|row| board.name(row)).chain(texts).flatten().collect();
        for (text, width) in &named {
            assert_eq!(text.chars().count() as u32, *width, "{name}: {text}");
        }
        assert!(named.len() >= 3, "{name} has names");
    }
    let image = sample("mixed.img");
    let named = opened(&image);
    assert_eq!(named.name(1), Some(("g\u{e9}nois.bin", 10)));
    let image = sample("rp2350.img");
    let board = opened(&image);
    assert_eq!(board.name(0), Some(("genoa.bin", 9)));
    assert_eq!(board.text(board.report.build_date), Some(("2025-09-12 10:41", 16)));
}

fn main() {
    one_rom_each();
    jobs();
    several_roms();
    strings();
    widths();
    println!("ok");
}
