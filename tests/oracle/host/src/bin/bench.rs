//! The benchmark: the library's C entry points and the Rust on the same images, both plain release builds, taken in turns; the least of many
//! rounds counts. Every measured answer is compared first.

use std::hint::black_box;
use std::time::Instant;

use host::ffi::{self, COpening, JOBS, Lent, ROM_NAME, ROM_WORDS, Rows, SET_WORDS};
use host::fixed::{measured, without_names};
use host::image::{Board, CS0_BASE, PINS_PTR};
use host::rng::Rng;
use onerom_fw_parser::readers::{Window, block_on};
use onerom_fw_parser::{Parser, SdrrAddress, SdrrCsSet, SdrrInfo, SdrrLogicalAddress};

/// 23512: sixteen address bits, so that a logical read can reach all of a 64 KiB set. 2364 and 2316 for the mangles.
const ROM_23512: u8 = 5;
const ROM_2364: u8 = 2;
const ROM_2316: u8 = 0;
const SET: usize = 65536;

type RustParser<'a, 'b> = Parser<'a, Window<'b>>;

/// The least nanoseconds of one operation on each side.
struct Least {
    here: f64,
    rust: f64,
}

impl Least {
    fn new() -> Least {
        Least { here: f64::MAX, rust: f64::MAX }
    }

    /// Times both sides once, in another order in every second round; each call does `n` operations.
    fn round(&mut self, round: usize, n: usize, here: &mut dyn FnMut(), rust: &mut dyn FnMut()) {
        let time = |side: &mut dyn FnMut()| {
            let from = Instant::now();
            side();
            from.elapsed().as_nanos() as f64 / n as f64
        };
        if round % 2 == 0 {
            self.here = self.here.min(time(here));
            self.rust = self.rust.min(time(rust));
        } else {
            self.rust = self.rust.min(time(rust));
            self.here = self.here.min(time(here));
        }
    }
}

struct Bench {
    rounds: usize,
}

impl Bench {
    /// Times both sides in turns; each call does `n` operations.
    fn turns(&self, n: usize, mut here: impl FnMut(), mut rust: impl FnMut()) -> Least {
        let mut least = Least::new();
        for round in 0..self.rounds {
            least.round(round, n, &mut here, &mut rust);
        }
        least
    }
}

fn show(what: &str, least: &Least) {
    println!("{what:<44} {:>12.1} {:>12.1} {:>8.2}", least.here, least.rust, least.here / least.rust);
}

// The Rust's calls stand behind functions of their own that are never inlined, as ours stand behind C's: otherwise its figures move by a half with
// what the compiler makes of the loop around them.

#[inline(never)]
fn rust_opens(board: &Board) -> SdrrInfo {
    let mut window = Window { image: &board.image, base: board.flash_base };
    block_on(Parser::with_base_flash_address(&mut window, board.flash_base, 0).parse_flash()).expect("it opens")
}

#[inline(never)]
fn rust_mangles(info: &SdrrInfo, address: u32, lines: SdrrCsSet) -> u32 {
    info.mangle_address(&SdrrLogicalAddress::new(address, lines)).expect("it has an offset")
}

#[inline(never)]
fn rust_demangles(info: &SdrrInfo, byte: u8) -> u8 {
    info.demangle_byte(byte).expect("it has a value")
}

#[inline(never)]
fn rust_reads_raw(info: &mut SdrrInfo, parser: &mut RustParser<'_, '_>, at: SdrrAddress) -> u8 {
    block_on(info.read_rom_byte_raw(parser, 0, at)).expect("it is there")
}

#[inline(never)]
fn rust_reads_demangled(info: &mut SdrrInfo, parser: &mut RustParser<'_, '_>, at: SdrrAddress) -> u8 {
    block_on(info.read_rom_byte_demangled(parser, 0, at)).expect("it is there")
}

#[inline(never)]
fn rust_reads_data(info: &mut SdrrInfo, parser: &mut RustParser<'_, '_>, buffer: &mut [u8]) {
    block_on(info.read_rom_set_data(parser, 0, 0, buffer)).expect("it is there");
}

struct Opened {
    board: Board,
    ours: COpening,
    sets: Vec<u32>,
    roms: Vec<u32>,
    info: SdrrInfo,
}

fn open(board: Board) -> Opened {
    let info = rust_opens(&board);
    let all: Vec<_> = info.rom_sets.iter().flat_map(|s| &s.roms).collect();
    let (mut sets, mut roms) = (vec![0; SET_WORDS * info.rom_sets.len()], vec![0; ROM_WORDS * all.len()]);
    let ours = ffi::open(&board.image, board.flash_base, &mut sets, &mut roms);
    assert!(ours.number == 0 && ours.report.served() as usize == info.rom_sets.len(), "both open it");
    let mut first = 0;
    for (row, set) in sets.chunks(SET_WORDS).zip(&info.rom_sets) {
        assert!(row[2] as usize == first && row[3] as usize == set.roms.len(), "both find its ROMs");
        first += set.roms.len();
    }
    for (row, rom) in roms.chunks(ROM_WORDS).zip(all) {
        let [offset, length, reason, width] = row[ROM_NAME..] else { unreachable!("four words") };
        let name = (reason == 0).then(|| &board.image[offset as usize..(offset + length) as usize]);
        assert!(rom.filename.as_deref().map(str::as_bytes) == name, "both find its name");
        assert!(rom.filename.as_deref().map_or(0, |s| s.chars().count()) == width as usize, "both find its width");
    }
    Opened { board, ours, sets, roms, info }
}

/// Copies of a board, each opened so many times in a round.
struct Openings {
    boards: Vec<Board>,
    rows: Vec<(Vec<u32>, Vec<u32>)>,
    times: usize,
    least: Least,
}

impl Openings {
    fn new(board: Board, copies: usize, times: usize) -> Openings {
        let o = open(board);
        Openings { boards: vec![o.board; copies], rows: vec![(o.sets, o.roms); copies], times, least: Least::new() }
    }

    fn round(&mut self, round: usize) {
        let Openings { boards, rows, times, least } = self;
        least.round(
            round,
            *times * boards.len(),
            &mut || {
                for _ in 0..*times {
                    for (board, (sets, roms)) in boards.iter().zip(rows.iter_mut()) {
                        black_box(ffi::open(black_box(&board.image), board.flash_base, sets, roms));
                    }
                }
            },
            &mut || {
                for _ in 0..*times {
                    for board in boards.iter() {
                        black_box(rust_opens(black_box(board)));
                    }
                }
            },
        );
    }
}

fn openings(bench: &Bench) {
    for sets in [1, 8, 64, 255] {
        for roms in [1, 4] {
            let mut one = Openings::new(measured(sets, roms, ROM_2364, 64), 1, (2000 / (sets * roms)).max(4));
            for round in 0..bench.rounds {
                one.round(round);
            }
            show(&format!("open, sets: {sets}, ROMs in each: {roms}"), &one.least);
        }
    }
}

/// Sets, and the copies that make some 255 of them: so each board goes over equally much memory.
const GROWTH: [(usize, usize); 3] = [(64, 4), (127, 2), (255, 1)];

/// How the opening grows with sets. Every board has its turn in each round, so that what slows the machine for a while slows them all.
fn growth(bench: &Bench) {
    let kinds = [(1, false), (1, true), (255, false), (255, true)];
    let mut boards = kinds.map(|(roms, named)| {
        GROWTH.map(|(sets, copies)| {
            let board = measured(sets, roms, ROM_2364, 64);
            Openings::new(if named { board } else { without_names(board) }, copies, if roms == 1 { 16 } else { 1 })
        })
    });
    let small = measured(64, 1, ROM_2364, 64);
    for round in 0..bench.rounds {
        for one in boards.iter_mut().flatten() {
            // Not timed: what the allocator has left to do for the board before would fall to this one's Rust.
            black_box(rust_opens(&small));
            one.round(round);
        }
    }
    println!("\nopening: microseconds, nanoseconds a set, and the ratio of these to 64's and to 127's");
    println!("sets  ROMs in each  names        here     a set  to 64 to 127        Rust     a set  to 64 to 127");
    for ((roms, named), three) in kinds.iter().zip(&boards) {
        let names = if *named { "yes" } else { "no" };
        let here = grown(three.each_ref().map(|one| one.least.here));
        let rust = grown(three.each_ref().map(|one| one.least.rust));
        for (((sets, _), here), rust) in GROWTH.iter().zip(here).zip(rust) {
            println!("{sets:>4}  {roms:>12}  {names:<5} {here} {rust}");
        }
    }
}

/// One side's columns, of the three boards that differ in their sets alone.
fn grown(all: [f64; 3]) -> [String; 3] {
    let a_set: [f64; 3] = std::array::from_fn(|i| all[i] / GROWTH[i].0 as f64);
    std::array::from_fn(|i| format!("{:>11.1} {:>9.1} {:>6.2} {:>6.2}", all[i] / 1000.0, a_set[i], a_set[i] / a_set[0], a_set[i] / a_set[1]))
}

fn pins_of(info: &SdrrInfo) -> ffi::Pins {
    let p = info.pins.as_ref().expect("there");
    ffi::Pins {
        number: 0,
        rom_pins: p.rom_pins,
        data: p.data.clone().try_into().expect("eight"),
        addr: p.addr.clone().try_into().expect("sixteen"),
        control: [p.cs1, p.cs2, p.cs3, p.x1, p.x2, p.ce, p.oe],
    }
}

/// The board with 24 pins, counted from pin 8, X1 and X2 among them.
fn with_24_pins(mut board: Board) -> Board {
    let pointer: [u8; 4] = board.image[PINS_PTR..PINS_PTR + 4].try_into().expect("four");
    let pins = (u32::from_le_bytes(pointer) - board.flash_base) as usize;
    board.put(pins + 5, &[24]);
    board.put(pins + 16, &[18, 17, 16, 15, 14, 13, 12, 11, 10, 9, 8, 255, 255, 255, 255, 255]);
    board.put(pins + 36, &[21, 22, 23, 0, 0, 0, 19, 20, 255, 255]);
    board
}

fn mangles(bench: &Bench) {
    mangles_on(bench, "mangle", measured(1, 1, ROM_2364, 64), 8192);
    mangles_on(bench, "mangle, 24 pins, three ROMs", with_24_pins(measured(1, 3, ROM_2316, 64)), 2048);
}

fn mangles_on(bench: &Bench, what: &str, board: Board, addresses: u32) {
    let o = open(board);
    let pins = pins_of(&o.info);
    let rows = Rows { served: 1, sets: &o.sets, roms: &o.roms };
    let levels = [1, 0, 0, 0, 1];
    let lines = SdrrCsSet::new(true, Some(false), Some(false), Some(false), Some(true));
    let here = |address: u32| {
        let mut value = 0;
        assert!(ffi::mangle(&pins, rows, address, &levels, &mut value) == 0);
        value
    };
    let rust = |address: u32| rust_mangles(&o.info, address, lines);
    assert!((0..addresses).all(|a| here(a) == rust(a)), "both mangle alike");
    let least = bench.turns(
        addresses as usize,
        || {
            for a in 0..addresses {
                black_box(here(black_box(a)));
            }
        },
        || {
            for a in 0..addresses {
                black_box(rust(black_box(a)));
            }
        },
    );
    show(what, &least);
}

fn demangles(bench: &Bench) {
    const TIMES: usize = 64;
    let o = open(measured(1, 1, ROM_2364, 64));
    let pins = pins_of(&o.info);
    let here = |byte: u8| {
        let mut value = 0;
        assert!(ffi::demangle(&pins, byte, &mut value) == 0);
        value
    };
    let rust = |byte: u8| rust_demangles(&o.info, byte);
    assert!((0..=255).all(|b| here(b) == rust(b)), "both demangle alike");
    let least = bench.turns(
        256 * TIMES,
        || {
            for b in (0..TIMES).flat_map(|_| 0..=255) {
                black_box(here(black_box(b)));
            }
        },
        || {
            for b in (0..TIMES).flat_map(|_| 0..=255) {
                black_box(rust(black_box(b)));
            }
        },
    );
    show("demangle", &least);
}

unsafe extern "C" {
    fn bytes_read(
        image: *const u8,
        image_len: usize,
        flash_base: u32,
        cs0_base: u32,
        report: *const ffi::CReport,
        set_rows: *const u32,
        set_words: usize,
        rom_rows: *const u32,
        rom_words: usize,
        logical: u8,
        read: u8,
        to: *mut u8,
        n: u32,
    ) -> u32;
}

/// Which byte read, as bytes.c has them; the Rust has no read by the set's own ROMs.
#[derive(Clone, Copy, PartialEq, Eq)]
enum Read {
    Raw = 0,
    Demangled = 1,
    Own = 2,
}

/// The bytes of set 0 one by one, each address once, by the loop in C.
fn here_reads(board: &Board, report: &ffi::CReport, sets: &[u32], roms: &[u32], logical: bool, read: Read, to: &mut [u8]) {
    let n = to.len() as u32;
    let count = unsafe {
        bytes_read(
            board.image.as_ptr(),
            board.image.len(),
            board.flash_base,
            CS0_BASE,
            report,
            sets.as_ptr(),
            sets.len(),
            roms.as_ptr(),
            roms.len(),
            logical as u8,
            read as u8,
            to.as_mut_ptr(),
            n,
        )
    };
    assert!(count == n, "each read counts");
}

/// A 64 KiB set. On its set 0 the read by the set's own ROMs gives what the old logical read gives, so the Rust's is timed beside it.
fn byte_reads(bench: &Bench, what: &str, logical: bool, read: Read) {
    let mut o = open(measured(1, 1, ROM_23512, SET));
    let lines = SdrrCsSet::new(false, None, None, None, None);
    let here = |to: &mut [u8]| here_reads(&o.board, &o.ours.report, &o.sets, &o.roms, logical, read, to);
    let mut window = Window { image: &o.board.image, base: o.board.flash_base };
    let mut parser = Parser::with_base_flash_address(&mut window, o.board.flash_base, 0);
    let info = &mut o.info;
    let mut rust = |to: &mut [u8]| {
        for (address, byte) in to.iter_mut().enumerate() {
            let address = address as u32;
            let at = if logical { SdrrAddress::from_logical(address, &lines) } else { SdrrAddress::Raw(address) };
            *byte = if read == Read::Raw { rust_reads_raw(info, &mut parser, at) } else { rust_reads_demangled(info, &mut parser, at) };
        }
    };
    let (mut ours, mut theirs) = (vec![0; SET], vec![1; SET]);
    here(&mut ours);
    rust(&mut theirs);
    assert!(ours == theirs, "both read alike");
    let least = bench.turns(SET, || here(black_box(&mut ours)), || rust(black_box(&mut theirs)));
    show(what, &least);
}

/// The read by the set's own ROMs in turns with the old one, both here: the third column is the old one's, not the Rust's.
fn own_beside_old(bench: &Bench) {
    let o = open(measured(1, 1, ROM_23512, SET));
    let here = |read: Read, to: &mut [u8]| here_reads(&o.board, &o.ours.report, &o.sets, &o.roms, true, read, to);
    let (mut own, mut old) = (vec![0; SET], vec![1; SET]);
    here(Read::Own, &mut own);
    here(Read::Demangled, &mut old);
    assert!(own == old, "both read alike");
    let least = bench.turns(SET, || here(Read::Own, black_box(&mut own)), || here(Read::Demangled, black_box(&mut old)));
    show("by the set's own ROMs, and by set 0's (here)", &least);
}

fn data(bench: &Bench) {
    let mut o = open(measured(1, 1, ROM_23512, SET));
    let lent = Lent { image: &o.board.image, flash_base: o.board.flash_base, report: &o.ours.report, sets: &o.sets, roms: &o.roms };
    let (mut ours, mut theirs) = (vec![0; SET], vec![0; SET]);
    let mut window = Window { image: &o.board.image, base: o.board.flash_base };
    let mut parser = Parser::with_base_flash_address(&mut window, o.board.flash_base, 0);
    let info = &mut o.info;
    let here = |buffer: &mut [u8]| assert!(ffi::data(lent, 0, 0, buffer, 0, &mut [0; JOBS]) == 0);
    let mut rust = |buffer: &mut [u8]| rust_reads_data(info, &mut parser, buffer);
    here(&mut ours);
    rust(&mut theirs);
    assert!(ours == theirs, "both read alike");
    const TIMES: usize = 16;
    // One buffer for both: how fast it is filled depends on where it lies.
    let to = std::cell::RefCell::new(ours);
    let least = bench.turns(
        TIMES,
        || {
            for _ in 0..TIMES {
                here(black_box(&mut to.borrow_mut()));
            }
        },
        || {
            for _ in 0..TIMES {
                rust(black_box(&mut to.borrow_mut()));
            }
        },
    );
    show("ROM data, 64 KiB", &least);
    let mut source = vec![0; SET];
    Rng::new(9).fill(&mut source);
    let mut to = vec![0; SET];
    let copy = |to: &mut [u8]| black_box(to).copy_from_slice(black_box(&source));
    let plain = bench.turns(TIMES, || (0..TIMES).for_each(|_| copy(&mut to)), || ());
    println!("{:<44} {:>12.1}", "memcpy, 64 KiB", plain.here);
}

fn main() {
    let rounds = match std::env::args().nth(1).map(|n| n.parse()) {
        None => 60,
        Some(Ok(rounds)) => rounds,
        Some(Err(_)) => {
            eprintln!("usage: bench [ROUNDS]");
            std::process::exit(2);
        }
    };
    let bench = Bench { rounds };
    println!("nanoseconds for one, the least of {rounds} rounds        here         Rust    ratio");
    openings(&bench);
    mangles(&bench);
    demangles(&bench);
    byte_reads(&bench, "raw address, raw byte", false, Read::Raw);
    byte_reads(&bench, "raw address, demangled byte", false, Read::Demangled);
    byte_reads(&bench, "logical address, raw byte", true, Read::Raw);
    byte_reads(&bench, "logical address, demangled byte", true, Read::Demangled);
    byte_reads(&bench, "logical address, by the set's own ROMs", true, Read::Own);
    own_beside_old(&bench);
    data(&bench);
    growth(&bench);
}
