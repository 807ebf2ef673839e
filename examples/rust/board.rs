//! Opens a dump of a board's flash, lists its sets, says which are the same, and reads the first bytes of each: as they are stored, and as its socket
//! sees them with every line low. Each of the two is a job, with a count of its own.
//!
//!     (cd crates/onerom_c && rt lib && cp out/libonerom_c.a out/libonerom.a)
//!     rustc --edition 2024 examples/rust/board.rs -L crates/onerom_c/out -l static=onerom -o board && ./board DUMP

mod onerom;

use onerom::{Board, LEVELS, LOW, MAX_ROMS, Refused, SET_FIRST_ROM, SET_ROM_COUNT, SET_SIZE, Settings};
use std::process::ExitCode;

/// The jobs of this program.
const STORED: u32 = 0;
const SEEN: u32 = 1;

/// Characters that a reader does not see, and that can change how the rest of a line looks.
fn is_hidden(c: char) -> bool {
    matches!(c as u32, 0x061c | 0x200b..=0x200f | 0x2028..=0x202e | 0x2060..=0x2064 | 0x2066..=0x2069 | 0xfeff)
}

fn escaped(bytes: &[u8]) -> String {
    bytes.iter().map(|b| format!("\\x{b:02x}")).collect()
}

/// Text of the dump or the command line, as the bench shows it: a backslash, a control character and what is no UTF-8 are \x and two digits for each
/// byte, hidden characters \u and four.
fn shown(text: &[u8]) -> String {
    let mut line = String::new();
    for chunk in text.utf8_chunks() {
        for c in chunk.valid().chars() {
            if is_hidden(c) {
                line += &format!("\\u{:04x}", c as u32);
            } else if c == '\\' || c.is_control() {
                line += &escaped(c.encode_utf8(&mut [0; 4]).as_bytes());
            } else {
                line.push(c);
            }
        }
        line += &escaped(chunk.invalid());
    }
    line
}

/// The first bytes of a set as its socket sees them, by its own ROMs; the first refusal, if there is one.
fn at_socket(board: &mut Board, set: u32) -> Result<[u8; 4], Refused> {
    let mut front = [0; 4];
    for (address, byte) in (0..).zip(&mut front) {
        *byte = board.read_rom_byte_own(set, address, &[LOW; LEVELS], SEEN)?;
    }
    Ok(front)
}

/// A name's width, in words.
fn characters(width: u32) -> String {
    format!("{width} character{}", if width == 1 { "" } else { "s" })
}

fn hex(bytes: &[u8; 4]) -> String {
    format!("{:02x} {:02x} {:02x} {:02x}", bytes[0], bytes[1], bytes[2], bytes[3])
}

fn list(image: &[u8]) -> Result<(), Refused> {
    let mut board = Board::open(image, Settings::default(), MAX_ROMS)?;
    let h = board.report.header;
    println!("firmware {}.{}.{}", h.major, h.minor, h.patch);
    let served = board.report.rom_sets.served;
    for i in 0..served {
        let row = board.set(i).expect("a served set has a row").to_vec();
        let mut front = [0; 4];
        let read = board.read(i, 0, &mut front, STORED);
        let seen = at_socket(&mut board, i);
        let name = if row[SET_ROM_COUNT] == 0 { None } else { board.name(row[SET_FIRST_ROM]) };
        let name = name.map_or("(no name)".to_string(), |(name, width)| format!("{} ({})", shown(name.as_bytes()), characters(width)));
        let plural = if row[SET_ROM_COUNT] == 1 { "" } else { "s" };
        print!("set {i}: {} bytes, {} ROM{plural}, {name}", row[SET_SIZE], row[SET_ROM_COUNT]);
        match read {
            Ok(()) => print!(", starts {}", hex(&front)),
            Err(refused) => print!(", {refused}"),
        }
        match seen {
            Ok(front) => println!(", at its socket {}", hex(&front)),
            Err(refused) => println!(", at its socket {refused}"),
        }
    }
    for a in 0..served {
        for b in a + 1..served {
            if board.same_set(a, b) == Ok(true) {
                println!("sets {a} and {b} are the same");
            }
        }
    }
    let [stored, seen] = [STORED, SEEN].map(|job| board.counts[job as usize]);
    println!("{stored} bytes read as stored, {seen} at the sockets");
    Ok(())
}

fn main() -> ExitCode {
    let words: Vec<_> = std::env::args_os().collect();
    let [_, path] = &words[..] else {
        eprintln!("usage: board DUMP");
        return ExitCode::from(2);
    };
    let answer = match std::fs::read(path) {
        Ok(image) => list(&image).map_err(|refused| refused.to_string()),
        Err(error) => Err(error.to_string()),
    };
    if let Err(why) = answer {
        eprintln!("{}: {why}", shown(path.as_encoded_bytes()));
        return ExitCode::FAILURE;
    }
    ExitCode::SUCCESS
}
