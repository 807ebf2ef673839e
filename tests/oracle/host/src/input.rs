//! One input, to be tried again, made smaller and shown.

use std::fmt;

use crate::boards::{self, Buffers, Lending, Slack};
use crate::calls::{Call, Job};
use crate::ffi::{Address, JOBS, Pins, ROM_WORDS, SET_WORDS};
use crate::mangling::{Case, Subject};
use crate::tally::{Difference, Tally};
use crate::{runtime, shrink, strings};

#[derive(Clone)]
pub enum Input {
    Runtime { record: Vec<u8>, ram_base: u32 },
    String { image: Vec<u8>, base: u32, pointer: u32 },
    Mangle(Case),
    Demangle(Pins, u8),
    Board { image: Vec<u8>, flash_base: u32, slack: Slack },
    Call { image: Vec<u8>, flash_base: u32, lending: Lending },
}

impl Input {
    /// Compares anew; the difference, if there is one.
    pub fn difference(&self, subject: &mut Subject) -> Option<Box<Difference>> {
        let tally = &mut Tally::default();
        let buffers = &mut Buffers::default();
        match self {
            Input::Runtime { record, ram_base } => {
                runtime::compare(record, *ram_base, tally).and_then(|()| runtime::compare_parser(record, *ram_base, tally)).err()
            }
            Input::String { image, base, pointer } => strings::compare(image, *base, *pointer, tally).err(),
            Input::Mangle(case) => subject.compare_mangle(case, tally).err(),
            Input::Demangle(pins, byte) => subject.compare_demangle(pins, *byte, tally).err(),
            Input::Board { image, flash_base, slack } => boards::compare(image, *flash_base, *slack, buffers, tally).err(),
            Input::Call { image, flash_base, lending } => match boards::compare(image, *flash_base, Slack::default(), buffers, tally) {
                Ok(Some(mut both)) => boards::compare_call(image, *flash_base, &mut both, *lending, tally).err(),
                _ => None,
            },
        }
    }

    fn bytes(&mut self) -> Option<&mut Vec<u8>> {
        match self {
            Input::Runtime { record: bytes, .. } => Some(bytes),
            Input::String { image, .. } | Input::Board { image, .. } | Input::Call { image, .. } => Some(image),
            Input::Mangle(_) | Input::Demangle(..) => None,
        }
    }

    /// Inputs with one value made plainer.
    fn plainer(&self) -> Vec<Input> {
        let mut out = Vec::new();
        let mut push = |change: &dyn Fn(&mut Input)| {
            let mut other = self.clone();
            change(&mut other);
            out.push(other);
        };
        match self {
            Input::Runtime { .. } => push(&|i| {
                if let Input::Runtime { ram_base, .. } = i {
                    *ram_base = runtime::RAM_BASE
                }
            }),
            Input::String { .. } => {}
            Input::Mangle(case) => {
                for change in plainer_cases(case) {
                    out.push(Input::Mangle(change));
                }
            }
            Input::Demangle(pins, byte) => {
                for at in 0..8 {
                    let mut p = *pins;
                    p.data[at] = at as u8;
                    out.push(Input::Demangle(p, *byte));
                }
                out.push(Input::Demangle(*pins, 0));
                out.push(Input::Demangle(*pins, 1));
            }
            Input::Board { .. } => push(&|i| {
                if let Input::Board { slack, .. } = i {
                    *slack = Slack::default()
                }
            }),
            Input::Call { lending, .. } => {
                for job in [Job::default(), Job { others: [0; JOBS], ..lending.job }, Job { number: 8, ..lending.job }] {
                    push(&|i| {
                        if let Input::Call { lending, .. } = i {
                            lending.job = job
                        }
                    });
                }
                for call in plainer_calls(lending.call) {
                    push(&|i| {
                        if let Input::Call { lending, .. } = i {
                            lending.call = call
                        }
                    });
                }
            }
        }
        out
    }

    /// The smallest input found on which the two sides still differ, and how.
    pub fn smallest(mut self, subject: &mut Subject) -> (Input, Option<Box<Difference>>) {
        if self.difference(subject).is_none() {
            return (self, None);
        }
        for _ in 0..4 {
            for other in self.plainer() {
                if other.difference(subject).is_some() {
                    self = other;
                }
            }
            let mut trial = self.clone();
            if let Some(bytes) = self.bytes() {
                shrink::bytes(bytes, &mut |b| {
                    trial.bytes().expect("of the same kind").clone_from(&b.to_vec());
                    trial.difference(subject).is_some()
                });
            }
        }
        let difference = self.difference(subject);
        (self, difference)
    }
}

fn plainer_cases(case: &Case) -> Vec<Case> {
    let mut out = Vec::new();
    let mut push = |change: &dyn Fn(&mut Case)| {
        let mut other = case.clone();
        change(&mut other);
        out.push(other);
    };
    push(&|c| c.address = 0);
    push(&|c| c.levels = [0; 5]);
    push(&|c| c.served = 1);
    push(&|c| c.sets.truncate(SET_WORDS));
    push(&|c| c.roms.truncate(ROM_WORDS));
    for at in 0..16 {
        push(&|c| c.pins.addr[at] = 255);
    }
    for at in 0..7 {
        push(&|c| c.pins.control[at] = 255);
    }
    for at in 0..5 {
        push(&|c| c.levels[at] = 0);
    }
    for bit in 0..32 {
        push(&|c| c.address &= !(1 << bit));
    }
    out
}

fn plainer_calls(call: Call) -> Vec<Call> {
    match call {
        Call::Size { .. } => vec![Call::Size { set: 0 }],
        Call::Same { a, b } => vec![Call::Same { a: 0, b }, Call::Same { a, b: 0 }],
        Call::Data { set, offset, len, count } => vec![
            Call::Data { set: 0, offset, len, count },
            Call::Data { set, offset: 0, len, count },
            Call::Data { set, offset, len: len.min(1), count },
            Call::Data { set, offset, len, count: 0 },
        ],
        Call::Byte { set, address, demangled, count } => {
            let mut out = vec![
                Call::Byte { set: 0, address, demangled, count },
                Call::Byte { set, address, demangled: false, count },
                Call::Byte { set, address, demangled, count: 0 },
                Call::Byte { set, address: Address::Raw(0), demangled, count },
            ];
            if let Address::Logical(a, _) = address {
                out.push(Call::Byte { set, address: Address::Logical(a, [0; 5]), demangled, count });
            }
            out
        }
        Call::Own { set, address, levels, count } => vec![
            Call::Own { set: 0, address, levels, count },
            Call::Own { set, address: 0, levels, count },
            Call::Own { set, address, levels: [0; 5], count },
            Call::Own { set, address, levels, count: 0 },
        ],
    }
}

fn hex(bytes: &[u8]) -> String {
    bytes.iter().map(|b| format!("{b:02x}")).collect()
}

/// The bytes that are not zero, each run of them with its offset.
fn image(f: &mut fmt::Formatter<'_>, image: &[u8]) -> fmt::Result {
    writeln!(f, "image of {} bytes, all zero but:", image.len())?;
    for (i, line) in image.chunks(16).enumerate().filter(|(_, line)| line.iter().any(|b| *b != 0)) {
        writeln!(f, "  {:6}: {}", 16 * i, hex(line))?;
    }
    Ok(())
}

impl fmt::Display for Input {
    fn fmt(&self, f: &mut fmt::Formatter<'_>) -> fmt::Result {
        match self {
            Input::Runtime { record, ram_base } => writeln!(f, "runtime record {} at RAM base {ram_base}", hex(record)),
            Input::String { image: bytes, base, pointer } => {
                writeln!(f, "string at {pointer}, base {base}")?;
                image(f, bytes)
            }
            Input::Mangle(case) => writeln!(f, "mangle {case:?}"),
            Input::Demangle(pins, byte) => writeln!(f, "demangle {byte} by {:?}, pins' number {}", pins.data, pins.number),
            Input::Board { image: bytes, flash_base, slack } => {
                writeln!(f, "board at flash base {flash_base}, rows lent beside those needed: {slack:?}")?;
                image(f, bytes)
            }
            Input::Call { image: bytes, flash_base, lending } => {
                writeln!(f, "{lending:?} on a board at flash base {flash_base}")?;
                image(f, bytes)
            }
        }
    }
}
