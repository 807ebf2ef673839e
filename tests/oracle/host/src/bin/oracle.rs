//! The oracle: the library's C entry points and the Rust on the same inputs. docs/ORACLE.md says what is compared.

use std::process::ExitCode;
use std::time::Instant;

use host::boards::{self, Buffers, Lending};
use host::image::Board;
use host::input::Input;
use host::mangling::{self, Subject};
use host::rng::Rng;
use host::tally::{Compared, Tally};
use host::{runtime, rust, sample, strings};

const USAGE: &str = "usage: oracle [--boards N] [--mangles N] [--seed S] [--whole] [--sample]
  --boards N   boards, runtime records and strings drawn at random (default 40000)
  --mangles N  mangles drawn at random (default 200000)
  --seed S     another draw (default 1)
  --whole      the exhaustive parts whole: every three bytes as a string, every value of every byte of every template board
  --sample     no run: a sample of the answers, on standard output";

struct Options {
    boards: usize,
    mangles: usize,
    seed: u64,
    whole: bool,
    sample: bool,
}

fn options() -> Option<Options> {
    let mut o = Options { boards: 40_000, mangles: 200_000, seed: 1, whole: false, sample: false };
    let mut words = std::env::args().skip(1);
    while let Some(word) = words.next() {
        match word.as_str() {
            "--boards" => o.boards = words.next()?.parse().ok()?,
            "--mangles" => o.mangles = words.next()?.parse().ok()?,
            "--seed" => o.seed = words.next()?.parse().ok()?,
            "--whole" => o.whole = true,
            "--sample" => o.sample = true,
            _ => return None,
        }
    }
    Some(o)
}

/// Every part of a run. The input on which a difference was found is left in `last`.
struct Run {
    options: Options,
    tally: Tally,
    subject: Subject,
    buffers: Buffers,
    last: Option<Input>,
}

impl Run {
    fn rng(&self, part: u64) -> Rng {
        Rng::new(self.options.seed.wrapping_mul(1000).wrapping_add(part))
    }

    fn runtime(&mut self) -> Compared {
        let mut rng = self.rng(1);
        let tally = &mut self.tally;
        let last = &mut self.last;
        runtime::run(&mut rng, self.options.boards, |kind, record, ram_base| {
            tally.kind(kind);
            runtime::compare(record, ram_base, tally)
                .and_then(|()| runtime::compare_parser(record, ram_base, tally))
                .inspect_err(|_| *last = Some(Input::Runtime { record: record.to_vec(), ram_base }))
        })
    }

    fn strings(&mut self) -> Compared {
        let mut rng = self.rng(2);
        let tally = &mut self.tally;
        let last = &mut self.last;
        strings::run(&mut rng, self.options.whole, self.options.boards, &mut |kind, image, base, pointer| {
            tally.kind(kind);
            strings::compare(image, base, pointer, tally)
                .inspect_err(|_| *last = Some(Input::String { image: image.to_vec(), base, pointer }))
        })
    }

    fn mangles(&mut self) -> Compared {
        let mut rng = self.rng(3);
        let (subject, tally, last) = (&mut self.subject, &mut self.tally, &mut self.last);
        mangling::run_mangles(&mut rng, self.options.whole, self.options.mangles, |kind, case| {
            tally.kind(kind);
            subject.compare_mangle(case, tally).inspect_err(|_| *last = Some(Input::Mangle(case.clone())))
        })
    }

    fn demangles(&mut self) -> Compared {
        let mut rng = self.rng(4);
        let (subject, tally, last) = (&mut self.subject, &mut self.tally, &mut self.last);
        mangling::run_demangles(&mut rng, self.options.mangles / 10, |kind, pins, byte| {
            tally.kind(kind);
            subject.compare_demangle(pins, byte, tally).inspect_err(|_| *last = Some(Input::Demangle(*pins, byte)))
        })
    }

    fn boards(&mut self) -> Compared {
        let (mut rng, mut jobs) = (self.rng(5), self.rng(6));
        let (buffers, tally, last) = (&mut self.buffers, &mut self.tally, &mut self.last);
        let mut each = |kind, board: &Board, rng: &mut Rng| {
            let (image, flash_base) = (&board.image, board.flash_base);
            let slack = boards::slack(rng);
            tally.kind(kind);
            let both = boards::compare(image, flash_base, slack, buffers, tally)
                .inspect_err(|_| *last = Some(Input::Board { image: image.clone(), flash_base, slack }))?;
            let Some(mut both) = both else { return Ok(()) };
            let calls = if both.report.served() == 0 { 2 } else { 5 };
            for _ in 0..rng.below(calls) {
                let drawn = boards::random_call(rng, &mut jobs, &both, image);
                let own = drawn.call.by_own_roms().map(|call| Lending { call, ..drawn });
                let refused = [Some(drawn), own].map(|read| boards::refused_first(&mut jobs, read?));
                for lending in [Some(drawn), own].into_iter().chain(refused).flatten() {
                    tally.kind("calls on opened boards");
                    boards::compare_call(image, flash_base, &mut both, lending, tally)
                        .inspect_err(|_| *last = Some(Input::Call { image: image.clone(), flash_base, lending }))?;
                }
            }
            Ok(())
        };
        boards::exhaustive(&mut rng, self.options.whole, &mut each)?;
        boards::random(&mut rng, self.options.boards, &mut each)
    }

    fn all(&mut self) -> Compared {
        for (what, part) in [
            ("runtime records", Run::runtime as fn(&mut Run) -> Compared),
            ("strings", Run::strings),
            ("mangles", Run::mangles),
            ("demangles", Run::demangles),
            ("boards", Run::boards),
        ] {
            let from = Instant::now();
            part(self)?;
            eprintln!("{what}: {:.1} s", from.elapsed().as_secs_f64());
        }
        Ok(())
    }
}

fn main() -> ExitCode {
    let Some(options) = options() else {
        eprintln!("{USAGE}");
        return ExitCode::from(2);
    };
    rust::keep_panics();
    if options.sample {
        return match sample::print(options.seed) {
            Ok(()) => ExitCode::SUCCESS,
            Err(difference) => {
                eprintln!("{difference:?}");
                ExitCode::FAILURE
            }
        };
    }
    println!("seed {}, {} boards, {} mangles, exhaustive parts {}", options.seed, options.boards, options.mangles, if options.whole { "whole" } else { "in part" });
    let mut run = Run { options, tally: Tally::default(), subject: Subject::new(), buffers: Buffers::default(), last: None };
    let answer = run.all();
    run.tally.print();
    let Err(first) = answer else {
        println!("no difference but those of the rules");
        return ExitCode::SUCCESS;
    };
    println!("\nDIFFERENCE");
    let mut shown = first;
    if let Some(input) = run.last.take() {
        let (smallest, difference) = input.smallest(&mut run.subject);
        shown = difference.unwrap_or(shown);
        println!("smallest input found:\n{smallest}");
    }
    println!("{}\n  here: {}\n  Rust: {}", shown.what, shown.ours, shown.rust);
    ExitCode::FAILURE
}
