//! Compares the original Rust with the library of this repository, or times both (compare/README.md).
//! Each part of the original has a module here with `compare`, and `time` and `sample` where it has them.

mod alike;
mod captures;
mod cut;
mod join;
mod make;
mod noise {
    pub(crate) mod quic;
}
mod ours;
mod panics;
mod random;
mod read;
mod sample;
mod scale;
mod script;
mod sides;
mod split;
mod table;
mod tally;
mod tape;
mod timing;
mod varint;

use captures::{Capture, Greeting};
use std::io::Result;
use std::path::Path;
use std::process::ExitCode;
use table::Table;
use tally::Tally;

fn main() -> ExitCode {
    panics::allow_quiet();
    tape::check();
    let words: Vec<String> = std::env::args().skip(1).collect();
    let words: Vec<&str> = words.iter().map(String::as_str).collect();
    match words[..] {
        ["--compare", folder] => {
            with_captures(folder, |captured| compare_all(captured, scale::SEED))
        }
        ["--compare", folder, seed] => match number(seed) {
            Some(seed) => with_captures(folder, |captured| compare_all(captured, seed)),
            None => stop(&format!("no seed: {seed}")),
        },
        ["--bench", folder] => with_captures(folder, bench_all),
        ["--sample", folder, origin] => sample::write(folder, origin, &samples()),
        _ => {
            stop("usage: driver --compare FOLDER [SEED] | --bench FOLDER | --sample FOLDER ORIGIN")
        }
    }
}

/// What real programs sent: lists of frames, and hellos.
type Captured = (Vec<Capture>, Vec<Greeting>);

fn with_captures(folder: &str, work: impl FnOnce(&Captured) -> ExitCode) -> ExitCode {
    match read_captures(Path::new(folder)) {
        Ok(captured) => work(&captured),
        Err(error) => stop(&format!("{folder}: {error}")),
    }
}

/// A number of 64 bits, decimal or with 0x before it.
fn number(text: &str) -> Option<u64> {
    match text.strip_prefix("0x") {
        Some(hex) => u64::from_str_radix(hex, 16).ok(),
        None => text.parse().ok(),
    }
}

fn stop(why: &str) -> ExitCode {
    eprintln!("{why}");
    ExitCode::from(2)
}

fn read_captures(folder: &Path) -> Result<Captured> {
    Ok((captures::read(folder)?, captures::read_hellos(folder)?))
}

fn compare_all((captures, greetings): &Captured, seed: u64) -> ExitCode {
    let mut tally = Tally::default();
    varint::compare(&mut tally);
    join::compare(&mut tally, captures);
    cut::compare(&mut tally);
    split::compare(&mut tally);
    make::compare(&mut tally);
    read::compare(&mut tally, greetings);
    alike::compare(&mut tally);
    scale::compare(&mut tally, seed, captures, greetings);
    tally.verdict()
}

/// What is timed is seen to be right, and counted as what is compared.
fn bench_all((captures, greetings): &Captured) -> ExitCode {
    let mut tally = Tally::default();
    let mut table = Table::default();
    timing::print_how();
    varint::time(&mut tally, &mut table);
    make::time(&mut tally, &mut table);
    read::time(&mut tally, &mut table, greetings);
    join::time(&mut tally, &mut table, captures);
    alike::time(&mut tally, &mut table);
    let verdict = tally.verdict();
    table.print();
    verdict
}

fn samples() -> Vec<sample::Section> {
    [
        varint::sample(),
        join::sample(),
        split::sample(),
        make::sample(),
        read::sample(),
    ]
    .into_iter()
    .flatten()
    .collect()
}
