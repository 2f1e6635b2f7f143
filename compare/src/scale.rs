//! A million random and damaged inputs over the six calls of the C library, all drawn from one seed. Each has its whole
//! answer, with every byte of each buffer, from the original or from what the driver has of document 01; none from the library.

mod alike;
mod damage;
mod entries;
mod frames;
mod hellos;
mod ids;
mod input;
mod join;
mod lists;
mod make;
mod met;
mod read;

use crate::captures::{Capture, Greeting};
use crate::join::LIMIT;
use crate::random::Random;
use crate::read::law;
use crate::read::stopped::Stops;
use crate::tally::Tally;
use input::{Asked, Input};
use met::Met;
use std::collections::HashSet;
use std::hash::{DefaultHasher, Hasher};
use std::time::{Duration, Instant};

pub(crate) const SEED: u64 = 0x6372_7573_7464_0001;
/// Inputs, none of them twice. A hello that is put to the reader and to the reporter is one.
const INPUTS: u64 = 1_000_000;
/// Hellos up to this length, and those too long to be read, are also asked where they stop. What the driver does to find the
/// place in a long list takes too long to be done for all.
const SHORT: usize = 2_000;
/// How often a line says how far it is.
const BETWEEN_LINES: Duration = Duration::from_secs(5);

/// What inputs are made of beside chance: what real programs sent, of hellos those that document 01 accepts.
struct Real {
    hellos: Vec<Vec<u8>>,
    lists: Vec<Vec<u8>>,
}

pub(crate) fn compare(tally: &mut Tally, seed: u64, captures: &[Capture], greetings: &[Greeting]) {
    println!("scale: {INPUTS} inputs from the seed {seed:#x}");
    let real = Real {
        hellos: greetings
            .iter()
            .map(|real| real.hello.clone())
            .filter(|hello| law::read(hello).is_ok())
            .collect(),
        lists: captures.iter().map(|real| real.frames.clone()).collect(),
    };
    let mut scale = Scale {
        tally,
        seed,
        number: 0,
        seen: HashSet::new(),
        met: Met::default(),
        stops: Stops::new(),
        asked: Asked::new(),
    };
    let mut said = Instant::now();
    while (scale.seen.len() as u64) < INPUTS {
        scale.number += 1;
        scale.ask_any(&real);
        if scale.number % 64 == 0 && BETWEEN_LINES <= said.elapsed() {
            said = Instant::now();
            scale.say_how_far();
        }
    }
    scale.say_how_far();
    scale.met.print();
    scale.stops.print("scale");
}

struct Scale<'a> {
    tally: &'a mut Tally,
    seed: u64,
    /// The input's number, from 1. With the seed it determines the input.
    number: u64,
    /// A hash of each input so far.
    seen: HashSet<u64>,
    met: Met,
    stops: Stops,
    asked: Asked,
}

impl Scale<'_> {
    /// Draws an input from the seed and its number. Each call has its share of them.
    fn ask_any(&mut self, real: &Real) {
        let mut random = Random::new(mixed(self.seed, self.number));
        match random.below(20) {
            0..=3 => self.ask(&make::draw(&mut random), &mut random),
            4..=10 => self.ask_hello(real, &mut random),
            11..=14 => self.ask(&join::draw(real, &mut random), &mut random),
            15..=16 => self.ask(&frames::draw(&mut random), &mut random),
            _ => self.ask(&alike::draw(real, &mut random), &mut random),
        };
    }

    /// One hello for the report, for the number alone, and for where the reader stops.
    fn ask_hello(&mut self, real: &Real, random: &mut Random) -> bool {
        let (read, report) = read::draw(real, random);
        let new = self.ask(&report, random);
        if new {
            self.answer(&read, random);
            self.ask_stop(&read.hello);
        }
        new
    }

    fn ask_stop(&mut self, hello: &[u8]) {
        if hello.len() <= SHORT || LIMIT < hello.len() {
            self.stops.check(self.tally, hello);
        }
    }

    /// Whether the input was a new one.
    fn ask(&mut self, input: &impl Input, random: &mut Random) -> bool {
        let mut hasher = DefaultHasher::new();
        input.hash(&mut hasher);
        let new = self.seen.insert(hasher.finish());
        if new {
            self.answer(input, random);
        }
        new
    }

    fn answer(&mut self, input: &impl Input, random: &mut Random) {
        let told = self.asked.ask(input, random);
        self.met.count(input.call(), told);
        if self.asked.agree() {
            self.tally.count_equal();
        } else {
            let (seed, number) = (self.seed, self.number);
            let question = self.asked.shown(input, seed, number);
            let [known, given] = self.asked.answers();
            self.tally.expect(&question, "ours", &known, &given);
        }
    }

    fn say_how_far(&self) {
        let (asked, differ) = (self.seen.len(), self.tally.differing());
        println!("scale: {asked} of {INPUTS} asked, {differ} differ");
    }
}

/// A seed for each number, never 0: SplitMix64 (Steele, Lea and Flood, "Fast splittable pseudorandom number generators",
/// 2014).
fn mixed(seed: u64, number: u64) -> u64 {
    let step = number.wrapping_mul(0x9e37_79b9_7f4a_7c15);
    let mut mixed = seed.wrapping_add(step);
    mixed = (mixed ^ (mixed >> 30)).wrapping_mul(0xbf58_476d_1ce4_e5b9);
    mixed = (mixed ^ (mixed >> 27)).wrapping_mul(0x94d0_49bb_1331_11eb);
    (mixed ^ (mixed >> 31)).max(1)
}
