//! Where our reader stops in hellos that were damaged: number and place. The number must be that of our reader and of the
//! driver's own (law.rs), the place must lie within the hello and be the one that place.rs finds, and what stands after all that
//! decides may be anything.

use super::law;
use super::place;
use crate::ours;
use crate::random::Random;
use crate::script::Bytes;
use crate::tally::Tally;
use std::collections::BTreeMap;
use std::fmt::{Display, Formatter, Result};

const SEED: u64 = 0x7374_6f70_7065_6431;

/// The hellos that were looked at: all of them, the refused ones by number, and those that were asked again.
pub(crate) struct Stops {
    random: Random,
    looked: u64,
    refused: BTreeMap<u64, u64>,
    again: u64,
}

impl Stops {
    pub(crate) fn new() -> Self {
        Stops {
            random: Random::new(SEED),
            looked: 0,
            refused: BTreeMap::new(),
            again: 0,
        }
    }

    pub(crate) fn check(&mut self, tally: &mut Tally, hello: &[u8]) {
        self.looked += 1;
        let question = Question(hello);
        let given = Stopped(ours::stopped(hello));
        let alone = Number(ours::refusal(hello).err());
        tally.expect(&question, "ours", &alone, &given.number());
        match law::read(hello) {
            Ok(_) => tally.expect(&question, "ours", &Stopped(None), &given),
            Err(number) => self.check_place(tally, hello, number, &given),
        }
    }

    fn check_place(&mut self, tally: &mut Tally, hello: &[u8], number: u64, given: &Stopped) {
        *self.refused.entry(number).or_default() += 1;
        let question = Question(hello);
        let stop = place::stop(hello, number);
        let known = Stopped(Some((number, stop.place as u64)));
        tally.expect(&question, "ours", &known, given);
        let within = given
            .place()
            .is_some_and(|place| place <= hello.len() as u64);
        tally.expect(&question, "ours, within the hello", &true, &within);
        if stop.decided < hello.len() {
            self.again += 1;
            let mut other = hello.to_vec();
            self.random.fill(&mut other[stop.decided..]);
            let again = Stopped(ours::stopped(&other));
            tally.expect(&Question(&other), "ours", &known, &again);
        }
    }

    pub(crate) fn print(&self, which: &str) {
        let Stops { looked, again, .. } = self;
        let refused: u64 = self.refused.values().sum();
        let each: Vec<String> = self
            .refused
            .iter()
            .map(|(number, count)| format!("{number}: {count}"))
            .collect();
        let each = each.join(", ");
        println!("{which}: {looked} hellos for ours to say where it stops, {refused} of them refused: {each}");
        println!("{which}: {again} of them again, with other bytes after what decides");
    }
}

/// A hello, shown as a script's line.
struct Question<'a>(&'a [u8]);

impl Display for Question<'_> {
    fn fmt(&self, f: &mut Formatter<'_>) -> Result {
        write!(f, "report {} (where it stops)", Bytes(self.0))
    }
}

/// A refusal's number; `None` where the hello is accepted.
#[derive(PartialEq)]
struct Number(Option<u64>);

impl Display for Number {
    fn fmt(&self, f: &mut Formatter<'_>) -> Result {
        match self.0 {
            Some(number) => write!(f, "refused {number}"),
            None => f.write_str("accepted"),
        }
    }
}

/// The same with the place.
#[derive(PartialEq)]
struct Stopped(Option<(u64, u64)>);

impl Stopped {
    fn number(&self) -> Number {
        Number(self.0.map(|(number, _)| number))
    }

    fn place(&self) -> Option<u64> {
        self.0.map(|(_, place)| place)
    }
}

impl Display for Stopped {
    fn fmt(&self, f: &mut Formatter<'_>) -> Result {
        match self.0 {
            Some((number, place)) => write!(f, "refused {number} at {place}"),
            None => f.write_str("accepted"),
        }
    }
}
