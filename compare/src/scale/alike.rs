//! Pairs of hellos: made, changed in one thing, damaged, or with nothing to do with one another.

use super::damage::random_bytes;
use super::hellos::{accepted, damaged};
use super::input::Input;
use super::met::Call;
use super::{hellos, Real};
use crate::alike::changes::{with_reserved_ids, CHANGES};
use crate::alike::{likeness, made};
use crate::ours::{self, Told};
use crate::random::Random;
use crate::read::chance;
use crate::script::Bytes;
use std::fmt::{Formatter, Result};

#[derive(Hash)]
pub(super) struct Alike {
    hellos: [Vec<u8>; 2],
    /// The verdict, where it is known from how the pair was made.
    verdict: Option<bool>,
}

pub(super) fn draw(real: &Real, random: &mut Random) -> Alike {
    let (mut hellos, verdict) = match random.below(8) {
        0 | 1 => {
            let (pair, same) = made::pair(random);
            (pair, Some(same))
        }
        2..=4 => one_thing_changed(random),
        _ => (any(real, random), None),
    };
    if random.below(2) == 0 {
        hellos.reverse();
    }
    Alike { hellos, verdict }
}

/// A hello by chance, and the same with one thing changed that it has.
fn one_thing_changed(random: &mut Random) -> ([Vec<u8>; 2], Option<bool>) {
    let room = 4_096 >> random.below(5);
    let first = with_reserved_ids(&chance::hello(room, random), random);
    loop {
        let (alike, change) = CHANGES[random.below(CHANGES.len())];
        let mut second = first.clone();
        if change(&mut second, random).is_some() {
            return ([first.hello(), second.hello()], Some(alike));
        }
    }
}

fn any(real: &Real, random: &mut Random) -> [Vec<u8>; 2] {
    let one = accepted(real, random);
    match random.below(6) {
        0 => [one.clone(), one],
        1 => [damaged(one.clone(), random), one],
        2 => {
            let hurt = hellos::draw(real, random);
            [hurt.clone(), hurt]
        }
        3 => [one, hellos::draw(real, random)],
        4 => [accepted(real, random), one],
        _ => {
            let length = random.below(200);
            [one, random_bytes(length, random)]
        }
    }
}

impl Input for Alike {
    fn call(&self) -> Call {
        Call::Alike
    }

    fn room(&self) -> [usize; 2] {
        [0, 0]
    }

    /// By what the original reads in both.
    fn known(&self, _: [&mut [u8]; 2]) -> Told {
        let [a, b] = &self.hellos;
        let alike = likeness::alike(a, b);
        if let Some(verdict) = self.verdict {
            let (a, b) = (Bytes(a), Bytes(b));
            assert_eq!(verdict, alike, "two verdicts: {a} {b}");
        }
        Ok(u64::from(alike))
    }

    fn given(&self, _: [&mut [u8]; 2]) -> Told {
        let [a, b] = &self.hellos;
        Ok(ours::alike(a, b))
    }

    fn show(&self, _: [&[u8]; 2], f: &mut Formatter<'_>) -> Result {
        let [a, b] = self.hellos.each_ref().map(|hello| Bytes(hello));
        write!(f, "alike {a} {b}")
    }
}
