//! How often each answer was met, call by call.

use crate::ours::Told;
use std::collections::BTreeMap;

#[derive(Clone, Copy)]
pub(super) enum Call {
    Make,
    Read,
    Report,
    Join,
    Frames,
    Alike,
}

const CALLS: [(Call, &str); 6] = [
    (Call::Make, "make"),
    (Call::Read, "read"),
    (Call::Report, "report"),
    (Call::Join, "join"),
    (Call::Frames, "frames"),
    (Call::Alike, "alike"),
];

/// The numbers of document 01's refusals by these calls, and that of a report that does not fit.
const FIRST: u64 = 4;
const LAST: u64 = 26;
const TOO_SHORT: u64 = 100;

#[derive(Default)]
pub(super) struct Met([One; CALLS.len()]);

#[derive(Default)]
struct One {
    /// How often an answer was a number of its own, and how often that number was 0: for Alike, a "no".
    accepted: u64,
    zeros: u64,
    refused: BTreeMap<u64, u64>,
}

impl Met {
    pub(super) fn count(&mut self, call: Call, told: Told) {
        let one = &mut self.0[call as usize];
        match told {
            Ok(number) => {
                one.accepted += 1;
                one.zeros += u64::from(number == 0);
            }
            Err(number) => *one.refused.entry(number).or_default() += 1,
        }
    }

    pub(super) fn print(&self) {
        for (call, name) in CALLS {
            println!("scale: {name}: {}", self.0[call as usize].line(call));
        }
        let met = |number: &u64| self.0.iter().any(|one| one.refused.contains_key(number));
        let numbers = (FIRST..=LAST).chain([TOO_SHORT]);
        let missing: Vec<String> = numbers
            .filter(|number| !met(number))
            .map(|number| number.to_string())
            .collect();
        match missing.is_empty() {
            true => println!("scale: each number from {FIRST} to {LAST}, and {TOO_SHORT}, was met"),
            false => println!("scale: not met: {}", missing.join(", ")),
        }
    }
}

impl One {
    fn line(&self, call: Call) -> String {
        let mut line = match call {
            Call::Alike => format!("{} yes, {} no", self.accepted - self.zeros, self.zeros),
            _ => format!("{} accepted", self.accepted),
        };
        for (place, (number, count)) in self.refused.iter().enumerate() {
            line += if place == 0 { "; refused " } else { ", " };
            line += &format!("{number}: {count}");
        }
        line
    }
}
