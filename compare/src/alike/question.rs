//! Two hellos, and whether they are alike.

use super::likeness::alike;
use crate::ours;
use crate::script::Bytes;
use crate::sides::Ask;
use std::fmt::{Display, Formatter, Result};

#[derive(PartialEq, Eq, Hash)]
pub(super) struct Question {
    pub(super) a: Vec<u8>,
    pub(super) b: Vec<u8>,
}

impl Question {
    /// The same two in the other order.
    pub(super) fn turned(&self) -> Self {
        Question {
            a: self.b.clone(),
            b: self.a.clone(),
        }
    }
}

#[derive(PartialEq)]
pub(super) struct Verdict(pub(super) bool);

impl Ask for Question {
    type Answer = Verdict;

    fn by_rust(&self) -> Verdict {
        Verdict(alike(&self.a, &self.b))
    }

    fn by_ours(&self) -> Verdict {
        match ours::alike(&self.a, &self.b) {
            0 => Verdict(false),
            1 => Verdict(true),
            number => panic!("for 0 or 1: {number}"),
        }
    }
}

impl Display for Question {
    fn fmt(&self, f: &mut Formatter<'_>) -> Result {
        write!(f, "alike {} {}", Bytes(&self.a), Bytes(&self.b))
    }
}

impl Display for Verdict {
    fn fmt(&self, f: &mut Formatter<'_>) -> Result {
        f.write_str(if self.0 { "yes" } else { "no" })
    }
}
