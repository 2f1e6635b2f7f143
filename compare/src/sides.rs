//! Puts each question to the original and to ours, once.

use crate::tally::Tally;
use std::collections::HashSet;
use std::fmt::Display;
use std::hash::Hash;

/// A call with its operands, and the two sides' whole answers to it. Shown as lines of a script.
pub(crate) trait Ask: Display + Eq + Hash {
    type Answer: PartialEq + Display;

    /// The original's answer, in document 01's words.
    fn by_rust(&self) -> Self::Answer;
    fn by_ours(&self) -> Self::Answer;
}

pub(crate) struct Sides<'a, Q> {
    tally: &'a mut Tally,
    asked: HashSet<Q>,
}

impl<'a, Q: Ask> Sides<'a, Q> {
    pub(crate) fn new(tally: &'a mut Tally) -> Self {
        Sides {
            tally,
            asked: HashSet::new(),
        }
    }

    /// Whether the question was a new one.
    pub(crate) fn ask(&mut self, question: Q) -> bool {
        if self.asked.contains(&question) {
            return false;
        }
        let (rust, ours) = (question.by_rust(), question.by_ours());
        self.tally.count(&question, &rust, &ours);
        self.asked.insert(question)
    }

    /// The same where the answer is known beforehand: ours is held to that too, which counts as one more.
    pub(crate) fn ask_known(&mut self, question: Q, known: &Q::Answer) -> bool {
        if self.asked.contains(&question) {
            return false;
        }
        self.tally
            .expect(&question, "ours", known, &question.by_ours());
        self.ask(question)
    }

    /// Asks `count` new questions. Short ones are soon used up, so `draw` may run more often.
    pub(crate) fn ask_random(&mut self, count: usize, mut draw: impl FnMut() -> Q) {
        let mut asked = 0;
        while asked < count {
            asked += usize::from(self.ask(draw()));
        }
    }
}
