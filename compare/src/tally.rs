//! The count of what was compared, and the differences as they are met.

use std::fmt::Display;
use std::process::ExitCode;

/// Differences past this one are counted and not shown: one fault tends to give thousands.
const SHOWN: u64 = 20;

#[derive(Default)]
pub(crate) struct Tally {
    compared: u64,
    differing: u64,
}

impl Tally {
    /// Counts one question, and shows it with both answers where they differ.
    pub(crate) fn count<A: PartialEq + Display>(
        &mut self,
        question: &impl Display,
        rust: &A,
        ours: &A,
    ) {
        self.judge(question, ["Rust", "ours"], [rust, ours]);
    }

    /// Counts one answer of one side, `who`, to a question whose answer is known beforehand.
    pub(crate) fn expect<A: PartialEq + Display>(
        &mut self,
        question: &impl Display,
        who: &str,
        known: &A,
        given: &A,
    ) {
        self.judge(question, ["to be", who], [known, given]);
    }

    /// Counts one question whose answers were seen to be equal, so that no text of them need be built.
    pub(crate) fn count_equal(&mut self) {
        self.compared += 1;
    }

    pub(crate) fn differing(&self) -> u64 {
        self.differing
    }

    fn judge<A: PartialEq + Display>(
        &mut self,
        question: &impl Display,
        who: [&str; 2],
        answers: [&A; 2],
    ) {
        self.compared += 1;
        if answers[0] == answers[1] {
            return;
        }
        self.differing += 1;
        if self.differing <= SHOWN {
            println!("differs: {question}");
            for (who, answer) in who.iter().zip(answers) {
                println!("  {who}: {answer}");
            }
        } else if self.differing == SHOWN + 1 {
            println!("more differ; they are counted and not shown");
        }
    }

    /// Prints the last line of the run and gives its exit status.
    pub(crate) fn verdict(&self) -> ExitCode {
        println!("{} compared, {} differ", self.compared, self.differing);
        ExitCode::from(u8::from(self.differing != 0))
    }
}
