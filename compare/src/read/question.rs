//! A hello to be read, and the two sides' answers.

use super::law;
use super::layout;
use super::report::Numbers;
use super::text::parse;
use crate::noise::quic::fingerprint::{parse_clienthello, Fingerprint};
use crate::ours;
use crate::script::Bytes;
use crate::sides::Ask;
use std::fmt::{Display, Formatter, Result};

/// The length of a report's bytes as the call gives it.
const LENGTH: u64 = layout::LENGTH as u64;

#[derive(PartialEq, Eq, Hash)]
pub(super) struct Question {
    pub(super) hello: Vec<u8>,
}

impl Question {
    pub(super) fn new(hello: &[u8]) -> Self {
        let hello = hello.to_vec();
        Question { hello }
    }

    /// The answers of document 01 to the commands `report` and `set`.
    pub(super) fn texts_by_law(&self) -> String {
        match law::read(&self.hello) {
            Ok(report) => {
                let set = report.fingerprint().extension_set();
                format!("{report}\n{}", types(&set))
            }
            Err(number) => refused(number),
        }
    }

    /// Our answers to the commands `report` and `set`.
    pub(super) fn texts_by_ours(&self) -> String {
        format!("{}\n{}", self.report_by_ours(), self.set_by_ours())
    }

    /// The number alone, the report's text and its bytes are three calls, which must agree.
    fn report_by_ours(&self) -> String {
        let mut bytes = [0; layout::LENGTH];
        let written = ours::report_bytes(&self.hello, &mut bytes);
        let alone = ours::refusal(&self.hello);
        match (alone, ours::report(&self.hello), written) {
            (Ok(0), Ok(text), Ok(LENGTH)) if self.is_of(&bytes, &text) => text,
            (Err(number), Err(same), Err(also)) if [same, also] == [number; 2] => {
                format!("refused {number}")
            }
            (alone, text, written) => {
                let bytes = Bytes(&bytes);
                format!("number alone {alone:?}, text {text:?}, bytes {written:?} {bytes}")
            }
        }
    }

    /// Whether a report's bytes are those of its text.
    fn is_of(&self, bytes: &[u8], text: &str) -> bool {
        parse(text, &self.hello).is_ok_and(|report| layout::bytes(&report) == bytes)
    }

    fn set_by_ours(&self) -> String {
        ours::extension_set(&self.hello)
    }
}

/// A refusal, and the set of a hello that is refused, which has no types.
pub(super) fn refused(number: u64) -> String {
    format!("refused {number}\n{}", types(&[]))
}

pub(super) fn types(set: &[u16]) -> String {
    format!("types{}", Numbers(set))
}

/// What was read, or a text that is no report, and the text of the set.
#[derive(PartialEq)]
pub(super) struct Answer {
    read: std::result::Result<Fingerprint, String>,
    set: String,
}

impl Answer {
    pub(super) fn of(read: Fingerprint) -> Self {
        let set = types(&read.extension_set());
        Answer {
            read: Ok(read),
            set,
        }
    }
}

impl Ask for Question {
    type Answer = Answer;

    fn by_rust(&self) -> Answer {
        Answer::of(parse_clienthello(&self.hello))
    }

    fn by_ours(&self) -> Answer {
        let read = parse(&self.report_by_ours(), &self.hello);
        Answer {
            read: read.map(|report| report.fingerprint()),
            set: self.set_by_ours(),
        }
    }
}

impl Display for Question {
    fn fmt(&self, f: &mut Formatter<'_>) -> Result {
        write!(f, "report {}", Bytes(&self.hello))
    }
}

impl Display for Answer {
    fn fmt(&self, f: &mut Formatter<'_>) -> Result {
        match &self.read {
            Ok(read) => write!(f, "{read:?} {}", self.set),
            Err(text) => write!(f, "{text} {}", self.set),
        }
    }
}
