//! Hellos to be read: the number alone, and the report's bytes into any buffer.

use super::input::Input;
use super::met::Call;
use super::{hellos, Real};
use crate::noise::quic::fingerprint::parse_clienthello;
use crate::ours::{self, Told};
use crate::random::Random;
use crate::read::report::Report;
use crate::read::{law, layout};
use crate::script::Bytes;
use std::fmt::{Formatter, Result};
use std::rc::Rc;

/// The number of a report that does not fit its buffer.
const TOO_SHORT: u64 = 100;

#[derive(Hash)]
pub(super) struct Read {
    pub(super) hello: Rc<[u8]>,
}

#[derive(Hash)]
pub(super) struct ReportInto {
    hello: Rc<[u8]>,
    room: usize,
}

/// One hello for both calls.
pub(super) fn draw(real: &Real, random: &mut Random) -> (Read, ReportInto) {
    let hello: Rc<[u8]> = hellos::draw(real, random).into();
    let room = match random.below(16) {
        0 => layout::LENGTH - 1,
        1 => random.below(layout::LENGTH),
        2..=8 => layout::LENGTH,
        _ => layout::LENGTH + random.below(200),
    };
    let read = Read {
        hello: hello.clone(),
    };
    (read, ReportInto { hello, room })
}

/// The driver's own reader. Where it accepts, the original must read the same.
fn read(hello: &[u8]) -> std::result::Result<Report, u64> {
    let report = law::read(hello)?;
    assert_eq!(
        report.fingerprint(),
        parse_clienthello(hello),
        "two readers, two reports: {}",
        Bytes(hello)
    );
    Ok(report)
}

impl Input for Read {
    fn call(&self) -> Call {
        Call::Read
    }

    fn room(&self) -> [usize; 2] {
        [0, 0]
    }

    fn known(&self, _: [&mut [u8]; 2]) -> Told {
        read(&self.hello).map(|_| 0)
    }

    fn given(&self, _: [&mut [u8]; 2]) -> Told {
        ours::refusal(&self.hello)
    }

    fn show(&self, _: [&[u8]; 2], f: &mut Formatter<'_>) -> Result {
        write!(f, "report {} (the number alone)", Bytes(&self.hello))
    }
}

impl Input for ReportInto {
    fn call(&self) -> Call {
        Call::Report
    }

    fn room(&self) -> [usize; 2] {
        [self.room, 0]
    }

    /// Whether the report fits is asked after all questions of the reader.
    fn known(&self, [out, _]: [&mut [u8]; 2]) -> Told {
        let report = read(&self.hello)?;
        let front = out.get_mut(..layout::LENGTH).ok_or(TOO_SHORT)?;
        front.copy_from_slice(&layout::bytes(&report));
        Ok(layout::LENGTH as u64)
    }

    fn given(&self, [out, _]: [&mut [u8]; 2]) -> Told {
        ours::report_bytes(&self.hello, out)
    }

    fn show(&self, [out, _]: [&[u8]; 2], f: &mut Formatter<'_>) -> Result {
        let (hello, out) = (Bytes(&self.hello), Bytes(out));
        write!(f, "report {hello} (as bytes, into {out})")
    }
}
