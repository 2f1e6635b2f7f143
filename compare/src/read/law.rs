//! Document 01's reader ("Reading", and questions 16 to 23), written from its text alone, so that damaged hellos have a known
//! answer too. It gathers whole lists before it asks how long they are, which is easy to read and not fast.

use super::report::{Name, Report};
use crate::join::LIMIT;
use std::collections::HashSet;

/// The most entries of a list, and of ALPN.
const ENTRIES: usize = 64;
const NAMES: usize = 16;
/// The longest session id, and what stands before it: version and random bytes.
const SESSION_ID: usize = 32;
const UNREAD: usize = 2 + 32;

/// The report, or the number of the first question that is answered "no".
pub(crate) fn read(hello: &[u8]) -> Result<Report, u64> {
    let mut rest = Part {
        hello,
        at: 0,
        end: hello.len(),
    };
    ask(hello.len() <= LIMIT, 16)?;
    ask(rest.number(1) == Some(1), 17)?;
    let length = rest.number(3);
    ask(length == Some(rest.len() as u64), 18)?;
    let mut report = Report::default();
    let mut block = fields(rest, &mut report).ok_or(19u64)?;
    ask(report.cipher_suites.len() <= ENTRIES, 23)?;
    while !block.is_empty() {
        extension(&mut block, &mut report)?;
    }
    Ok(report)
}

fn ask(yes: bool, number: u64) -> Result<(), u64> {
    yes.then_some(()).ok_or(number)
}

/// All that stands before the extensions. Gives the block, which must end the hello.
fn fields<'a>(mut rest: Part<'a>, report: &mut Report) -> Option<Part<'a>> {
    rest.part(UNREAD)?;
    let session_id = rest.sized(1)?;
    let suites = rest.sized(2)?;
    let compression = rest.sized(1)?;
    let block = rest.sized(2)?;
    report.session_id_length = session_id.len();
    report.cipher_suites = numbers(suites)?;
    let formed = session_id.len() <= SESSION_ID && !compression.is_empty();
    (formed && rest.is_empty()).then_some(block)
}

/// Questions 20 to 23 of the extension that stands first in the block.
fn extension(block: &mut Part, report: &mut Report) -> Result<(), u64> {
    let (kind, body) = header_and_body(block).ok_or(20u64)?;
    ask(!report.extensions.contains(&kind), 21)?;
    report.extensions.push(kind);
    read_body(kind, body, report).ok_or(21u64)?;
    let ids = &report.transport_parameters;
    ask(ids.iter().collect::<HashSet<_>>().len() == ids.len(), 22)?;
    let lists = [
        &report.extensions,
        &report.supported_groups,
        &report.key_share_groups,
        &report.signature_algorithms,
        &report.supported_versions,
    ];
    let within = lists.iter().all(|list| list.len() <= ENTRIES);
    ask(
        within && ids.len() <= ENTRIES && report.alpn.len() <= NAMES,
        23,
    )
}

fn header_and_body<'a>(block: &mut Part<'a>) -> Option<(u16, Part<'a>)> {
    let kind = block.number(2)?;
    Some((kind as u16, block.sized(2)?))
}

/// A type is new when this is called, so each list of the report is filled once.
fn read_body(kind: u16, body: Part, report: &mut Report) -> Option<()> {
    match kind {
        0x0000 => report.name = Some(server_name(body.list(2)?)?),
        0x000a => report.supported_groups = numbers(body.list(2)?)?,
        0x000d => report.signature_algorithms = numbers(body.list(2)?)?,
        0x0010 => report.alpn = names(body.list(2)?)?,
        0x002b => report.supported_versions = numbers(body.list(1)?)?,
        0x0033 => report.key_share_groups = key_shares(body.list(2)?)?,
        0x0039 => report.transport_parameters = parameters(body)?,
        _ => {}
    }
    Some(())
}

/// "even, 2 or more"
fn numbers(mut list: Part) -> Option<Vec<u16>> {
    let mut numbers = Vec::new();
    while !list.is_empty() {
        numbers.push(list.number(2)? as u16);
    }
    (!numbers.is_empty()).then_some(numbers)
}

/// "one entry: type 0, 2-byte length, name of 1 byte or more"
fn server_name(mut list: Part) -> Option<Name> {
    let kind = list.number(1)?;
    let name = list.sized(2)?.name()?;
    (kind == 0 && list.is_empty()).then_some(name)
}

/// "one or more names, each a 1-byte length of at least 1"
fn names(mut list: Part) -> Option<Vec<Name>> {
    let mut names = Vec::new();
    while !list.is_empty() {
        names.push(list.sized(1)?.name()?);
    }
    (!names.is_empty()).then_some(names)
}

/// "entries of group, 2-byte length of at least 1, key; may be empty"
fn key_shares(mut list: Part) -> Option<Vec<u16>> {
    let mut groups = Vec::new();
    while !list.is_empty() {
        groups.push(list.number(2)? as u16);
        let key = list.sized(2)?;
        if key.is_empty() {
            return None;
        }
    }
    Some(groups)
}

/// "varint id, varint length, value, to the end; may be empty"
fn parameters(mut body: Part) -> Option<Vec<u64>> {
    let mut ids = Vec::new();
    while !body.is_empty() {
        ids.push(body.varint()?);
        let length = body.varint()?;
        body.part(usize::try_from(length).ok()?)?;
    }
    Some(ids)
}

/// A part of a hello that is read from its front. What does not fit into it is `None`.
#[derive(Clone, Copy)]
struct Part<'a> {
    hello: &'a [u8],
    at: usize,
    end: usize,
}

impl<'a> Part<'a> {
    fn len(&self) -> usize {
        self.end - self.at
    }

    fn is_empty(&self) -> bool {
        self.at == self.end
    }

    fn part(&mut self, length: usize) -> Option<Part<'a>> {
        if self.len() < length {
            return None;
        }
        let end = self.at + length;
        let part = Part { end, ..*self };
        self.at = end;
        Some(part)
    }

    fn bytes(&self) -> &'a [u8] {
        &self.hello[self.at..self.end]
    }

    /// A number of so many bytes, highest first.
    fn number(&mut self, width: usize) -> Option<u64> {
        let bytes = self.part(width)?.bytes();
        let number = |before, byte: &u8| before << 8 | u64::from(*byte);
        Some(bytes.iter().fold(0, number))
    }

    /// "The top two bits of the first byte give 1, 2, 4 or 8 bytes; the rest is the value, highest byte first."
    fn varint(&mut self) -> Option<u64> {
        let width = 1 << (self.bytes().first()? >> 6);
        let value_bits = 8 * width as u32 - 2;
        Some(self.number(width)? & ((1 << value_bits) - 1))
    }

    /// A length of `width` bytes, and the part so long that follows it.
    fn sized(&mut self, width: usize) -> Option<Part<'a>> {
        let length = self.number(width)?;
        self.part(usize::try_from(length).ok()?)
    }

    /// "A list's length must reach exactly the end of its body"
    fn list(mut self, width: usize) -> Option<Part<'a>> {
        let list = self.sized(width)?;
        self.is_empty().then_some(list)
    }

    /// All of it as a name, which has 1 byte or more.
    fn name(&self) -> Option<Name> {
        let name = Name {
            start: self.at,
            bytes: self.bytes().to_vec(),
        };
        (!self.is_empty()).then_some(name)
    }
}
