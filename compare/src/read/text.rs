//! Our report read back from its text.

use super::report::{Name, Report};
use crate::script::try_hex;
use std::str::{FromStr, Split};

type Lines<'a> = Split<'a, char>;

/// The report that a text shows, or what is wrong with the text. Each range must hold in the hello what is shown beside it.
pub(super) fn parse(text: &str, hello: &[u8]) -> Result<Report, String> {
    let mut lines = text.split('\n');
    if lines.next() != Some("report") {
        return Err(text.to_string());
    }
    let report = Report {
        session_id_length: one(words(&mut lines, "session-id-length")?)?,
        cipher_suites: numbers(words(&mut lines, "cipher-suites")?)?,
        extensions: numbers(words(&mut lines, "extensions")?)?,
        supported_groups: numbers(words(&mut lines, "supported-groups")?)?,
        key_share_groups: numbers(words(&mut lines, "key-share-groups")?)?,
        signature_algorithms: numbers(words(&mut lines, "signature-algorithms")?)?,
        supported_versions: numbers(words(&mut lines, "supported-versions")?)?,
        alpn: names(&words(&mut lines, "alpn")?, hello)?,
        name: name_or_none(&words(&mut lines, "name")?, hello)?,
        transport_parameters: ids(words(&mut lines, "transport-parameters")?)?,
    };
    match lines.next() {
        None => Ok(report),
        Some(line) => Err(format!("after the report: {line}")),
    }
}

/// The words of the next line after its first, which must be `first`.
fn words<'a>(lines: &mut Lines<'a>, first: &str) -> Result<Vec<&'a str>, String> {
    let line = lines.next().unwrap_or("");
    let mut words = line.strip_prefix("  ").unwrap_or("").split(' ');
    if words.next() != Some(first) {
        return Err(format!("for {first}: {line}"));
    }
    Ok(words.collect())
}

fn one(words: Vec<&str>) -> Result<usize, String> {
    match words[..] {
        [word] => decimal(word),
        _ => Err(format!("for one number: {words:?}")),
    }
}

fn decimal<T: FromStr>(word: &str) -> Result<T, String> {
    word.parse().map_err(|_| format!("for a number: {word}"))
}

/// 16-bit numbers of four hex digits each.
fn numbers(words: Vec<&str>) -> Result<Vec<u16>, String> {
    let number = |word: &str| match (word.len(), u16::from_str_radix(word, 16)) {
        (4, Ok(number)) => Ok(number),
        _ => Err(format!("for four hex digits: {word}")),
    };
    words.into_iter().map(number).collect()
}

/// Parameter ids in the fewest hex digits.
fn ids(words: Vec<&str>) -> Result<Vec<u64>, String> {
    let id = |word: &str| match u64::from_str_radix(word, 16) {
        Ok(id) if format!("{id:x}") == word => Ok(id),
        _ => Err(format!("for an id: {word}")),
    };
    words.into_iter().map(id).collect()
}

fn name_or_none(words: &[&str], hello: &[u8]) -> Result<Option<Name>, String> {
    match words {
        ["none"] => Ok(None),
        [range, shown] => name(range, shown, hello).map(Some),
        _ => Err(format!("for a name: {words:?}")),
    }
}

fn names(words: &[&str], hello: &[u8]) -> Result<Vec<Name>, String> {
    let pair = |pair: &[&str]| match pair {
        [range, shown] => name(range, shown, hello),
        _ => Err(format!("for a range and a name: {pair:?}")),
    };
    words.chunks(2).map(pair).collect()
}

/// A name from its range, and its bytes as text in quotes or as hex.
fn name(range: &str, shown: &str, hello: &[u8]) -> Result<Name, String> {
    let fault = || format!("for a name in the hello: {range} {shown}");
    let (start, end) = range.split_once("..").ok_or_else(fault)?;
    let (start, end): (usize, usize) = (decimal(start)?, decimal(end)?);
    let quoted = shown.strip_prefix('"').and_then(|s| s.strip_suffix('"'));
    let bytes = match quoted {
        Some(text) => text.as_bytes().to_vec(),
        None => try_hex(shown).ok_or_else(fault)?,
    };
    if hello.get(start..end) != Some(&bytes[..]) {
        return Err(fault());
    }
    Ok(Name { start, bytes })
}
