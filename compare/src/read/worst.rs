//! Hellos that might be slow to read: as many as possible of one thing.

use super::build::{block, sized, Extension, Parts};
use super::counts::{extensions, ids, key_shares, names, sixteen_bits, UNREAD};
use crate::join::LIMIT;
use crate::random::Random;

const SEED: u64 = 0x7265_6164_776f_7273;
/// The most entries of a list, and of ALPN.
const ENTRIES: u16 = 64;
const NAMES: u16 = 16;
/// The least values whose varints have four and eight bytes.
const FOUR_BYTES: u64 = 1 << 14;
const EIGHT_BYTES: u64 = 1 << 30;
/// The bytes of one entry: in ALPN a length and one byte; of a key share its group, a length and one byte.
const NAME: usize = 2;
const SHARE: usize = 5;

/// Each with a title.
pub(super) fn hellos() -> Vec<(String, Vec<u8>)> {
    let mut list = of_ids();
    list.extend(of_extensions());
    list.extend(of_one_body());
    list
}

/// The bytes that 16,384 leave for the body of the only extension of a plain hello.
fn room() -> usize {
    LIMIT - plain(&[Extension::new(UNREAD, Vec::new())]).len()
}

fn plain(extensions: &[Extension]) -> Vec<u8> {
    Parts::plain(&block(extensions)).hello()
}

/// As many different parameter ids as 16,384 bytes hold: all are compared before they are too many.
fn of_ids() -> Vec<(String, Vec<u8>)> {
    let mut random = Random::new(SEED);
    // an id below 64 has one byte, and one below 16,384 two; each has a length of one byte
    let count = (64 + (room() - 2 * 64) / 3) as u64;
    let rising: Vec<u64> = (0..count).collect();
    let falling: Vec<u64> = rising.iter().rev().copied().collect();
    let mut shuffled = rising.clone();
    random.shuffle(&mut shuffled);
    // the last two are the same, which is late to be found from either end
    let mut repeated = shuffled.clone();
    repeated[count as usize - 1] = repeated[count as usize - 2];
    let [four, eight] = [(FOUR_BYTES, 5), (EIGHT_BYTES, 9)].map(|(least, bytes)| {
        let mut list: Vec<u64> = (least..).take(room() / bytes).collect();
        random.shuffle(&mut list);
        list
    });
    [
        ("ids in random order", shuffled),
        ("ids in rising order", rising),
        ("ids in falling order", falling),
        ("ids, the last two the same", repeated),
        ("ids of four bytes", four),
        ("ids of eight bytes", eight),
    ]
    .map(|(title, list)| (format!("{} {title}", list.len()), plain(&[ids(list)])))
    .into()
}

/// 64 extensions: none of them read, and all that are read among them, each with as many entries as may be.
fn of_extensions() -> Vec<(String, Vec<u8>)> {
    let name = sized(2, &[&[0], &sized(2, &[b'n'; 255])[..]].concat());
    let mut full = vec![
        Extension::new(0x0000, name),
        Extension::new(0x000a, sixteen_bits(2, ENTRIES)),
        Extension::new(0x000d, sixteen_bits(2, ENTRIES)),
        Extension::new(0x002b, sixteen_bits(1, ENTRIES)),
        names(NAMES),
        key_shares(ENTRIES),
        ids(0..u64::from(ENTRIES)),
    ];
    full.extend(extensions(ENTRIES - full.len() as u16));
    vec![
        (
            "64 extensions without bodies".to_string(),
            plain(&extensions(ENTRIES)),
        ),
        (
            "64 extensions, the seven that are read with full lists".to_string(),
            plain(&full),
        ),
    ]
}

/// One extension that fills 16,384 bytes: unread, one name, and more names and key shares than may be.
fn of_one_body() -> Vec<(String, Vec<u8>)> {
    let bytes = vec![b'n'; room()];
    let name = sized(2, &[&[0], &sized(2, &bytes[5..])[..]].concat());
    let (many, shares) = ((room() - 2) / NAME, (room() - 2) / SHARE);
    [
        (
            "one extension that is not read".to_string(),
            Extension::new(UNREAD, bytes),
        ),
        (
            "one extension, a name".to_string(),
            Extension::new(0x0000, name),
        ),
        (
            format!("one extension, {many} names of ALPN"),
            names(many as u16),
        ),
        (
            format!("one extension, {shares} key shares"),
            key_shares(shares as u16),
        ),
    ]
    .map(|(title, extension)| (title, plain(&[extension])))
    .into()
}
