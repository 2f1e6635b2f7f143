//! Where document 01 refuses a hello for one too many of something, and which "no" wins there.

use super::build::{block, sized, Extension};
use super::counts::{extensions, ids, key_shares, names, run, sixteen_bits, UNREAD};
use super::parting::Parting;
use super::report::Numbers;
use crate::script::hex;

pub(super) fn many() -> Vec<Parting> {
    let mut list = many_ids();
    list.extend(many_names());
    list.extend(many_entries());
    list.extend(many_extensions());
    list
}

/// The original reads any number of extensions of anything.
fn read(number: u64, extensions: &[Extension], rust: &str) -> Parting {
    let kinds: Vec<u16> = extensions.iter().map(|extension| extension.kind).collect();
    let rust = format!(" types{}{rust}", Numbers(&kinds));
    Parting::of_block(number, &block(extensions), Some(&rust))
}

/// All ids are compared, however many: 22 before 23.
fn many_ids() -> Vec<Parting> {
    let parting = |number, list: Vec<u64>| {
        let rust = format!(" ids {list:x?}");
        read(number, &[ids(list)], &rust)
    };
    vec![
        parting(23, (0..65).collect()),
        parting(22, (0..65).chain([64]).collect()),
        parting(22, (0..64).chain([0]).collect()),
        parting(22, (0..1_000).chain([999]).collect()),
        parting(23, (0..1_000).collect()),
    ]
}

/// The whole body is in its form before the count is asked: 21 before 23.
fn many_names() -> Vec<Parting> {
    let shown = |count, after: &str| format!(" alpn [{}{after}]", vec!["\"x\""; count].join(", "));
    let list = [&sized(1, b"x").repeat(17)[..], &[0]].concat();
    let and_an_empty_one = Extension::new(0x0010, sized(2, &list));
    vec![
        read(23, &[names(17)], &shown(17, "")),
        read(21, &[and_an_empty_one], &shown(17, ", \"\"")),
    ]
}

fn many_entries() -> Vec<Parting> {
    let list = |count| Numbers(&run(count).collect::<Vec<_>>()).to_string();
    let all = list(65);
    let mut two_too_small = sixteen_bits(2, 65);
    two_too_small[1] -= 2;
    let shares = [&key_shares(65).body[2..], &hex("001d0000")].concat();
    let and_an_empty_key = Extension::new(0x0033, sized(2, &shares));
    let groups = Extension::new(0x000a, sixteen_bits(2, 65));
    let half_a_header = [&groups.bytes()[..], &hex("0017")].concat();
    let of = |kind, width| [Extension::new(kind, sixteen_bits(width, 65))];
    let rust = format!(" types 000a groups{all}");
    vec![
        read(23, &of(0x000a, 2), &format!(" groups{all}")),
        read(23, &of(0x000d, 2), &format!(" algorithms{all}")),
        read(23, &of(0x002b, 1), &format!(" versions{all}")),
        read(23, &[key_shares(65)], &format!(" shares{all}")),
        read(
            21,
            &[Extension::new(0x000a, two_too_small)],
            &format!(" groups{}", list(64)),
        ),
        read(21, &[and_an_empty_key], &format!(" shares{all} 001d")),
        // extension by extension: 23 of the first before 20 of the second
        Parting::of_block(23, &half_a_header, Some(&rust)),
    ]
}

/// The 65th extension answers 20, 21 and 22 before 23, and no later one is looked at.
fn many_extensions() -> Vec<Parting> {
    let and = |more: &[Extension]| [&extensions(64), more].concat();
    let again = Extension::new(UNREAD, vec![]);
    let good = Extension::new(UNREAD + 64, vec![]);
    let one_byte = [&block(&extensions(64))[..], &[0]].concat();
    let kinds = Numbers(&(UNREAD..UNREAD + 64).collect::<Vec<_>>()).to_string();
    vec![
        read(23, &and(&[good.clone()]), ""),
        read(21, &and(&[again.clone()]), ""),
        read(21, &and(&[Extension::new(0x0000, vec![])]), ""),
        read(22, &and(&[ids([1, 1])]), " ids [1, 1]"),
        Parting::of_block(20, &one_byte, Some(&format!(" types{kinds}"))),
        read(23, &and(&[good, again]), ""),
    ]
}
