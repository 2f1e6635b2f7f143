//! The hellos in the sample that crates/test_scripts runs: each profile on tapes of zeros and ones, which a script writes shortly,
//! and on a few random ones.

use super::question::{Fill, Question, TABLE};
use crate::random::Random;
use crate::sample::{section, Section};

const SEED: u64 = 0x6d61_6b65_7361_6d70;
const RANDOM: usize = 5;

pub(crate) fn sample() -> Vec<Section> {
    let mut random = Random::new(SEED);
    let mut same = Vec::new();
    let mut drawn = Vec::new();
    for profile in 0..TABLE.len() as u64 {
        for byte in [0x00, 0x01, 0x32, 0x80, 0xff] {
            for (name, scid) in [
                (&b"a"[..], &[][..]),
                (b"www.example.com", &[1, 2, 3, 4, 5, 6, 7, 8]),
            ] {
                same.push(Question::new(profile, name, scid, Fill::Same(byte)));
            }
        }
        for _ in 0..RANDOM {
            let (n, s) = (1 + random.below(255), random.below(21));
            let name: Vec<u8> = (0..n).map(|_| 33 + random.below(94) as u8).collect();
            let scid = random.bytes(s);
            let fill = Fill::Random(random.next() | 1);
            drawn.push(Question::new(profile, &name, &scid, fill));
        }
    }
    vec![
        section("make, tapes of one byte throughout", same),
        section("make, random tapes, names and connection ids", drawn),
    ]
}
