//! The questions on varints in the sample that crates/test_scripts runs. Each is one that the original itself answers, so no
//! output is too short.

use super::question::Question;
use super::{near_ceilings, with_first_byte, LONGEST, UNTOUCHED};
use crate::noise::quic::varint;
use crate::panics::unless_it_panics;
use crate::random::Random;
use crate::sample::{section, Section};

const SEED: u64 = 0x7265_706c_6179_0001;

pub(crate) fn sample() -> Vec<Section> {
    let mut random = Random::new(SEED);
    let mut sections = vec![
        section(
            "size, near each ceiling",
            near_ceilings().into_iter().map(Question::Size),
        ),
        section("write, near each ceiling", writes_near_ceilings()),
        section(
            "write, where bytes of the varint and of the output end in one run",
            runs(),
        ),
        section("read, each width at each length", reads_at_each_length()),
        section(
            "read, the samples of RFC 9000, appendix A.1",
            rfc_9000().map(Question::Read),
        ),
    ];
    let sizes: Vec<_> = (0..30).map(|_| Question::Size(random.value())).collect();
    let writes: Vec<_> = (0..90).map(|_| random_write(&mut random)).collect();
    let reads: Vec<_> = (0..90).map(|_| random_read(&mut random)).collect();
    let title = |call| format!("{call}, random, seed {SEED:#x}");
    sections.push(section(&title("size"), sizes));
    sections.push(section(&title("write"), writes));
    sections.push(section(&title("read"), reads));
    sections
}

/// The width of `value`. One that has none needs no room: it is refused before the output is asked about.
fn room_for(value: u64) -> usize {
    unless_it_panics(|| varint::size(value)).unwrap_or(0)
}

/// An output exactly full, and one with bytes left over.
fn writes_near_ceilings() -> Vec<Question> {
    let of = |value, length| Question::Write(value, vec![UNTOUCHED; length]);
    near_ceilings()
        .into_iter()
        .flat_map(|value| [of(value, room_for(value)), of(value, 16)])
        .collect()
}

/// 40a5 and then outputs of a5 with 6, 7 and 8 of them left: the trailing run of the answer is 7, 8 and 9 long.
fn runs() -> Vec<Question> {
    (8..=10)
        .map(|length| Question::Write(0xa5, vec![UNTOUCHED; length]))
        .collect()
}

/// The lowest and the highest first byte of each width.
fn reads_at_each_length() -> Vec<Question> {
    let mut questions = vec![Question::Read(Vec::new())];
    for first in [0x00, 0x3f, 0x40, 0x7f, 0x80, 0xbf, 0xc0, 0xff] {
        for length in 1..=LONGEST {
            let [_, _, counting] = with_first_byte(first, length);
            questions.push(Question::Read(counting));
        }
    }
    questions
}

fn rfc_9000() -> [Vec<u8>; 5] {
    [
        vec![0xc2, 0x19, 0x7c, 0x5e, 0xff, 0x14, 0xe8, 0x8c],
        vec![0x9d, 0x7f, 0x3e, 0x7d],
        vec![0x7b, 0xbd],
        vec![0x25],
        vec![0x40, 0x25],
    ]
}

fn random_write(random: &mut Random) -> Question {
    let value = random.value();
    let length = room_for(value) + random.below(12);
    let byte = random.bytes(1)[0];
    Question::Write(value, vec![byte; length])
}

fn random_read(random: &mut Random) -> Question {
    let length = 1 + random.below(12);
    Question::Read(random.bytes(length))
}
