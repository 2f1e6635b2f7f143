//! Varints against the clock: a run of reads, which has an aim, and single calls, which have none.

use super::question::{sum_by_rust, Question};
use crate::noise::quic::varint;
use crate::ours;
use crate::random::Random;
use crate::sides::Ask;
use crate::table::{Aim, Table};
use crate::tally::Tally;
use crate::timing::{in_turn, Timed};
use std::hint::black_box;

const SEED: u64 = 0x7469_6d69_6e67_0001;
const COUNT: usize = 1024;
/// The part of the Rust's time that a run of reads is to stay within.
const AIM: f64 = 0.55;
/// The bit lengths, from and to, of the values that have 1, 2, 4 and 8 bytes as varints.
const BITS: [(usize, usize); 4] = [(1, 6), (7, 14), (15, 30), (31, 62)];

pub(crate) fn time(tally: &mut Tally, table: &mut Table) {
    let (values, varints) = values_and_varints();
    let run = varints.concat();
    let question = Question::Sum(run.clone());
    tally.count(&question, &question.by_rust(), &question.by_ours());

    let title = format!("{COUNT} in a row");
    table.add("varint read", &title, time_run(&run), Aim::Rust(AIM));
    for (call, timed) in [
        ("varint read", time_read(&varints)),
        ("varint write", time_write(&values)),
        ("varint size", time_size(&values)),
    ] {
        table.add(call, "one call", timed, Aim::None);
    }
}

/// Random values, each width as likely, and the varint of each. One in eight of those that can be is a width longer than
/// need be.
fn values_and_varints() -> (Vec<u64>, Vec<Vec<u8>>) {
    let mut random = Random::new(SEED);
    let pair = |_| {
        let (least, most) = BITS[random.below(BITS.len())];
        let bits = least + random.below(most - least + 1);
        let value = random.of_bits(bits);
        let mut bytes = Vec::new();
        varint::write(&mut bytes, value);
        if random.below(8) == 0 && bytes.len() < 8 {
            bytes = longer(&bytes);
        }
        (value, bytes)
    };
    (0..COUNT).map(pair).unzip()
}

/// The same value in the next width: twice as many bytes, and the first byte's top two bits one more.
pub(crate) fn longer(bytes: &[u8]) -> Vec<u8> {
    let mut long = vec![0; bytes.len()];
    long.extend(bytes);
    long[bytes.len()] &= 0x3f;
    long[0] = (bytes[0] & 0xc0) + 0x40;
    long
}

fn time_run(run: &[u8]) -> Timed {
    in_turn(
        1,
        || ours::varint_sum(black_box(run)),
        || sum_by_rust(black_box(run)),
    )
}

fn time_read(varints: &[Vec<u8>]) -> Timed {
    in_turn(
        varints.len(),
        || total(varints, |bytes| ours::varint_value(bytes).unwrap_or(0)),
        || {
            total(varints, |bytes| {
                varint::read(bytes).map_or(0, |read| read.0)
            })
        },
    )
}

fn time_write(values: &[u64]) -> Timed {
    let (mut out, mut vec) = ([0; 8], Vec::with_capacity(8));
    in_turn(
        values.len(),
        || {
            total(values, |value| {
                ours::varint_write(*value, black_box(&mut out)).unwrap_or(0)
            })
        },
        || {
            total(values, |value| {
                vec.clear();
                varint::write(black_box(&mut vec), *value);
                vec.len() as u64
            })
        },
    )
}

fn time_size(values: &[u64]) -> Timed {
    in_turn(
        values.len(),
        || total(values, |value| ours::varint_size(*value).unwrap_or(0)),
        || total(values, |value| varint::size(*value) as u64),
    )
}

/// The sum of what `call` gives for each item. The compiler sees no item before its call, so it can join no two calls.
fn total<T>(items: &[T], mut call: impl FnMut(&T) -> u64) -> u64 {
    items
        .iter()
        .fold(0, |sum: u64, item| sum.wrapping_add(call(black_box(item))))
}
