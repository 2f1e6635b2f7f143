//! The questions on splitting in the sample that crates/test_scripts runs.

use super::question::Question;
use super::{in_order, short, whole, CUT};
use crate::random::Random;
use crate::sample::{section, Section};
use crate::script::hex;

const SEED: u64 = 0x7265_706c_6179_0003;

pub(crate) fn sample() -> Vec<Section> {
    let mut random = Random::new(SEED);
    let blob = whole(&[3, 0, 12, 1], &mut random);
    let short = short(&mut random);
    let title = |what| format!("split, {what}, seed {SEED:#x}");
    vec![
        section("split, an empty blob, and one byte", first_places()),
        section(
            &title("the records of a blob in order"),
            in_order(&blob).map(|place| Question::new(&blob, place)),
        ),
        section(
            &title("each place of a blob and one past it"),
            (0..=short.len() + 1).map(|place| Question::new(&short, place)),
        ),
        section(
            "split, a record that is cut",
            CUT.map(|(text, place)| Question::new(&hex(text), place)),
        ),
    ]
}

fn first_places() -> [Question; 5] {
    [("", 0), ("", 1), ("00", 0), ("00", 1), ("0000", 0)]
        .map(|(blob, place)| Question::new(&hex(blob), place))
}
