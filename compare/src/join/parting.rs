//! Where the original and document 01 part, each with its smallest input: a fixed list. Both sides are held to it.

use super::question::{Answer, Question};
use super::stream::Stream;
use super::{crypto, LIMIT};
use crate::script::hex;
use crate::sides::Ask;
use crate::tally::Tally;

/// A list of frames, what ours makes of it (the stream, or the number of the refusal), and what the original does.
struct Parting {
    frames: Vec<u8>,
    ours: Result<Vec<u8>, u64>,
    rust: Stream,
}

pub(super) fn check(tally: &mut Tally) {
    for Parting { frames, ours, rust } in partings() {
        let given = Stream::by_rust(&frames);
        let question = Question::new(frames);
        let known = match ours {
            Ok(stream) => Answer::joined(&stream, question.room),
            Err(number) => question.refused(number),
        };
        tally.expect(&question, "ours", &known, &question.by_ours());
        tally.expect(&question, "Rust", &rust, &given);
    }
    // The original has no buffers: refusal 10 is checked on our side alone, and comes before every other.
    for room in [[LIMIT - 1, LIMIT], [LIMIT, LIMIT - 1], [0, 0]] {
        for frames in [vec![], vec![0x04], vec![0x06, 0x00, 0x01, 0xaa]] {
            let question = Question { frames, room };
            tally.expect(
                &question,
                "ours",
                &question.refused(10),
                &question.by_ours(),
            );
        }
    }
}

fn partings() -> Vec<Parting> {
    let mut list = vec![past_the_limit()];
    // equal overlap: the original puts the bytes down twice
    list.extend(joined_otherwise(&[
        ("060001aa060001aa", "aa", "aaaa"),
        ("060002aabb060101bb", "aabb", "aabbbb"),
        ("060003aabbcc060101bb", "aabbcc", "aabbccbb"),
    ]));
    // refused by ours, joined by the original
    list.extend(refused_by_ours(&[
        (14, "060001aa060001ab", "aaab"),     // bytes that do not agree
        (14, "060002aabb060101cc", "aabbcc"), // the same, in part of a frame
        (15, "060101bb", "bb"),               // a lone frame that is late
        (15, "060001aa060201cc", "aacc"),     // a gap
        (15, "060100", ""),                   // an empty frame past the end
        (13, "068000400100", ""),             // an empty frame past 16,384
        (13, "067fff02aabb", "aabb"),         // data past 16,384
        (13, "06ffffffffffffffff00", ""),     // the largest offset
    ]));
    list.extend(refused_by_both(&[
        (11, "04"),                   // RESET_STREAM
        (11, "1d"),                   // CONNECTION_CLOSE of an application
        (11, "ff"),                   // no frame's type
        (11, "40060001aa"),           // CRYPTO's type as a longer varint
        (12, "06"),                   // no offset
        (12, "0640"),                 // half an offset
        (12, "0600"),                 // no length
        (12, "060040"),               // half a length
        (12, "060001"),               // no data
        (12, "0600ffffffffffffffff"), // the largest length
        (12, "060001aa06"),           // a whole frame before it
        (12, "06ffffffffffffffff01"), // cut before it is too far: 12 and not 13
        (11, "060101bb04"),           // a gap before it: 11 and not 15
    ]));
    // frame by frame: the first frame that is refused decides for ours, while the original panics at the last
    list.push(Parting {
        frames: hex("060001aa060001ab04"),
        ours: Err(14),
        rust: Stream(None),
    });
    list
}

/// A stream of 16,385 bytes.
fn past_the_limit() -> Parting {
    let stream = vec![0xaa; LIMIT + 1];
    Parting {
        frames: crypto(0, &stream),
        ours: Err(13),
        rust: Stream(Some(stream)),
    }
}

fn joined_otherwise(list: &[(&str, &str, &str)]) -> Vec<Parting> {
    let parting = |(frames, ours, rust): &(&str, &str, &str)| Parting {
        frames: hex(frames),
        ours: Ok(hex(ours)),
        rust: Stream(Some(hex(rust))),
    };
    list.iter().map(parting).collect()
}

fn refused_by_ours(list: &[(u64, &str, &str)]) -> Vec<Parting> {
    let parting = |(number, frames, rust): &(u64, &str, &str)| Parting {
        frames: hex(frames),
        ours: Err(*number),
        rust: Stream(Some(hex(rust))),
    };
    list.iter().map(parting).collect()
}

/// The original panics.
fn refused_by_both(list: &[(u64, &str)]) -> Vec<Parting> {
    let parting = |(number, frames): &(u64, &str)| Parting {
        frames: hex(frames),
        ours: Err(*number),
        rust: Stream(None),
    };
    list.iter().map(parting).collect()
}
