//! `generate_client_hello` of the original's tls.rs over its profiles: from the same tape, the same bytes and the same count
//! drawn. Questions 4 to 9 are document 01's, since the original asks none.

mod question;
mod sample;
mod timing;

pub(crate) use question::{least, made_by_rust, refusal};
pub(crate) use sample::sample;
pub(crate) use timing::time;

use crate::random::Random;
use crate::sides::Sides;
use crate::tally::Tally;
use question::{Fill, Question, TABLE};

const SEED: u64 = 0x6d61_6b65_6865_6c6c;
const RANDOM: usize = 100_000;
/// Among the random questions one in so many has something wrong with it.
const WRONG: usize = 16;

pub(crate) fn compare(tally: &mut Tally) {
    let mut random = Random::new(SEED);
    let mut sides = Sides::new(tally);
    for question in edges() {
        sides.ask(question);
    }
    sides.ask_random(RANDOM, || draw(&mut random));
}

/// Every limit of questions 4 to 9, and one past it.
fn edges() -> Vec<Question> {
    let mut list = Vec::new();
    for fill in [Fill::Same(0x00), Fill::Same(0xff), Fill::Random(SEED)] {
        for profile in [
            0,
            1,
            2,
            3,
            4,
            255,
            256,
            257,
            1 << 32,
            (1 << 32) + 1,
            u64::MAX,
        ] {
            list.push(Question::new(profile, b"example.org", &[7; 8], fill));
        }
        for profile in 0..TABLE.len() as u64 {
            let question = |name: &[u8], scid: &[u8]| Question::new(profile, name, scid, fill);
            for n in [0, 1, 2, 254, 255, 256, 300] {
                list.push(question(&vec![b'a'; n], &[]));
                list.push(question(&vec![0; n], &[]));
            }
            for byte in 0..=255 {
                list.push(question(&[byte], &[]));
                list.push(question(&[b'a', byte, b'b'], &[]));
            }
            for s in [0, 1, 19, 20, 21, 64] {
                list.push(question(b"example.org", &vec![0x5c; s]));
            }
            for less in [1, 2, 50] {
                let good = question(b"example.org", &[1, 2, 3]);
                list.push(Question {
                    tape: good.tape - less,
                    ..good.clone()
                });
                list.push(Question {
                    room: good.room - less,
                    ..good.clone()
                });
                list.push(Question {
                    tape: good.tape + less,
                    ..good.clone()
                });
                list.push(Question {
                    room: good.room + less,
                    ..good
                });
            }
            list.push(Question {
                tape: 0,
                room: 0,
                ..question(b"a", &[])
            });
        }
    }
    list
}

/// The original's hello of a profile, a name, a connection id and a random tape by its seed.
pub(crate) fn hello(profile: u64, name: &str, scid: &[u8], seed: u64) -> Vec<u8> {
    let question = Question::new(profile, name.as_bytes(), scid, Fill::Random(seed));
    question.made_by_rust().0
}

/// The original's hello of anything that it may be asked for.
pub(crate) fn any_hello(random: &mut Random) -> Vec<u8> {
    good(random).made_by_rust().0
}

/// The original's hello of a profile and a name, with any connection id and tape.
pub(crate) fn hello_for(profile: u64, name: &[u8], random: &mut Random) -> Vec<u8> {
    let s = random.below(21);
    let scid = random.bytes(s);
    let question = Question::new(profile, name, &scid, any_fill(random));
    question.made_by_rust().0
}

/// Any profile, name, connection id and tape.
fn good(random: &mut Random) -> Question {
    let profile = random.below(TABLE.len()) as u64;
    let (n, s) = (1 + random.below(255), random.below(21));
    let name = any_name(n, random);
    let scid = random.bytes(s);
    Question::new(profile, &name, &scid, any_fill(random))
}

/// A name of so many bytes, each one that document 01 allows.
pub(crate) fn any_name(length: usize, random: &mut Random) -> Vec<u8> {
    (0..length).map(|_| 33 + random.below(94) as u8).collect()
}

/// A tape of zeros, of ones, or random.
fn any_fill(random: &mut Random) -> Fill {
    match random.below(8) {
        0 => Fill::Same(0x00),
        1 => Fill::Same(0xff),
        _ => Fill::Random(random.next() | 1),
    }
}

/// The same with tape and output that may be longer; one in so many has something wrong with it.
fn draw(random: &mut Random) -> Question {
    let question = good(random);
    let (n, s) = (question.name.len(), question.scid.len());
    if random.below(WRONG) != 0 {
        let (tape, room) = (
            question.tape + random.below(20),
            question.room + random.below(80),
        );
        return Question {
            tape,
            room,
            ..question
        };
    }
    match random.below(5) {
        0 => Question {
            profile: 3 + random.next() % 1000,
            ..question
        },
        1 => Question {
            name: random.bytes(n),
            ..question
        },
        2 => Question {
            scid: random.bytes(21 + s),
            ..question
        },
        3 => Question {
            tape: question.tape - 1 - random.below(30),
            ..question
        },
        _ => Question {
            room: question.room - 1 - random.below(60),
            ..question
        },
    }
}
