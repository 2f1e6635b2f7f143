//! `parse_clienthello` and `extension_set` of the original's fingerprint.rs, on hellos that document 01 accepts. Where it
//! refuses is a list of its own (read/parting.rs), and damaged hellos have the answers of the driver's own reader by document
//! 01 (read/law.rs).

mod accepted;
pub(crate) mod build;
mod captures;
pub(crate) mod chance;
pub(crate) mod counts;
pub(crate) mod damage;
pub(crate) mod law;
pub(crate) mod layout;
pub(crate) mod lengths;
mod many;
mod parting;
mod place;
mod question;
pub(crate) mod report;
mod sample;
mod seen;
pub(crate) mod stopped;
mod text;
mod timing;
mod worst;

pub(crate) use sample::sample;
pub(crate) use timing::time;

use crate::captures::Greeting;
use crate::join::LIMIT;
use crate::make;
use crate::random::Random;
use crate::sides::Sides;
use crate::tally::Tally;
use question::Question;
use stopped::Stops;

const SEED: u64 = 0x7265_6164_6865_6c6c;
/// Hellos that the original made, and such as were put together by chance.
const MADE: usize = 20_000;
const CHANCE: usize = 5_000;
/// The lengths within which the hellos by chance stay that are damaged, and how many there are of each.
const DAMAGED: [usize; 3] = [200, 600, 1_500];
const OF_EACH: usize = 3;
/// Changes of a single byte.
const CHANGES: usize = 20_000;

pub(crate) fn compare(tally: &mut Tally, greetings: &[Greeting]) {
    let mut random = Random::new(SEED);
    let mut sides = Sides::new(tally);
    for hello in accepted::hellos() {
        sides.ask(Question { hello });
    }
    sides.ask_random(MADE, || Question {
        hello: make::any_hello(&mut random),
    });
    sides.ask_random(CHANCE, || {
        let room = LIMIT >> random.below(6);
        Question {
            hello: chance::hello(room, &mut random),
        }
    });
    let mut stops = Stops::new();
    parting::check(tally, &mut stops);
    captures::check(tally, greetings);
    check_damaged(tally, &mut stops, &mut random);
    stops.print("damaged");
}

/// Hellos that the driver's own reader knows the answer to.
fn check_damaged(tally: &mut Tally, stops: &mut Stops, random: &mut Random) {
    let whole = whole(random);
    for hello in whole.iter().chain(&counts::hellos()) {
        check_by_law(tally, stops, hello.clone());
    }
    for damaged in whole.iter().flat_map(|hello| damage::all(hello)) {
        check_by_law(tally, stops, damaged);
    }
    for _ in 0..CHANGES {
        let hello = &whole[random.below(whole.len())];
        check_by_law(tally, stops, damage::change(hello, random));
    }
}

/// A hello of each profile, and some by chance.
fn whole(random: &mut Random) -> Vec<Vec<u8>> {
    let made = |profile| make::hello(profile, "www.example.com", &[1, 2, 3, 4], SEED);
    let mut whole: Vec<_> = (0..3).map(made).collect();
    for room in DAMAGED {
        whole.extend((0..OF_EACH).map(|_| chance::hello(room, random)));
    }
    whole
}

fn check_by_law(tally: &mut Tally, stops: &mut Stops, hello: Vec<u8>) {
    stops.check(tally, &hello);
    let question = Question { hello };
    let known = question.texts_by_law();
    tally.expect(&question, "ours", &known, &question.texts_by_ours());
}
