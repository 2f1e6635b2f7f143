//! Alike, which the original does not have. The driver says what it must answer from what the original reads in two hellos
//! (alike/likeness.rs). Each pair is asked in both orders.

pub(crate) mod changes;
pub(crate) mod likeness;
pub(crate) mod made;
mod pairs;
pub(crate) mod pieces;
mod question;
mod timing;

pub(crate) use timing::time;

use crate::join::LIMIT;
use crate::make;
use crate::random::Random;
use crate::read::{chance, counts, damage};
use crate::sides::Sides;
use crate::tally::Tally;
use changes::CHANGES;
use question::{Question, Verdict};

const SEED: u64 = 0x616c_696b_6568_656c;
/// Pairs of hellos that the original made; such as were put together by chance, with one thing changed; and such as have
/// nothing to do with one another.
const MADE: usize = 3_000;
const CHANGED: usize = 5_000;
const APART: usize = 500;
/// The lengths within which the hellos by chance stay that are damaged, and how many changes of a single byte there are.
const DAMAGED: [usize; 2] = [200, 600];
const BYTES_CHANGED: usize = 3_000;

pub(crate) fn compare(tally: &mut Tally) {
    pairs::check(tally);
    let mut random = Random::new(SEED);
    let mut sides = Sides::new(tally);
    ask_made(&mut sides, &mut random);
    ask_changed(&mut sides, &mut random);
    for _ in 0..APART {
        let [a, b] = [(); 2].map(|()| by_chance(&mut random));
        ask(&mut sides, a, b);
    }
    for hello in counts::hellos() {
        ask(&mut sides, hello.clone(), hello);
    }
    ask_damaged(&mut sides, &mut random);
}

/// Asks in both orders. A hello and itself have one order.
fn ask(sides: &mut Sides<Question>, a: Vec<u8>, b: Vec<u8>) {
    let question = Question { a, b };
    let turned = question.turned();
    sides.ask(question);
    sides.ask(turned);
}

/// The same where the answer is known beforehand. Whether the question was a new one.
fn ask_known(sides: &mut Sides<Question>, a: Vec<u8>, b: Vec<u8>, alike: bool) -> bool {
    let question = Question { a, b };
    let turned = question.turned();
    let new = sides.ask_known(question, &Verdict(alike));
    sides.ask_known(turned, &Verdict(alike));
    new
}

/// Hellos that the original made are alike exactly when profile and name are the same, whatever connection id and tape are.
fn ask_made(sides: &mut Sides<Question>, random: &mut Random) {
    let mut asked = 0;
    while asked < MADE {
        let ([a, b], same) = made::pair(random);
        asked += usize::from(ask_known(sides, a, b, same));
    }
}

/// A hello by chance, and the same with one thing changed, after which it is known whether the two are alike.
fn ask_changed(sides: &mut Sides<Question>, random: &mut Random) {
    let mut asked = 0;
    while asked < CHANGED {
        let (alike, change) = CHANGES[asked % CHANGES.len()];
        let first = changes::with_reserved_ids(&by_chance(random), random);
        let mut second = first.clone();
        if change(&mut second, random).is_some() {
            asked += usize::from(ask_known(sides, first.hello(), second.hello(), alike));
        }
    }
}

/// A hello that is well within the limit, so that what is changed in it does not pass that.
fn by_chance(random: &mut Random) -> Vec<u8> {
    let room = (LIMIT / 2) >> random.below(6);
    chance::hello(room, random)
}

/// Damaged hellos, each with the whole one and with itself.
fn ask_damaged(sides: &mut Sides<Question>, random: &mut Random) {
    let made = |profile| make::hello(profile, "www.example.com", &[1, 2, 3, 4], SEED);
    let mut whole = vec![made(2)];
    whole.extend(DAMAGED.map(|room| chance::hello(room, random)));
    for hello in &whole {
        for damaged in damage::all(hello) {
            ask_damaged_one(sides, hello, damaged);
        }
    }
    whole.extend([made(0), made(1)]);
    for _ in 0..BYTES_CHANGED {
        let hello = &whole[random.below(whole.len())];
        ask_damaged_one(sides, hello, damage::change(hello, random));
    }
}

fn ask_damaged_one(sides: &mut Sides<Question>, hello: &[u8], damaged: Vec<u8>) {
    ask(sides, hello.to_vec(), damaged.clone());
    ask(sides, damaged.clone(), damaged);
}
