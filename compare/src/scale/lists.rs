//! Lists of frames: such as carry a stream, and such as something happened to.

use super::damage::{damage, random_bytes, spliced};
use super::Real;
use crate::join::lists::{any_frame, covering_frames, shuffled_frames};
use crate::join::{crypto, LIMIT};
use crate::random::Random;

/// Frames of a list, each apart, and runs of PADDING or PING.
type Frames = Vec<Vec<u8>>;
type Change = fn(&mut Frames, &mut Random);

/// What is done to a list that carries a stream, frame by frame.
const CHANGES: [Change; 10] = [
    one_dropped,
    one_again,
    one_again_changed,
    one_changed,
    another_type,
    past_the_end,
    empty_one,
    one_cut,
    padding,
    one_moved,
];
/// Bytes by which chance alone gives lists of frames.
const FEW: [u8; 10] = [0x00, 0x01, 0x06, 0x06, 0x06, 0x02, 0x03, 0x40, 0x80, 0xc0];

pub(super) fn draw(real: &Real, random: &mut Random) -> Vec<u8> {
    match random.below(16) {
        0 | 1 => shuffled_frames(&stream(random), random).concat(),
        2 | 3 => covering_frames(&stream(random), random).concat(),
        4..=9 => changed(random).concat(),
        10 | 11 => small(random),
        12 => damaged(any_list(real, random), random),
        13 => spliced(&any_list(real, random), &any_list(real, random), random),
        14 => of_few_bytes(random),
        _ => {
            let length = random.low(2_048, 6);
            random_bytes(length, random)
        }
    }
}

/// Random bytes, short streams as often as long ones, and one in 32 as long as may be.
fn stream(random: &mut Random) -> Vec<u8> {
    let length = match random.below(32) {
        0 => LIMIT,
        1 => LIMIT + 1,
        _ => random.low(LIMIT, 14),
    };
    random_bytes(length, random)
}

/// A list without damage: frames of a stream, or what a real program sent.
fn any_list(real: &Real, random: &mut Random) -> Vec<u8> {
    match random.below(3) {
        0 => shuffled_frames(&stream(random), random).concat(),
        1 => covering_frames(&stream(random), random).concat(),
        _ => real.lists[random.below(real.lists.len())].clone(),
    }
}

fn damaged(mut list: Vec<u8>, random: &mut Random) -> Vec<u8> {
    damage(&mut list, random);
    list
}

/// One to three changes of a list's frames.
fn changed(random: &mut Random) -> Frames {
    let stream = stream(random);
    let mut frames = match random.below(2) {
        0 => shuffled_frames(&stream, random),
        _ => covering_frames(&stream, random),
    };
    for _ in 0..1 + random.below(3) {
        CHANGES[random.below(CHANGES.len())](&mut frames, random);
    }
    frames
}

/// Up to seven frames of up to four bytes at the front of a stream that counts: overlap and gaps by chance, and one byte in
/// 32 that is not the stream's.
fn small(random: &mut Random) -> Vec<u8> {
    let mut list = Vec::new();
    for _ in 0..random.below(8) {
        let (offset, length) = (random.low(12, 3), random.below(5));
        let byte = |place| place as u8 ^ u8::from(random.below(32) == 0);
        let data: Vec<u8> = (offset..offset + length).map(byte).collect();
        list.extend(any_frame(offset, &data, random));
        list.extend(vec![random.below(2) as u8; random.below(2)]);
    }
    list
}

fn of_few_bytes(random: &mut Random) -> Vec<u8> {
    let length = random.below(40);
    let byte = |_| match random.below(8) {
        0 => random.next() as u8,
        _ => FEW[random.below(FEW.len())],
    };
    (0..length).map(byte).collect()
}

/// A place in a list that is not empty.
fn place(frames: &Frames, random: &mut Random) -> Option<usize> {
    (!frames.is_empty()).then(|| random.below(frames.len()))
}

fn insert(frames: &mut Frames, new: Vec<u8>, random: &mut Random) {
    let place = random.below(frames.len() + 1);
    frames.insert(place, new);
}

/// A gap, unless others cover it.
fn one_dropped(frames: &mut Frames, random: &mut Random) {
    if let Some(place) = place(frames, random) {
        frames.remove(place);
    }
}

/// Overlap that is equal.
fn one_again(frames: &mut Frames, random: &mut Random) {
    if let Some(place) = place(frames, random) {
        let again = frames[place].clone();
        insert(frames, again, random);
    }
}

/// Overlap that is not equal, where a byte of data is hit.
fn one_again_changed(frames: &mut Frames, random: &mut Random) {
    if let Some(place) = place(frames, random) {
        let mut again = frames[place].clone();
        change_byte(&mut again, random);
        insert(frames, again, random);
    }
}

/// Another byte of data, where no other frame has it, or another offset, length or type.
fn one_changed(frames: &mut Frames, random: &mut Random) {
    if let Some(place) = place(frames, random) {
        change_byte(&mut frames[place], random);
    }
}

/// The last byte of a frame as often as any other.
fn change_byte(frame: &mut [u8], random: &mut Random) {
    if let Some(last) = frame.len().checked_sub(1) {
        let place = [last, random.below(frame.len())][random.below(2)];
        frame[place] ^= 1 << random.below(8);
    }
}

/// A type that is none of the three: those nearby, and any byte.
fn another_type(frames: &mut Frames, random: &mut Random) {
    let kind = match random.below(4) {
        0 => random.next() as u8,
        _ => [0x02, 0x03, 0x04, 0x05, 0x07, 0x1c, 0x40, 0x46, 0x86, 0xff][random.below(10)],
    };
    insert(frames, vec![kind], random);
}

/// A frame that ends at the limit or past it.
fn past_the_end(frames: &mut Frames, random: &mut Random) {
    let length = random.below(4);
    let data = random_bytes(length, random);
    let new = match random.below(3) {
        0 => crypto(LIMIT - random.below(5), &data),
        1 => crypto(LIMIT + random.below(100), &data),
        _ => {
            let offset = (random.value() >> 2) as usize;
            any_frame(offset, &data, random)
        }
    };
    insert(frames, new, random);
}

/// A frame without data at any place: inside the stream, at its end, or past it.
fn empty_one(frames: &mut Frames, random: &mut Random) {
    let offset = random.low(LIMIT + 2, 14);
    let new = any_frame(offset, &[], random);
    insert(frames, new, random);
}

/// The end of a frame is missing: at the list's end it is cut, and elsewhere it takes bytes of the next.
fn one_cut(frames: &mut Frames, random: &mut Random) {
    if let Some(place) = place(frames, random) {
        let last = frames.len() - 1;
        let frame = &mut frames[[place, last][random.below(2)]];
        frame.truncate(random.below(frame.len() + 1));
    }
}

fn padding(frames: &mut Frames, random: &mut Random) {
    let count = random.low(1_200, 8);
    let kind = random.below(2) as u8;
    insert(frames, vec![kind; count], random);
}

fn one_moved(frames: &mut Frames, random: &mut Random) {
    if let Some(place) = place(frames, random) {
        let moved = frames.remove(place);
        insert(frames, moved, random);
    }
}
