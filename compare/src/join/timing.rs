//! The joiner against the clock: against the Rust, against what its contract asks of any joiner, which is two buffers of
//! 16,384 bytes cleared and the hello copied once, and against a published design that clears nothing (join/assembler.rs).

use super::question::{Answer, Question};
use super::stream::Stream;
use super::{assembler, crypto, LIMIT};
use crate::captures::Capture;
use crate::noise::quic::fingerprint::reassemble_crypto;
use crate::ours;
use crate::random::Random;
use crate::sides::Ask;
use crate::table::{part, shown, Aim, Table};
use crate::tally::Tally;
use crate::timing::Rounds;
use std::hint::black_box;

const SEED: u64 = 0x6a6f_696e_7469_6d65;
/// The hello that is cut in several ways.
const CHROME: &str = "quic-chromium156.frames.bin";
/// Frames of the shuffled list, and how far each reaches back over the one before it.
const MANY: usize = 64;
const OVERLAP: usize = 16;
/// The most times the floor that an ordinary list is to take: one that was sent once.
const AIM: f64 = 2.0;
/// About what an Initial packet has where nothing else is left to send.
const PADDED: usize = 1_200;

/// A list of frames, the stream that it carries, and what its time is held to.
struct List<'a> {
    title: &'a str,
    frames: &'a [u8],
    stream: &'a [u8],
    held_to: HeldTo,
}

#[derive(Clone, Copy)]
enum HeldTo {
    Nothing,
    Floor,
    Design,
}

pub(crate) fn time(tally: &mut Tally, table: &mut Table, captures: &[Capture]) {
    println!("join: the floor is two buffers of {LIMIT} bytes cleared and the hello copied once; a heap is a design that");
    println!("quinn has published, built anew in compare/src/join/assembler.rs, which clears nothing and has no marks");
    match captures.iter().find(|capture| capture.name == CHROME) {
        Some(Capture { hello, .. }) => time_cuts(tally, table, hello),
        None => println!("join: {CHROME} is not among the captures, so no hello is cut"),
    }
    for capture in captures {
        let held_to = match capture.resent {
            true => HeldTo::Nothing,
            false => HeldTo::Floor,
        };
        let list = List {
            title: capture.name.trim_end_matches(".frames.bin"),
            frames: &capture.frames,
            stream: &capture.hello,
            held_to,
        };
        time_one(tally, table, &list);
    }
    time_worst(tally, table);
}

/// One hello cut in three ways.
fn time_cuts(tally: &mut Tally, table: &mut Table, hello: &[u8]) {
    let lists = [
        ("a Chrome hello, 1 frame", cut(hello, 1), HeldTo::Floor),
        ("a Chrome hello, 2 frames", cut(hello, 2), HeldTo::Floor),
        (
            "a Chrome hello, 64 shuffled frames with overlap (the Rust's bytes are wrong)",
            overlapping(hello),
            HeldTo::Design,
        ),
    ];
    for (title, frames, held_to) in lists {
        let list = List {
            title,
            frames: &frames,
            stream: hello,
            held_to,
        };
        time_one(tally, table, &list);
    }
}

/// Frames of one byte, as many as there may be, and a list with no frame at all.
fn time_worst(tally: &mut Tally, table: &mut Table) {
    let mut random = Random::new(SEED);
    let stream = random.bytes(LIMIT);
    let mut frames: Vec<Vec<u8>> = (0..LIMIT)
        .map(|place| crypto(place, &stream[place..=place]))
        .collect();
    let in_order = frames.concat();
    frames.reverse();
    let reversed = frames.concat();
    random.shuffle(&mut frames);
    let shuffled = frames.concat();
    let padding = vec![0; PADDED];
    for (title, frames, stream) in [
        ("16384 frames of one byte, in order", &in_order, &stream[..]),
        ("16384 frames of one byte, reversed", &reversed, &stream),
        ("16384 frames of one byte, shuffled", &shuffled, &stream),
        ("1200 bytes of PADDING", &padding, &[]),
    ] {
        let list = List {
            title,
            frames,
            stream,
            held_to: HeldTo::Nothing,
        };
        time_one(tally, table, &list);
    }
}

/// What is timed must be right.
fn time_one(tally: &mut Tally, table: &mut Table, list: &List) {
    let question = Question::new(list.frames.to_vec());
    let known = Answer::joined(list.stream, question.room);
    tally.expect(&question, "ours", &known, &question.by_ours());
    let mut out = vec![0; LIMIT];
    let end = assembler::join(list.frames, &mut out);
    let [known, given] = [list.stream, &out[..end]].map(|stream| Stream(Some(stream.to_vec())));
    tally.expect(&question, "a heap", &known, &given);

    let rounds = run(list);
    let [floor, heap] = [0, 3].map(|way| (rounds.time(way), rounds.ratio(1, way)));
    let to = |(time, ratio)| format!("{} ns, ratio to it {}", shown(time), part(ratio));
    println!(
        "join, {}: floor {}; a heap {}",
        list.title,
        to(floor),
        to(heap)
    );
    let aim = match list.held_to {
        HeldTo::Nothing => Aim::Floor(None, floor.0, floor.1),
        HeldTo::Floor => Aim::Floor(Some(AIM), floor.0, floor.1),
        HeldTo::Design => Aim::Design(heap.0, heap.1),
    };
    table.add("join", list.title, rounds.timed(1, 2), aim);
}

/// The floor, ours, the Rust, and the published design.
fn run(list: &List) -> Rounds<4> {
    let (frames, stream) = (list.frames, list.stream);
    let [mut out, mut marks] = [(); 2].map(|()| vec![0; LIMIT]);
    let [mut clear, mut also] = [(); 2].map(|()| vec![0; LIMIT]);
    let mut one = vec![0; LIMIT];
    let mut floor = || {
        black_box(&mut clear).fill(0);
        black_box(&mut also).fill(0);
        let stream = black_box(stream);
        black_box(&mut clear)[..stream.len()].copy_from_slice(stream);
        stream.len() as u64
    };
    let mut ours = || ours::join(black_box(frames), &mut out, &mut marks).unwrap_or(0);
    let mut rust = || black_box(reassemble_crypto(black_box(frames))).len() as u64;
    let mut heap = || assembler::join(black_box(frames), black_box(&mut one)) as u64;
    Rounds::run(1, [&mut floor, &mut ours, &mut rust, &mut heap])
}

/// Frames of about equal length, in order.
fn cut(hello: &[u8], count: usize) -> Vec<u8> {
    let size = hello.len().div_ceil(count);
    let frame = |(place, data): (usize, &[u8])| crypto(place * size, data);
    hello.chunks(size).enumerate().flat_map(frame).collect()
}

fn overlapping(hello: &[u8]) -> Vec<u8> {
    let size = hello.len().div_ceil(MANY);
    let frame = |place: usize| {
        let start = place.saturating_sub(OVERLAP);
        crypto(start, &hello[start..hello.len().min(place + size)])
    };
    let mut frames: Vec<Vec<u8>> = (0..hello.len()).step_by(size).map(frame).collect();
    Random::new(SEED).shuffle(&mut frames);
    frames.concat()
}
