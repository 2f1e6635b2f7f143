//! Real lists of frames. Ours must join each to its hello, and so must the original where nothing was sent again.

use super::question::{Answer, Question};
use super::stream::Stream;
use crate::captures::Capture;
use crate::sides::Ask;
use crate::tally::Tally;

pub(super) fn check(tally: &mut Tally, captures: &[Capture]) {
    let mut others = Vec::new();
    for Capture {
        name,
        frames,
        hello,
        resent,
    } in captures
    {
        let question = Question::new(frames.clone());
        let known = Answer::joined(hello, question.room);
        tally.expect(&question, "ours", &known, &question.by_ours());
        let rust = Stream::by_rust(frames);
        if *resent {
            others.push(format!("{name} {} for {}", length(&rust), hello.len()));
        } else {
            tally.expect(&question, "Rust", &Stream(Some(hello.clone())), &rust);
        }
    }
    let once = captures.len() - others.len();
    println!("captures: {once} lists of frames for both sides to join to the hello");
    println!("captures, frames sent again, for ours to join; the Rust's bytes for the hello's:");
    println!("  {}", others.join(", "));
}

fn length(Stream(stream): &Stream) -> String {
    stream
        .as_ref()
        .map_or("a panic".to_string(), |stream| stream.len().to_string())
}
