//! The times, line by line as they are taken and in one table at the end, in Markdown.

use crate::timing::Timed;

#[derive(Default)]
pub(crate) struct Table(Vec<Row>);

struct Row {
    call: String,
    input: String,
    timed: Timed,
    aim: Aim,
}

/// What a time is to stay within.
#[derive(Clone, Copy)]
pub(crate) enum Aim {
    None,
    /// So many times the Rust's time.
    Rust(f64),
    /// So many times the floor, whose time and the ratio to it follow; or no aim, and these two.
    Floor(Option<f64>, f64, f64),
    /// Less than the published design, whose time and the ratio to it follow.
    Design(f64, f64),
}

impl Table {
    /// Prints a line and keeps it.
    pub(crate) fn add(&mut self, call: &str, input: &str, timed: Timed, aim: Aim) {
        let Timed { ours, rust, ratio } = timed;
        let (ours, rust) = (shown(ours), shown(rust));
        let aimed = match aim.shown(ratio) {
            Some((_, "")) | None => String::new(),
            Some((aim, met)) => format!(" (aim {aim}: {met})"),
        };
        let ratio = part(ratio);
        println!("{call}, {input}: ours {ours} ns, Rust {rust} ns, ratio {ratio}{aimed}");
        self.0.push(Row {
            call: call.to_string(),
            input: input.to_string(),
            timed,
            aim,
        });
    }

    pub(crate) fn print(&self) {
        println!("\n| call | input | ours, ns | Rust, ns | ratio | aim | met |");
        println!("|---|---|---|---|---|---|---|");
        for Row {
            call,
            input,
            timed,
            aim,
        } in &self.0
        {
            let Timed { ours, rust, ratio } = *timed;
            let (aim, met) = aim.shown(ratio).unwrap_or_default();
            let (ours, rust, ratio) = (shown(ours), shown(rust), part(ratio));
            println!("| {call} | {input} | {ours} | {rust} | {ratio} | {aim} | {met} |");
        }
    }
}

impl Aim {
    /// The aim, and whether it is met where ours takes so many times the Rust's time.
    fn shown(self, ratio: f64) -> Option<(String, &'static str)> {
        let (text, met) = match self {
            Aim::None => return None,
            Aim::Rust(most) => (format!("{most:.2}"), ratio <= most),
            Aim::Floor(most, floor, to_floor) => {
                let floor = format!("floor, {} ns: {}", shown(floor), part(to_floor));
                match most {
                    None => return Some((floor, "")),
                    Some(most) => (format!("{most:.2} of the {floor}"), to_floor <= most),
                }
            }
            Aim::Design(time, to_design) => (
                format!("less than a heap's {} ns: {}", shown(time), part(to_design)),
                to_design < 1.0,
            ),
        };
        Some((text, if met { "met" } else { "not met" }))
    }
}

/// A ratio, to three digits or so.
pub(crate) fn part(ratio: f64) -> String {
    match ratio {
        ..1.0 => format!("{ratio:.3}"),
        1.0..100.0 => format!("{ratio:.2}"),
        _ => format!("{ratio:.0}"),
    }
}

/// Nanoseconds, a few of them with a digit more.
pub(crate) fn shown(nanoseconds: f64) -> String {
    match nanoseconds < 20.0 {
        true => format!("{nanoseconds:.1}"),
        false => format!("{nanoseconds:.0}"),
    }
}
