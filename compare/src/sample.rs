//! The sample of the original's answers that the gate replays where there is no Rust: a script, and the answers.

use crate::sides::Ask;
use std::fs;
use std::io::{Error, ErrorKind, Result};
use std::path::Path;
use std::process::ExitCode;

pub(crate) struct Section {
    pub(crate) title: String,
    /// Each question with its answer.
    pub(crate) lines: Vec<(String, String)>,
}

/// Questions, each with the original's answer.
pub(crate) fn section<Q: Ask>(title: &str, questions: impl IntoIterator<Item = Q>) -> Section {
    let answered = |question: Q| (question.to_string(), question.by_rust().to_string());
    Section {
        title: title.to_string(),
        lines: questions.into_iter().map(answered).collect(),
    }
}

const SCRIPT: &str = "data/replay.script";

/// The line of the file `stdout` after which the answers stand; the program of the crate writes it.
const BEGIN: &str = "\n# replay.script: what the original Rust answered\n";

/// Writes the script into `folder`, the crate that runs it, and the answers over the end of its file `stdout`. `origin` is the
/// original's repository and commit.
pub(crate) fn write(folder: &str, origin: &str, sections: &[Section]) -> ExitCode {
    let (script, answers) = texts(origin, sections);
    match write_both(Path::new(folder), &script, &answers) {
        Ok(()) => {
            let count: usize = sections.iter().map(|section| section.lines.len()).sum();
            println!("{folder}/{SCRIPT} and the end of {folder}/stdout: {count} questions and answers");
            ExitCode::SUCCESS
        }
        Err(error) => {
            eprintln!("{folder}: {error}");
            ExitCode::FAILURE
        }
    }
}

fn texts(origin: &str, sections: &[Section]) -> (String, String) {
    let mut script = format!(
        "# Made by compare/run --sample; the answers at the end of the file stdout are the original Rust's, built unchanged from\n\
         # {origin}, folder boringtun/src/noise/quic.\n\
         # A panic of the Rust's size and write is written as refused 1, None of its read as refused 3, a panic of its\n\
         # split_records as refused 27. An output and marks are what document 01 makes of the stream that the Rust joins.\n\
         # The Rust gives no ranges: those in its reports are the driver's.\n"
    );
    let mut answers = String::new();
    for section in sections {
        script += &format!("# {}\n", section.title);
        for (question, answer) in &section.lines {
            script += &format!("{question}\n");
            answers += &format!("{answer}\n");
        }
    }
    (script, answers)
}

fn write_both(folder: &Path, script: &str, answers: &str) -> Result<()> {
    let stdout = folder.join("stdout");
    let old = fs::read_to_string(&stdout)?;
    let Some(at) = old.find(BEGIN) else {
        let why = format!("the file stdout lacks the line {BEGIN:?}");
        return Err(Error::new(ErrorKind::InvalidData, why));
    };
    fs::write(folder.join(SCRIPT), script)?;
    fs::write(stdout, old[..at].to_string() + BEGIN + answers)
}
