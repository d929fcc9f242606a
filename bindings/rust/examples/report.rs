//! Prints the report of a study.
//!
//!     report [--pieces LENGTH] [FILE]
//!
//! Without FILE, or with `-`, the study comes from standard input. It is read
//! in pieces of LENGTH bytes, 1 to 1048576; the text is the same for each.
//! Status 0 reported, 1 refused, 2 not read, not written or wrongly called.

use std::env;
use std::ffi::OsString;
use std::fs::File;
use std::io::{self, Read, Write};
use std::process::ExitCode;

use riskdesk::{Answer, Standing, Study};

const MOST_LENGTH: usize = 1 << 20;

/// Why there is no report.
enum Failure {
    Refused(Answer),
    /// What could not be read, and why.
    NotRead(String, io::Error),
    Usage,
}

struct Options {
    length: usize,
    file: Option<OsString>,
}

fn options() -> Result<Options, Failure> {
    let mut words = env::args_os().skip(1).peekable();
    let mut length = 65_536;
    if words.next_if(|word| word == "--pieces").is_some() {
        let word = words.next().and_then(|word| word.into_string().ok());
        length = word.and_then(|word| word.parse().ok()).unwrap_or(0);
    }
    let file = words.next();
    let option = |file: &OsString| file.as_encoded_bytes().starts_with(b"--");
    let valid = (1..=MOST_LENGTH).contains(&length) && !file.as_ref().is_some_and(option);
    if !valid || words.next().is_some() {
        return Err(Failure::Usage);
    }
    let file = file.filter(|file| file != "-");
    Ok(Options { length, file })
}

/// Reads to the end of the input or to the first refusal.
fn read(mut input: impl Read, name: &str, length: usize) -> Result<Study, Failure> {
    let mut study = Study::fresh();
    let mut piece = Vec::new();
    loop {
        piece.clear();
        let got = input.by_ref().take(length as u64).read_to_end(&mut piece);
        let got = got.map_err(|error| Failure::NotRead(name.into(), error))?;
        if got == 0 {
            return Ok(study);
        }
        study.feed(&piece).result().map_err(Failure::Refused)?;
    }
}

fn text(study: &Study) -> Result<String, Answer> {
    let totals = study.totals()?;
    let (number, records, leaks) = (totals.study, totals.records, totals.leaks);
    let mut text = format!("study {number} records {records} leaks {leaks}\n");
    for (kind, total) in totals.kinds.iter().enumerate() {
        text += &format!("kind {kind} {total}\n");
    }
    for number in 0..totals.targets {
        let target = study.target(number)?;
        text += &format!(
            "target {number} sum {} margin {}",
            target.sum, target.margin
        );
        text += &match target.standing {
            Standing::People { grade } => format!(" grade {grade}\n"),
            Standing::Equipment { listed: true, .. } => " domino\n".into(),
            Standing::Equipment { listed: false, .. } => "\n".into(),
        };
    }
    text += &format!("unjudged {}\n", totals.unjudged);
    Ok(text)
}

fn report() -> Result<String, Failure> {
    let options = options()?;
    let study = match &options.file {
        None => read(io::stdin(), "standard input", options.length)?,
        Some(file) => {
            let name = file.to_string_lossy();
            let opened = File::open(file);
            let input = opened.map_err(|error| Failure::NotRead(name.to_string(), error))?;
            read(input, &name, options.length)?
        }
    };
    text(&study).map_err(Failure::Refused)
}

fn main() -> ExitCode {
    let (text, status) = match report() {
        Ok(text) => (text, 0),
        Err(Failure::Refused(Answer { number, place })) => {
            (format!("refused {number} at {place}\n"), 1)
        }
        Err(Failure::NotRead(name, error)) => {
            eprintln!("report: {name}: {error}");
            return ExitCode::from(2);
        }
        Err(Failure::Usage) => {
            eprintln!("usage: report [--pieces LENGTH] [FILE]");
            eprintln!(
                "LENGTH: 1 to {MOST_LENGTH} bytes; without FILE, or with -, standard input is read"
            );
            return ExitCode::from(2);
        }
    };
    let mut output = io::stdout().lock();
    if let Err(error) = output
        .write_all(text.as_bytes())
        .and_then(|()| output.flush())
    {
        eprintln!("report: standard output: {error}");
        return ExitCode::from(2);
    }
    ExitCode::from(status)
}
