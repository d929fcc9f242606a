//! Turns a study's text form into bytes, and shows the bytes of any study.

use std::ffi::{OsStr, OsString};
use std::fs::{File, Metadata};
use std::io::{self, Read};
use std::path::Path;
use std::process::ExitCode;
use study_text::output::{self, Output};
use study_text::{Limits, to_bytes, to_text};

const USAGE: &str = "usage: study bytes [--any] IN [OUT]
       study show [--all] IN
       study --help | --version";

const HELP: &str = "
bytes   makes the bytes of a study from its text. OUT is written whole or not
        at all, and what was there stays where the text has an error; without
        OUT, or with -, the bytes go to standard output. The proved desk is not
        asked and need not be built.
        --any   takes any number that fits its bytes, also one outside the
                bounds of the rules, which the desk refuses
show    prints the bytes of a study as text, each record with its place. The
        record that the desk refuses is marked with number, place and reason;
        three lines more are shown. The answers are those of the proved desk:
        the first run from a repository proves and builds it, which takes some
        minutes.
        --all   shows everything after a refusal too

IN named - is standard input. -- ends the options.

Status: 0 done, and with show the study is good; 1 the desk refuses the study,
or its report; 2 not read, not written, an error in the text, or wrongly called.

A text has one record a line, and # starts a comment:
  study NUMBER
  target NUMBER CLASS SETTING VOLUME    people, atmospheric, pressurised, tower,
                                        pump, pipe; individual, outdoors,
                                        indoors, equipment 0; m³
  leak SCENARIO FREQUENCY               in units of 10^-13 per year
  branching CHANCE                      of the first branch, in millionths
  branching curve CURVE RATE            the chance of ignition by a curve, 1 to 13,
                                        at a release rate, as 500kg/s, 0.35kg/s or
                                        12.5g/s: a branching of kind 10
  outcome KIND EFFECTS                  no-effect, pool-fire, jet-fire, fireball,
                                        flash-fire, explosion; effects that follow
  effect TARGET INTENSITY DURATION      W/m², Pa, or 1 inside the lower flammable
                                        limit; seconds, 0 but for fires. As kind 8:
                                        20s in seconds, 200t in tenths
  closing                               its count and sum are filled in";

const STANDARD_OUTPUT: &str = "standard output";

/// What a run has come to.
enum Ended {
    Done,
    #[cfg(feature = "desk")]
    Refused,
}

/// A wrong call has no message: the usage is printed.
struct Failure(Option<String>);

impl Failure {
    fn of(name: &OsStr, error: impl std::fmt::Display) -> Failure {
        Failure(Some(format!("{}: {error}", name.display())))
    }

    /// Of the file that is read.
    fn of_input(name: &OsStr, error: impl std::fmt::Display) -> Failure {
        match name.as_encoded_bytes() {
            b"-" => Failure::of("standard input".as_ref(), error),
            _ => Failure::of(name, error),
        }
    }
}

/// The words of a call: the options given, and the names.
struct Words {
    options: Vec<OsString>,
    names: Vec<OsString>,
}

fn words(arguments: &[OsString]) -> Words {
    let end = arguments.iter().position(|word| word == "--");
    let (front, rest) = arguments.split_at(end.unwrap_or(arguments.len()));
    let is_option = |word: &&OsString| word.as_encoded_bytes().starts_with(b"-") && *word != "-";
    let (options, names): (Vec<_>, Vec<_>) = front.iter().partition(is_option);
    Words {
        options: options.into_iter().cloned().collect(),
        names: names
            .into_iter()
            .chain(rest.iter().skip(1))
            .cloned()
            .collect(),
    }
}

/// A whole file, or standard input for `-`.
fn read(name: &OsStr) -> Result<(Vec<u8>, Metadata), Failure> {
    let whole = || -> io::Result<_> {
        let mut bytes = Vec::new();
        if name == "-" {
            let about = output::open_file(io::stdin())?;
            io::stdin().read_to_end(&mut bytes)?;
            return Ok((bytes, about));
        }
        let mut file = File::open(name)?;
        file.read_to_end(&mut bytes)?;
        Ok((bytes, file.metadata()?))
    };
    whole().map_err(|error| Failure::of_input(name, error))
}

/// Standard output that nobody reads any more is no error.
fn unless_closed(written: io::Result<()>) -> io::Result<()> {
    match written {
        Err(error) if error.kind() == io::ErrorKind::BrokenPipe => Ok(()),
        written => written,
    }
}

fn bytes(limits: Limits, name: &OsStr, out: &OsStr) -> Result<Ended, Failure> {
    let output = Output::named(Path::new(out)).map_err(|error| Failure::of(out, error))?;
    let (text, about) = read(name)?;
    if output.is(&about) {
        let message = "the text itself is named as the output, and would be lost";
        return Err(Failure::of_input(name, message));
    }
    let study = to_text(&text).and_then(|text| to_bytes(text, limits));
    let study = study.map_err(|error| Failure::of_input(name, error))?;
    let (written, out) = match output {
        Output::Standard => (
            unless_closed(output.write(&study)),
            STANDARD_OUTPUT.as_ref(),
        ),
        _ => (output.write(&study), out),
    };
    written.map_err(|error| Failure::of(out, format!("not written: {error}")))?;
    Ok(Ended::Done)
}

#[cfg(feature = "desk")]
fn show(extent: study_text::Extent, name: &OsStr) -> Result<Ended, Failure> {
    use std::io::Write;
    let (study, _) = read(name)?;
    let mut out = io::BufWriter::new(io::stdout().lock());
    let answer = study_text::verdict(&study);
    let written = study_text::show(&study, extent, &mut out).and_then(|()| out.flush());
    unless_closed(written).map_err(|error| Failure::of(STANDARD_OUTPUT.as_ref(), error))?;
    if (answer.number, answer.place) == (1, 0) && study_text::looks_like_text(&study) {
        let name = name.display();
        eprintln!("study: {name}: this is text: `study bytes {name} OUT` makes a study of it");
    }
    Ok(match answer.number {
        0 => Ended::Done,
        _ => Ended::Refused,
    })
}

#[cfg(feature = "desk")]
fn call_show(all: bool, name: &OsStr) -> Result<Ended, Failure> {
    use study_text::Extent;
    show(if all { Extent::All } else { Extent::Some }, name)
}

#[cfg(not(feature = "desk"))]
fn call_show(_: bool, _: &OsStr) -> Result<Ended, Failure> {
    let message = "show: this program was built without the desk, which show asks";
    Err(Failure(Some(message.into())))
}

fn print(text: &str) -> Result<Ended, Failure> {
    let written = Output::Standard.write(format!("{text}\n").as_bytes());
    unless_closed(written).map_err(|error| Failure::of(STANDARD_OUTPUT.as_ref(), error))?;
    Ok(Ended::Done)
}

fn run(arguments: &[OsString]) -> Result<Ended, Failure> {
    let Words { options, names } = words(arguments);
    let names: Vec<&OsStr> = names.iter().map(OsString::as_os_str).collect();
    let options: Vec<&OsStr> = options.iter().map(OsString::as_os_str).collect();
    if options
        .iter()
        .any(|option| *option == "--help" || *option == "-h")
    {
        return print(&format!("{USAGE}\n{HELP}"));
    }
    let given = |option: &str| match options.iter().find(|given| **given != option) {
        None => Ok(!options.is_empty()),
        Some(other) => {
            let message = format!("{}: no such option\n{USAGE}", other.display());
            Err(Failure(Some(message)))
        }
    };
    match names[..] {
        [] if given("--version")? => print(concat!("study ", env!("CARGO_PKG_VERSION"))),
        [verb, name, ref out @ ..] if verb == "bytes" && out.len() < 2 => {
            let limits = if given("--any")? {
                Limits::Bytes
            } else {
                Limits::Rules
            };
            bytes(limits, name, out.first().copied().unwrap_or("-".as_ref()))
        }
        [verb, name] if verb == "show" => call_show(given("--all")?, name),
        _ => Err(Failure(None)),
    }
}

fn main() -> ExitCode {
    let arguments: Vec<OsString> = std::env::args_os().skip(1).collect();
    match run(&arguments) {
        Ok(Ended::Done) => ExitCode::SUCCESS,
        #[cfg(feature = "desk")]
        Ok(Ended::Refused) => ExitCode::from(1),
        Err(Failure(message)) => {
            match message {
                Some(message) => eprintln!("study: {message}"),
                None => eprintln!("{USAGE}"),
            }
            ExitCode::from(2)
        }
    }
}
