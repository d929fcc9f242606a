//! Runs lists of calls through this implementation and through the first
//! one's replay program, and compares the lines.

mod branchings;
mod coverage;
mod curves;
mod damage;
#[cfg(test)]
mod exact;
mod heavy;
mod lists;
mod random;
mod studies;
mod timing;

use coverage::Seen;
use std::io::{ErrorKind, Read, Write};
use std::path::{Path, PathBuf};
use std::process::{Command, ExitCode, Stdio};
use std::sync::Mutex;
use std::sync::atomic::{AtomicU64, Ordering};
use std::time::Instant;

const DEFAULT_COUNT: u64 = 100_000;
const DEFAULT_SEED: u64 = 4745;
const THREADS: usize = 2;

/// A pipe takes this much without a reader.
const PIPE: usize = 60_000;

/// A longer list of calls is written to this file instead of shown.
const LONGEST_SHOWN: usize = 200_000;
const DIFFERENCE: &str = "target/difference.calls";

const USAGE: &str = "usage: compare [--replay PATH] [COUNT] [SEED]";

struct Options {
    replay: PathBuf,
    count: u64,
    seed: u64,
}

fn options() -> Result<Options, String> {
    let mut options = Options {
        replay: PathBuf::from("crates/replay/out/replay"),
        count: DEFAULT_COUNT,
        seed: DEFAULT_SEED,
    };
    let mut words = std::env::args().skip(1);
    let mut numbers = Vec::new();
    while let Some(word) = words.next() {
        if word == "--replay" {
            options.replay = words.next().ok_or(USAGE)?.into();
        } else {
            numbers.push(word.parse::<u64>().map_err(|_| USAGE)?);
        }
    }
    if numbers.len() > 2 {
        return Err(USAGE.into());
    }
    if let Some(&count) = numbers.first() {
        options.count = count;
    }
    if let Some(&seed) = numbers.get(1) {
        options.seed = seed;
    }
    if !options.replay.is_file() {
        let path = options.replay.display();
        return Err(format!("compare: there is no replay program at {path}"));
    }
    Ok(options)
}

/// What the runs so far have shown.
#[derive(Default)]
struct Tally {
    agreed: u64,
    differed: u64,
    /// Answers by number, 0 to 10, in lists that agreed.
    numbers: [u64; 11],
    /// Lists in which each number was answered.
    lists: [u64; 11],
    /// Effects and branchings by what the rules say of them, in lists that agreed,
    /// and the lists that have them.
    seen: Seen,
    seen_lists: Seen,
    bad_calls: u64,
    calls: u64,
    first: Option<Difference>,
}

struct Difference {
    index: u64,
    name: String,
    calls: Vec<u8>,
    first: String,
    second: String,
}

/// The replay program's output for a list of calls.
fn run(replay: &Path, calls: &[u8]) -> Result<String, String> {
    let failed = |error: std::io::Error| format!("replay: {error}");
    let mut child = Command::new(replay)
        .stdin(Stdio::piped())
        .stdout(Stdio::piped())
        .spawn()
        .map_err(failed)?;
    let input = child.stdin.take().ok_or("replay: no input")?;
    let mut output = child.stdout.take().ok_or("replay: no output")?;
    let mut text = Vec::new();
    // The program may end before it has read everything.
    let write = move || {
        let mut input = input;
        match input.write_all(calls) {
            Err(error) if error.kind() != ErrorKind::BrokenPipe => Err(error),
            _ => Ok(()),
        }
    };
    if calls.len() <= PIPE {
        write().map_err(failed)?;
        output.read_to_end(&mut text).map_err(failed)?;
    } else {
        std::thread::scope(|scope| {
            let writer = scope.spawn(write);
            output.read_to_end(&mut text).map_err(failed)?;
            writer.join().map_err(|_| "replay: input")?.map_err(failed)
        })?;
    }
    let status = child.wait().map_err(failed)?;
    let mut text = String::from_utf8_lossy(&text).into_owned();
    if !status.success() {
        text += &format!("({status})\n");
    }
    Ok(text)
}

/// Counts the answers of a list by number.
fn count_answers(text: &str, tally: &mut Tally) {
    let before = tally.numbers;
    for line in text.lines() {
        if line == "bad call" {
            tally.bad_calls += 1;
            continue;
        }
        let number = line.split(' ').nth(1).and_then(|word| word.parse().ok());
        if let Some(count) = number.and_then(|n: usize| tally.numbers.get_mut(n)) {
            *count += 1;
            tally.calls += 1;
        }
    }
    for (number, lists) in tally.lists.iter_mut().enumerate() {
        *lists += u64::from(tally.numbers[number] > before[number]);
    }
}

/// Runs one list through both and notes the result.
fn compare(
    options: &Options,
    index: u64,
    name: &str,
    calls: Vec<u8>,
    tally: &Mutex<Tally>,
) -> Result<(), String> {
    let second = second_desk::replay::replay(&calls);
    let first = run(&options.replay, &calls)?;
    let seen = coverage::count(&calls);
    let mut tally = tally.lock().map_err(|_| "a thread failed")?;
    if first == second {
        tally.agreed += 1;
        count_answers(&second, &mut tally);
        tally.seen.add(&seen, |count| count);
        tally.seen_lists.add(&seen, |count| count.min(1));
        return Ok(());
    }
    tally.differed += 1;
    if tally.first.as_ref().is_none_or(|known| index < known.index) {
        tally.first = Some(Difference {
            index,
            name: name.into(),
            calls,
            first,
            second,
        });
    }
    Ok(())
}

/// Takes lists until none is left. The large studies come last.
fn work(options: &Options, next: &AtomicU64, tally: &Mutex<Tally>) -> Result<(), String> {
    loop {
        let index = next.fetch_add(1, Ordering::Relaxed);
        if index < options.count {
            let calls = lists::list(options.seed, index);
            compare(options, index, "small study", calls, tally)?;
        } else if index < options.count + heavy::COUNT {
            let heavy = heavy::heavy(options.seed, index - options.count);
            compare(options, index, heavy.name, heavy.calls, tally)?;
        } else {
            return Ok(());
        }
    }
}

fn show(difference: &Difference) {
    println!(
        "first difference: list {}, {}",
        difference.index, difference.name
    );
    if difference.calls.len() <= LONGEST_SHOWN {
        let bytes = difference.calls.iter();
        let hex: String = bytes.map(|byte| format!("{byte:02x}")).collect();
        println!("calls: {hex}");
    } else {
        let written = std::fs::write(DIFFERENCE, &difference.calls);
        let length = difference.calls.len();
        match written {
            Ok(()) => println!("calls: {length} bytes, written to {DIFFERENCE}"),
            Err(error) => println!("calls: {length} bytes; {DIFFERENCE}: {error}"),
        }
    }
    println!("--- first implementation\n{}", difference.first);
    println!("--- second implementation\n{}", difference.second);
    let pairs = difference.first.lines().zip(difference.second.lines());
    if let Some((at, (first, second))) = pairs.enumerate().find(|(_, (a, b))| a != b) {
        println!("--- line {} differs first\n{first}\n{second}", at + 1);
    }
}

/// Prints how often each case came up. Gives whether all did.
fn cases(seen: &Seen, lists_with: &Seen) -> bool {
    let mut all = true;
    for (group, lists) in seen.groups().iter().zip(lists_with.groups()) {
        let heading = format!("{}:", group.heading);
        for (i, words) in group.names.iter().enumerate() {
            let (count, lists) = (group.counts[i], lists.counts[i]);
            println!("{heading:22}{count:9} in {lists:7} lists  {words}");
        }
        if group.counts.contains(&0) {
            println!("{heading} one of these was never seen");
            all = false;
        }
    }
    for (words, i) in coverage::CHANGED {
        let (count, lists) = (seen.entries[i], lists_with.entries[i]);
        println!("chance of damage:     {count:9} in {lists:7} lists  {words}");
    }
    for set in seen.sets() {
        let met = set.counts.iter().filter(|&&count| count > 0).count();
        let length = set.counts.len();
        println!("{}: {met} of {length} {}", set.heading, set.happened);
        all &= met == length;
    }
    all
}

fn summary(options: &Options, tally: &Tally, seconds: f64) -> bool {
    let lists = heavy::COUNT + options.count;
    println!(
        "seed {}: {} lists of calls ({} of large studies), {} calls, {seconds:.0} s",
        options.seed,
        lists,
        heavy::COUNT,
        tally.calls
    );
    println!("agreed {} differed {}", tally.agreed, tally.differed);
    println!("bad calls {}", tally.bad_calls);
    for (number, count) in tally.numbers.iter().enumerate() {
        let words = second_desk::record::words(number as u8);
        let lists = tally.lists[number];
        println!("answer {number:2}: {count:9} in {lists:7} lists  {words}");
    }
    let all_cases = cases(&tally.seen, &tally.seen_lists);
    if let Some(difference) = &tally.first {
        show(difference);
    }
    let unanswered = tally.numbers.contains(&0);
    if unanswered {
        println!("a number from 0 to 10 was never answered");
    }
    !unanswered && all_cases && tally.agreed == lists
}

fn main() -> ExitCode {
    let options = match options() {
        Ok(options) => options,
        Err(error) => {
            eprintln!("{error}");
            return ExitCode::from(2);
        }
    };
    let tally = Mutex::new(Tally::default());
    let next = AtomicU64::new(0);
    let start = Instant::now();
    let failed = std::thread::scope(|scope| {
        let work = || work(&options, &next, &tally);
        let workers: Vec<_> = (0..THREADS).map(|_| scope.spawn(work)).collect();
        workers
            .into_iter()
            .filter_map(|worker| match worker.join() {
                Ok(result) => result.err(),
                Err(_) => Some("a thread failed".into()),
            })
            .last()
    });
    if let Some(error) = failed {
        eprintln!("compare: {error}");
        return ExitCode::FAILURE;
    }
    let Ok(tally) = tally.into_inner() else {
        return ExitCode::FAILURE;
    };
    if summary(&options, &tally, start.elapsed().as_secs_f64()) {
        ExitCode::SUCCESS
    } else {
        ExitCode::FAILURE
    }
}
