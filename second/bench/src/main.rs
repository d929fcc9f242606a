//! Times the desk, the second implementation and a straightforward reader on
//! the same studies in the same run.

#[cfg(not(any(feature = "desk", feature = "stub")))]
compile_error!(
    "give --features desk (tools/bench does), or --features stub to work without the archive"
);

mod check;
mod plain;
mod readers;
mod studies;

use std::hint::black_box;
use std::time::Instant;

use readers::{Desk, read};
use studies::Input;

const SEED: u64 = 4745;
const RUNS: usize = 7;
const SIZES: [usize; 3] = [65_536, 16, 1];

/// One plain pass: a checksum that needs each byte after the one before.
#[inline(never)]
fn plain_pass(bytes: &[u8]) -> u64 {
    let add = |sum: u64, &byte: &u8| sum.rotate_left(1).wrapping_add(u64::from(byte));
    bytes.iter().fold(0, add)
}

fn seconds<T>(work: impl FnOnce() -> T) -> (f64, T) {
    let start = Instant::now();
    let result = black_box(work());
    (start.elapsed().as_secs_f64(), result)
}

fn median(times: &mut [f64]) -> f64 {
    times.sort_by(f64::total_cmp);
    times[times.len() / 2]
}

fn measure(input: &Input, size: usize) {
    let bytes = black_box(&input.bytes[..]);
    let size = black_box(size);
    let mut times = [const { Vec::new() }; 4];
    for run in 0..RUNS {
        let target = run as u16 % input.targets;
        let (desk_time, desk) = seconds(|| read::<Desk>(bytes, size, target));
        let (plain_time, plain) = seconds(|| read::<plain::Reader>(bytes, size, target));
        let (second_time, second) = seconds(|| read::<second_desk::Study>(bytes, size, target));
        let (pass_time, _) = seconds(|| plain_pass(bytes));
        assert!(second.is_ok(), "a timed study is refused");
        assert_eq!(desk, second, "reports in a timed run");
        assert_eq!(plain, second, "reports in a timed run");
        times[0].push(desk_time);
        times[1].push(plain_time);
        times[2].push(second_time);
        times[3].push(pass_time);
    }
    let [desk, plain, second, pass] = times.map(|mut times| median(&mut times));
    let rate = |time: f64| bytes.len() as f64 / 1e6 / time;
    println!(
        "{:<16} {:>6} {:>8.1} {:>11.1} {:>8.1} {:>8.1} {:>18.2} {:>12.2} {:>12.2}",
        input.name,
        size,
        rate(desk),
        rate(plain),
        rate(second),
        rate(pass),
        desk / plain,
        desk / second,
        desk / pass
    );
}

fn print_heading() {
    println!();
    println!("Median of {RUNS} runs each, the three readers and the pass taking turns. The first");
    println!("four figures are MB/s (10^6 bytes), the last three ratios of times.");
    println!(
        "Rattle: the desk, by its library. Rust: the second implementation, written for speed."
    );
    println!("Plain Rust: a straightforward reader of the same rules, second/bench/src/plain.rs.");
    println!("Pass: sum = (sum rotated left by 1) + byte, one byte after the other.");
    println!("Each reader has a fresh study that it is fed in place, and in the end is asked for");
    println!("the totals and one target. Between runs no buffer is cleared: the study's bytes");
    println!("stay as they are in memory and in the caches.");
    println!();
    println!(
        "{:<16} {:>6} {:>8} {:>11} {:>8} {:>8} {:>18} {:>12} {:>12}",
        "study",
        "pieces",
        "Rattle",
        "plain Rust",
        "Rust",
        "pass",
        "Rattle/plain Rust",
        "Rattle/Rust",
        "Rattle/pass"
    );
}

fn main() {
    if cfg!(not(feature = "desk")) {
        println!("STUB: the desk is replaced by the second implementation");
    }
    let inputs = studies::inputs(SEED);
    if !inputs.iter().all(|input| check::check(input, &SIZES)) {
        println!("the readers differ or all sums are 0: nothing was timed");
        std::process::exit(1);
    }
    print_heading();
    for input in &inputs {
        for size in SIZES {
            measure(input, size);
        }
    }
    println!();
    println!("state of the Rattle study: {} bytes", size_of::<Desk>());
    println!(
        "state of the Rust study: {} bytes",
        size_of::<second_desk::Study>()
    );
}
