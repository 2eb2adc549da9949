//! Measures the calls of the static library `qs_bench`, and prints a table.
//!
//! `driver WORD..` takes the cases whose name holds one of the words, and all without a word. `driver --quick ..` takes small
//! cases and doesn't measure them. The status is 1 where a result is wrong. `driver --pairs` measures reads into a map for bench/plot.

mod calls;
mod cases;
mod inputs;
mod timing;

use cases::Case;
use std::hint::black_box;
use std::process::ExitCode;
use timing::{grouped, nanoseconds};

fn main() -> ExitCode {
    let mut words: Vec<String> = std::env::args().skip(1).collect();
    if words == ["--pairs"] {
        return print_pairs();
    }
    let is_quick = words.first().is_some_and(|word| word == "--quick");
    if is_quick {
        words.remove(0);
    }
    let is_wanted =
        |case: &Case| words.is_empty() || words.iter().any(|word| case.name.contains(word));
    let cases: Vec<Case> = cases::all(is_quick).into_iter().filter(is_wanted).collect();
    let wrong: Vec<&Case> = cases.iter().filter(|case| !case.is_right()).collect();
    for case in &wrong {
        println!("  FAILED: {}", case.name);
    }
    if is_quick {
        println!(
            "bench: {} passed, {} failed",
            cases.len() - wrong.len(),
            wrong.len()
        );
    } else if wrong.is_empty() {
        print_table(&cases);
    }
    ExitCode::from(u8::from(!wrong.is_empty()))
}

/// Prints a line for each number of pairs that are read into a map: a name, the number and the nanoseconds, with tabs between them.
fn print_pairs() -> ExitCode {
    let cases = cases::map_reads();
    if !cases.iter().all(Case::is_right) {
        return ExitCode::FAILURE;
    }
    for case in cases {
        let time = nanoseconds(|times| case.repeat(times));
        println!("this library, by derives\t{}\t{time:.0}", case.name);
    }
    ExitCode::SUCCESS
}

/// How often all cases are measured: a machine is slower at some times than at others.
const PASSES: usize = 3;
/// Nanoseconds; a case that takes longer is measured in the first pass alone.
const LONG: f64 = 1e9;

/// The best times of a case, in nanoseconds.
struct Times {
    call: f64,
    /// Of copying the bytes to fresh memory.
    copying: f64,
}

/// Measures each case, and prints its row.
fn print_table(cases: &[Case]) {
    let mut all: Vec<Times> = cases.iter().map(measured).collect();
    for _ in 1..PASSES {
        for (case, best) in cases
            .iter()
            .zip(&mut all)
            .filter(|(_, best)| best.call < LONG)
        {
            let again = measured(case);
            best.call = best.call.min(again.call);
            best.copying = best.copying.min(again.copying);
        }
    }
    println!("| call | bytes | ns a call | MB/s | times copying | times the size before |");
    println!("|---|---:|---:|---:|---:|---:|");
    let mut before = None;
    for (case, times) in cases.iter().zip(&all) {
        before = before.filter(|_| case.grows);
        print_row(case, times, before);
        before = Some(times.call);
    }
}

fn measured(case: &Case) -> Times {
    let copy = |times| {
        for _ in 0..times {
            drop(black_box(case.bytes.to_vec()));
        }
    };
    Times {
        call: nanoseconds(|times| case.repeat(times)),
        copying: nanoseconds(copy),
    }
}

fn print_row(case: &Case, times: &Times, before: Option<f64>) {
    let len = case.bytes.len();
    println!(
        "| {} | {} | {} | {:.1} | {:.1} | {} |",
        case.name,
        grouped(len),
        grouped(times.call.round() as usize),
        len as f64 * 1000.0 / times.call,
        times.call / times.copying,
        before.map_or(String::new(), |before| format!(
            "{:.1}",
            times.call / before
        )),
    );
}
