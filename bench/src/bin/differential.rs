//! Gives generated inputs to the library and to the independent reader, and
//! ends at the first on which answer or tables differ.

use bench::cases::{case, Case};
use bench::compare::compare;
use bench::large;
use bench::tally::Tally;
use std::process::ExitCode;

/// With each first of so many generated inputs comes a large one.
const LARGE_EVERY: u64 = 1000;

fn main() -> ExitCode {
    let arguments: Vec<String> = std::env::args().skip(1).collect();
    let numbers: Option<Vec<u64>> = arguments.iter().map(|word| word.parse().ok()).collect();
    let Some([seed, count]) = numbers.as_deref() else {
        eprintln!("usage: differential SEED COUNT");
        return ExitCode::from(2);
    };
    match compare_all(*seed, *count) {
        Ok(tally) => {
            println!("{count} generated inputs of seed {seed}, and large ones: no difference");
            print!("{tally}");
            ExitCode::SUCCESS
        }
        Err(difference) => {
            print!("{difference}");
            ExitCode::FAILURE
        }
    }
}

/// The generated inputs with a large one now and then, and at the end the large
/// ones that have not had their turn. The tally of the answers, or the first
/// difference in words.
fn compare_all(seed: u64, count: u64) -> Result<Tally, String> {
    let mut tally = Tally::default();
    for index in 0..count {
        tally.add(checked(&case(seed, index), &format!("{index}"))?);
        if index % LARGE_EVERY == 0 {
            tally.add(checked_large(seed, index / LARGE_EVERY)?);
        }
    }
    for number in count.div_ceil(LARGE_EVERY)..large::COUNT {
        tally.add(checked_large(seed, number)?);
    }
    Ok(tally)
}

fn checked_large(seed: u64, number: u64) -> Result<nurl::Answer, String> {
    checked(&large::case(seed, number), &format!("large {number}"))
}

fn checked(case: &Case, title: &str) -> Result<nurl::Answer, String> {
    compare(case).map_err(|difference| format!("difference at input {title}:\n{difference}"))
}
