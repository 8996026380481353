//! The archive beside the second program, call by call: the same answer, and the same words and octets afterwards.
//!   compared SEED COUNT
//! runs COUNT calls of each kind and prints how many; the first difference of a kind is printed with its input.

#![forbid(unsafe_code)]

mod arbitrary;
mod bench_lines;
mod expected;
mod headers;
mod joining;
mod links;
mod messages;
mod requests;
mod states;

use std::process::ExitCode;

use second::random::Random;

/// Runs so many calls; answers how many, or the first difference.
type Comparison = fn(&mut Random, usize) -> Result<usize, String>;

const COMPARISONS: [(&str, Comparison); 11] = [
    ("header read", headers::read),
    ("header write", headers::write),
    ("joining", joining::lists),
    ("joining, arbitrary words", joining::arbitrary),
    ("messages", messages::samples),
    ("messages, arbitrary octets", messages::arbitrary),
    ("link", links::lists),
    ("link, arbitrary words", links::arbitrary),
    ("request and lookup", requests::tags),
    ("request and lookup, arbitrary words", requests::arbitrary),
    ("bench lines", bench_lines::recordings),
];

fn main() -> ExitCode {
    let arguments: Vec<u64> = std::env::args().skip(1).filter_map(|word| word.parse().ok()).collect();
    let [seed, count] = arguments[..] else {
        eprintln!("usage: compared SEED COUNT");
        return ExitCode::from(2);
    };
    let (mut failed, mut total) = (0, 0);
    for (name, comparison) in COMPARISONS {
        match comparison(&mut Random::new(seed), count as usize) {
            Ok(calls) => {
                total += calls;
                println!("{name}: {calls} calls the same");
            }
            Err(difference) => {
                failed += 1;
                println!("FAILED {name}: {difference}");
            }
        }
    }
    println!("seed {seed}: {total} calls the same, {failed} kinds of calls not");
    ExitCode::from(u8::from(failed > 0))
}
