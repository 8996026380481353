//! The archive's calls beside the same calls of the plain Rust program, in one run.
//!   benchmarks [quick]
//! prints tables in Markdown: the time of each call, octets a second, and ratios to plain Rust and to a copy of the same octets.

#![forbid(unsafe_code)]

mod calls;
mod fragments;
mod lines;
mod reading;
mod sizes;
mod table;
mod timing;

use timing::Effort;

const HEADING: &str = "Times are nanoseconds for a call, the best of ROUNDS rounds in which all contenders take their turn.
A proved reading clears lists of its own, 640 octets. Plain Rust is lent its lists, 2,584 octets, and is measured with
them left as they are, which is its own way, and with them cleared before each read, which is more than the proved reading
clears. Outputs are lent once and cleared by nobody. A copy is one of the octets that the call reads. A proved writing alone
is reading and writing again less reading, in the same rounds; plain Rust's is its writer.";

fn main() {
    let quick = std::env::args().nth(1).as_deref() == Some("quick");
    let effort = if quick { Effort::QUICK } else { Effort::FULL };
    println!("{}", HEADING.replace("ROUNDS", &effort.rounds.to_string()));

    let kinds = table::print("Reading, by kind", reading::by_kind(effort));
    let sizes = table::print("Reading, by size", reading::by_size(effort));
    table::print_growth("Growth of reading", &sizes);
    let rewritings = table::print("Reading and writing again, by size", reading::rewriting(effort));
    let writings = table::print("Writing alone", reading::writing(effort));
    table::print_growth("Growth of writing alone", &writings);
    let fragments = table::print("Fragment calls", fragments::rows(effort));
    table::print("Requests, the link and the header", calls::rows(effort));
    lines::print(effort);

    println!("\n## Targets\n");
    table::print_worst("reading", &[kinds, sizes.clone()].concat());
    table::print_worst("reading and writing again", &rewritings);
    table::print_worst("writing alone", &writings);
    table::print_worst("fragment calls", &fragments);
    table::print_highest_growth("reading", &sizes);
    table::print_highest_growth("reading and writing again", &rewritings);
    table::print_highest_growth("writing alone", &writings);
}
