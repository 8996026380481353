//! The time of a call: many in a loop, the best of several rounds.

use std::hint::black_box;
use std::time::{Duration, Instant};

#[derive(Clone, Copy)]
pub struct Effort {
    pub rounds: usize,
    /// How long the loop of one round runs at least.
    pub loop_time: Duration,
}

impl Effort {
    pub const QUICK: Effort = Effort { rounds: 5, loop_time: Duration::from_micros(200) };
    /// Many short rounds, so that some are not disturbed on a busy machine.
    pub const FULL: Effort = Effort { rounds: 200, loop_time: Duration::from_millis(1) };
}

/// Makes a call so many times.
pub type Contender<'a> = Box<dyn FnMut(u64) + 'a>;

pub fn contender<'a, T>(mut call: impl FnMut() -> T + 'a) -> Contender<'a> {
    Box::new(move |times| {
        for _ in 0..times {
            black_box(call());
        }
    })
}

/// A copy of the octets, which is one call of memcpy.
pub fn copy(octets: &[u8]) -> Contender<'_> {
    let mut copied = vec![0; octets.len()];
    contender(move || black_box(&mut copied[..]).copy_from_slice(black_box(octets)))
}

fn time(contender: &mut Contender, times: u64) -> Duration {
    let start = Instant::now();
    contender(times);
    start.elapsed()
}

/// How many calls fill the loop of a round.
fn calls_of_a_round(contender: &mut Contender, effort: Effort) -> u64 {
    let mut times = 1;
    while time(contender, times) < effort.loop_time / 2 {
        times *= 2;
    }
    2 * times
}

/// Nanoseconds for a call of each; in each round all of them take their turn, so that a busy machine hits them alike.
pub fn best<const N: usize>(mut contenders: [Contender; N], effort: Effort) -> [f64; N] {
    let times = contenders.each_mut().map(|contender| calls_of_a_round(contender, effort));
    let mut least = [f64::INFINITY; N];
    for _ in 0..effort.rounds {
        for index in 0..N {
            let spent = time(&mut contenders[index], times[index]).as_nanos() as f64 / times[index] as f64;
            least[index] = least[index].min(spent);
        }
    }
    least
}
