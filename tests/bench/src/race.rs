//! The best time of each side on the same input.

use std::time::{Duration, Instant};

const LEAST_ROUNDS: usize = 5;
const MOST_ROUNDS: usize = 500;
const ENOUGH: Duration = Duration::from_millis(1500);

/// Lampethor's best time and the model's.
pub type Times = [Duration; 2];

/// Runs the two sides in turn and asserts that their answers are equal. What `prepare` makes is
/// handed to the run and comes back in its answer, so that neither making nor dropping it is timed.
pub fn race<I, O: PartialEq>(prepare: impl Fn() -> I, sides: [&dyn Fn(I) -> O; 2]) -> Times {
    let mut best = [Duration::MAX; 2];
    let begin = Instant::now();
    let mut round = 0;
    while round < LEAST_ROUNDS || (round < MOST_ROUNDS && begin.elapsed() < ENOUGH) {
        let mut run = |side: usize| {
            let input = prepare();
            let start = Instant::now();
            let answer = sides[side](input);
            best[side] = best[side].min(start.elapsed());
            answer
        };
        // The one that comes first finds colder caches: each does so every other time.
        let first = round % 2;
        assert!(run(first) == run(1 - first), "the two sides differ");
        round += 1;
    }
    best
}
