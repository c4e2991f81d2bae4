//! How long one call takes: each subject in turn, several rounds, the shortest
//! of the rounds.

use crate::prepared::Prepared;
use crate::subjects::Subject;
use std::time::Instant;

/// How often each subject has its turn.
const ROUNDS: usize = 7;

/// How long the calls of one turn take together, about, in seconds.
const TURN: f64 = 0.05;

/// A subject whose first call takes longer, in seconds, is called only once.
const SLOW: f64 = 0.3;

/// Seconds for one call of the library, the oracle and the plain pass.
pub type Times = [f64; 3];

/// Measures the three subjects on the same source and tables.
pub fn in_turns(lent: &mut Prepared) -> Times {
    let mut best = Subject::TURNS.map(|subject| turn(subject, lent, 1));
    // The first call finds caches and tables cold: a second one says how many
    // calls make a turn.
    let calls = Subject::TURNS.map(|subject| {
        if best[subject as usize] > SLOW {
            return 0;
        }
        let second = turn(subject, lent, 1);
        (TURN / second).clamp(1.0, 1e7) as usize
    });
    for _ in 0..ROUNDS {
        for subject in Subject::TURNS {
            if calls[subject as usize] > 0 {
                let time = turn(subject, lent, calls[subject as usize]);
                best[subject as usize] = best[subject as usize].min(time);
            }
        }
    }
    best
}

/// Seconds for one call, as the mean of so many calls.
fn turn(subject: Subject, lent: &mut Prepared, calls: usize) -> f64 {
    let start = Instant::now();
    for _ in 0..calls {
        subject.call(lent);
    }
    start.elapsed().as_secs_f64() / calls as f64
}
