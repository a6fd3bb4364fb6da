//! Times of several contestants, taken in turn in one run.
use std::time::Instant;

/// Somebody who is measured. A closure is a contestant with nothing to prepare.
pub trait Contestant {
    /// What has to be there before each round; it is not timed.
    fn prepare(&mut self) {}
    /// The work of a round.
    fn work(&mut self);
}

impl<F: FnMut()> Contestant for F {
    fn work(&mut self) {
        self();
    }
}

/// The times of one contestant, in nanoseconds, round by round.
pub struct Times(Vec<f64>);

impl Times {
    /// The shortest.
    pub fn least(&self) -> f64 {
        self.0.iter().copied().fold(f64::INFINITY, f64::min)
    }

    /// The middle one.
    pub fn median(&self) -> f64 {
        middle(self.0.clone())
    }

    /// The middle one of the ratios to another's times in the same rounds.
    pub fn median_ratio(&self, to: &Times) -> f64 {
        middle(self.0.iter().zip(&to.0).map(|(time, other)| time / other).collect())
    }
}

/// The middle one of some numbers.
fn middle(mut numbers: Vec<f64>) -> f64 {
    numbers.sort_by(f64::total_cmp);
    numbers[numbers.len() / 2]
}

/// Runs each contestant once in every round, after a round that is not counted. Every other round goes backwards, and every two begin with
/// another contestant, so that each comes behind each other one, and finds in the processor's caches what that one left.
pub fn interleaved<const N: usize>(rounds: usize, contestants: [&mut dyn Contestant; N]) -> [Times; N] {
    let mut times = [(); N].map(|()| Times(Vec::with_capacity(rounds)));
    for round in 0..=rounds {
        for turn in 0..N {
            let turned = (turn + round / 2) % N;
            let place = if round % 2 == 0 { turned } else { N - 1 - turned };
            contestants[place].prepare();
            let start = Instant::now();
            contestants[place].work();
            let time = start.elapsed().as_nanos() as f64;
            if round > 0 {
                times[place].0.push(time);
            }
        }
    }
    times
}
