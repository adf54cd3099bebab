//! Measuring a call of the engine against the same call of the reference.

use std::time::{Duration, Instant};

/// What a turn takes, about.
pub const TURN: Duration = Duration::from_micros(300);
/// Turns of each side on each input in a round.
pub const TURNS: usize = 200;
/// Each round measures every input.
pub const ROUNDS: usize = 6;
/// The part of the turns that may be quicker than the one that counts.
const LOW: f64 = 0.05;

/// The times of a call in ns, one of each turn.
#[derive(Default)]
pub struct Times {
    engine: Vec<f64>,
    rust: Vec<f64>,
}

impl Times {
    /// Measures one round more.
    pub fn measure(&mut self, engine: impl FnMut(), rust: impl FnMut()) {
        let (mut engine, mut rust) = (Side::new(engine, &self.engine), Side::new(rust, &self.rust));
        for _ in 0..TURNS {
            self.engine.push(engine.turn());
            self.rust.push(rust.turn());
        }
    }

    /// The time of each side.
    pub fn both(&self) -> [f64; 2] {
        [low(&self.engine), low(&self.rust)]
    }

    /// Both times, their ratio, and the least and the greatest ratio of a round, as cells of a table.
    pub fn cells(&self) -> String {
        let [engine, rust] = self.both();
        let rounds = self.engine.chunks(TURNS).zip(self.rust.chunks(TURNS));
        let mut ratios: Vec<f64> = rounds.map(|(engine, rust)| low(engine) / low(rust)).collect();
        ratios.sort_by(f64::total_cmp);
        format!("{engine:.1} | {rust:.1} | {:.2} | {:.2} to {:.2}", engine / rust, ratios[0], ratios[ratios.len() - 1])
    }
}

/// The low percentile of what was measured.
fn low(times: &[f64]) -> f64 {
    let mut times = times.to_vec();
    times.sort_by(f64::total_cmp);
    times[(LOW * times.len() as f64) as usize]
}

/// The engine or the reference, with the number of calls that take a turn's time.
struct Side<F> {
    call: F,
    calls: u32,
}

impl<F: FnMut()> Side<F> {
    /// Takes the time of a call from the rounds before or, in the first one, from some short turns.
    fn new(call: F, before: &[f64]) -> Self {
        let mut side = Self { call, calls: 16 };
        let call = if before.is_empty() {
            // the quickest counts, as the others were disturbed
            (0..200).map(|_| side.turn()).fold(f64::INFINITY, f64::min)
        } else {
            low(before)
        };
        side.calls = (TURN.as_secs_f64() * 1e9 / call).ceil() as u32;
        side
    }

    /// The time of a call in ns, from so many one after the other.
    #[inline(never)]
    fn turn(&mut self) -> f64 {
        let start = Instant::now();
        for _ in 0..self.calls {
            (self.call)();
        }
        start.elapsed().as_secs_f64() * 1e9 / f64::from(self.calls)
    }
}
