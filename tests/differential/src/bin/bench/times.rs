//! Times: medians over repetitions with the engines in turn.

use crate::calls::{Buffers, Call, Setting, ENGINES};
use crate::meter::Meter;
use crate::readers;
use reference::engine::Engine;
use std::hint::black_box;
use std::time::{Duration, Instant};

/// A shorter call is made several times in one measurement, on buffers of its own each time, so
/// that the clock's resolution does not matter.
const SHORT: Duration = Duration::from_micros(20);

/// Few enough that their buffers stay in the processor's caches.
const MOST_AT_ONCE: usize = 64;

/// The clock, with the number of repetitions.
pub struct Times {
    pub repetitions: usize,
}

impl Times {
    /// The median time of each engine. They are measured in turn, so that a busy machine slows all.
    fn in_turn<T, const N: usize>(
        &self,
        engines: &[T; N],
        mut measure: impl FnMut(&T) -> f64,
    ) -> [f64; N] {
        let mut times = [(); N].map(|()| Vec::with_capacity(self.repetitions));
        for _ in 0..self.repetitions {
            for (engine, times) in engines.iter().zip(&mut times) {
                times.push(measure(engine));
            }
        }
        times.map(median)
    }
}

impl Meter for Times {
    fn engines(&mut self, setting: &Setting, call: &Call) -> [f64; 3] {
        let mut buffers = vec![call.buffers(setting)];
        // The first measurement only says how many calls make a long enough one.
        let engines = ENGINES.map(|(_, engine)| engine);
        let times = engines.map(|engine| time(&engine, setting, call, &mut buffers));
        let shortest = times.into_iter().fold(f64::INFINITY, f64::min);
        buffers.resize(at_once(shortest), call.buffers(setting));
        self.in_turn(&engines, |engine| time(engine, setting, call, &mut buffers))
    }

    fn readers(&mut self, call: &readers::Call) -> [f64; 2] {
        self.in_turn(&readers::ENGINES, |(_, engine)| {
            let start = Instant::now();
            call.make(*engine);
            microseconds(start.elapsed())
        })
    }

    fn floor(&mut self, setting: &Setting) -> f64 {
        let measure = |calls: usize| {
            let start = Instant::now();
            for _ in 0..calls {
                black_box(setting.read_once());
            }
            microseconds(start.elapsed()) / calls as f64
        };
        let calls = at_once(measure(1));
        median((0..self.repetitions).map(|_| measure(calls)).collect())
    }

    fn show(&self, figure: f64) -> String {
        format!("{figure:.2} µs")
    }
}

/// The time of one call, of as many as there are buffers. They are reset before.
fn time(engine: &Engine, setting: &Setting, call: &Call, buffers: &mut [Buffers]) -> f64 {
    for buffers in &mut *buffers {
        call.reset(setting, buffers);
    }
    let start = Instant::now();
    for buffers in &mut *buffers {
        black_box(call.make(engine, setting, buffers));
    }
    microseconds(start.elapsed()) / buffers.len() as f64
}

fn at_once(time: f64) -> usize {
    let wanted = microseconds(SHORT) / time;
    (wanted.ceil() as usize).clamp(1, MOST_AT_ONCE)
}

fn microseconds(time: Duration) -> f64 {
    time.as_secs_f64() * 1e6
}

fn median(mut times: Vec<f64>) -> f64 {
    times.sort_by(f64::total_cmp);
    times[times.len() / 2]
}
