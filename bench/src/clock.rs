//! Times of two functions, taken in turns so that whatever else the machine does touches both.
use std::hint::black_box;
use std::time::{Duration, Instant};

/// Seconds a call.
pub struct Compared {
    pub ours: f64,
    pub theirs: f64,
}

const ROUNDS: usize = 25;
const ROUND: Duration = Duration::from_millis(8);

/// How many calls fill a round.
fn calls(f: &mut impl FnMut() -> usize) -> usize {
    let start = Instant::now();
    let mut n = 0;
    while start.elapsed() < ROUND {
        black_box(f());
        n += 1;
    }
    n
}

fn round(n: usize, f: &mut impl FnMut() -> usize) -> f64 {
    let start = Instant::now();
    for _ in 0..n {
        black_box(f());
    }
    start.elapsed().as_secs_f64() / n as f64
}

/// Whatever else the machine does only adds to a time.
fn least(times: Vec<f64>) -> f64 {
    times.into_iter().fold(f64::INFINITY, f64::min)
}

/// The least time of a call of each, over rounds in turns.
pub fn compared(mut ours: impl FnMut() -> usize, mut theirs: impl FnMut() -> usize) -> Compared {
    let (n, m) = (calls(&mut ours), calls(&mut theirs));
    let rounds = (0..ROUNDS).map(|_| (round(n, &mut ours), round(m, &mut theirs)));
    let (a, b) = rounds.unzip();
    Compared { ours: least(a), theirs: least(b) }
}

pub fn shown(seconds: f64) -> String {
    match seconds {
        s if s < 1e-6 => format!("{:.0} ns", s * 1e9),
        s if s < 1e-3 => format!("{:.1} µs", s * 1e6),
        s => format!("{:.2} ms", s * 1e3),
    }
}

/// The processor at hand.
pub fn processor() -> String {
    let info = std::fs::read_to_string("/proc/cpuinfo").unwrap_or_default();
    let model = info.lines().find(|l| l.starts_with("model name") || l.starts_with("CPU part")).unwrap_or("unknown processor").to_string();
    format!("{} {}", std::env::consts::ARCH, model.split_once(':').map_or(model.as_str(), |(_, m)| m.trim()))
}
