//! Times the proved calls and the Rust on the same inputs, and writes a line for each row: the table, the row, and the time of each call
//! in microseconds. bench/run builds this as a second program of the oracle's crate; ../table.py makes tables of what it writes.

mod answering;
mod discovering;
mod loading;
mod reading;
mod surveys;
mod walking;

use std::hint::black_box;
use std::time::Instant;

/// How long a batch is, and how long a row may take, in microseconds.
const BATCH: f64 = 1000.0;
const ROW: f64 = 3_000_000.0;

pub type Call<'a> = (&'a str, &'a dyn Fn() -> usize);

/// Microseconds of one call of each: the best of so many rounds, in which each in its turn has a batch. Rows that take long have fewer rounds, but three at least.
fn best(rounds: usize, calls: &[Call]) -> Vec<f64> {
    let timed = |call: &dyn Fn() -> usize, times: usize| {
        let start = Instant::now();
        for _ in 0..times {
            black_box(call());
        }
        start.elapsed().as_secs_f64() * 1e6 / times as f64
    };
    // The first call is left out, since it finds nothing in the caches.
    let once: Vec<f64> = calls.iter().map(|(_, c)| timed(*c, 1).min(timed(*c, 1))).collect();
    let times: Vec<usize> = once.iter().map(|t| (BATCH / t.max(0.001)).clamp(1.0, 1e6) as usize).collect();
    let round: f64 = once.iter().zip(&times).map(|(t, n)| t * *n as f64).sum();
    let mut best = vec![f64::MAX; calls.len()];
    for _ in 0..rounds.min(((ROW / round) as usize).max(3)) {
        for (i, (_, call)) in calls.iter().enumerate() {
            best[i] = best[i].min(timed(*call, times[i]));
        }
    }
    best
}

/// Writes a row: its table, its series, its size, numbers that say more of it, and the times of the calls.
pub fn row(rounds: usize, table: &str, series: &str, size: usize, numbers: &[(&str, usize)], calls: &[Call]) {
    let names: Vec<&str> = calls.iter().map(|(name, _)| *name).collect();
    write(table, series, size, numbers, &names, &best(rounds, calls));
}

/// A call that does so many times what is timed, after what it does once.
pub type Many<'a> = (&'a str, &'a dyn Fn(usize) -> usize);

/// The same of calls that do so many times what is timed: the time of one, without what they do once.
pub fn row_of_many(rounds: usize, table: &str, series: &str, size: usize, numbers: &[(&str, usize)], calls: &[Many]) {
    let times: Vec<usize> = calls.iter().map(|(_, call)| enough(*call)).collect();
    let timed = |i: usize, n: usize| {
        let start = Instant::now();
        black_box((calls[i].1)(n));
        start.elapsed().as_secs_f64() * 1e6
    };
    let [mut once, mut all] = [(); 2].map(|_| vec![f64::MAX; calls.len()]);
    let round: f64 = (0..calls.len()).map(|i| timed(i, times[i])).sum();
    for _ in 0..rounds.min(((ROW / round) as usize).max(3)) {
        for i in 0..calls.len() {
            once[i] = once[i].min(timed(i, 0));
            all[i] = all[i].min(timed(i, times[i]));
        }
    }
    let each: Vec<f64> = (0..calls.len()).map(|i| (all[i] - once[i]).max(0.0) / times[i] as f64).collect();
    let names: Vec<&str> = calls.iter().map(|(name, _)| *name).collect();
    write(table, series, size, numbers, &names, &each);
}

/// How many times take twenty batches, so that what a call does once, as loading, is little beside them.
fn enough(call: &dyn Fn(usize) -> usize) -> usize {
    let mut times = 1;
    loop {
        let start = Instant::now();
        black_box(call(times));
        if start.elapsed().as_secs_f64() * 1e6 >= 20.0 * BATCH {
            return times;
        }
        times *= 2;
    }
}

fn write(table: &str, series: &str, size: usize, numbers: &[(&str, usize)], names: &[&str], times: &[f64]) {
    print!("{table}\t{series}\t{size}");
    numbers.iter().for_each(|(name, n)| print!("\t{name}={n}"));
    names.iter().zip(times).for_each(|(name, t)| print!("\t{name}={t:.6}"));
    println!();
}

fn main() {
    include_dir::load();
    let rounds = std::env::args().nth(1).and_then(|a| a.parse().ok()).unwrap_or(100);
    reading::run(rounds);
    loading::run(rounds);
    walking::run(rounds);
    discovering::run(rounds);
    answering::run(rounds);
}
