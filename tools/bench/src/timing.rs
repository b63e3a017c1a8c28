//! Steps per second of both boards, by turns in one run.

use crate::boards::{plain, proved};
use crate::workload::{encoded, Workload, WORKLOADS};
use std::time::Instant;

const CALLS: usize = 1_000_000;
const ROUNDS: usize = 9;
/// How often all calls are made in a round.
const TIMES: u32 = 4;

pub fn print() {
    println!("{CALLS} calls, {TIMES} times a round, {ROUNDS} rounds by turns; millions of calls a second");
    println!("{:<12} {:>12} {:>14} {:>12} {:>14} {:>11} {:>13}", "workload", "proved best", "proved median",
        "plain best", "plain median", "ratio best", "ratio median");
    for workload in &WORKLOADS {
        print_one(workload);
    }
}

fn print_one(workload: &Workload) {
    let codes = encoded(&workload.draw(CALLS));
    let (mut ours, mut theirs) = (Vec::new(), Vec::new());
    for _ in 0..ROUNDS {
        let (speed, digest) = speed(proved, &codes);
        let (other_speed, other_digest) = self::speed(plain, &codes);
        assert_eq!(digest, other_digest, "the two boards answer differently");
        ours.push(speed);
        theirs.push(other_speed);
    }
    let ((best, median), (other_best, other_median)) = (best_and_median(ours), best_and_median(theirs));
    println!(
        "{:<12} {best:>12.2} {median:>14.2} {other_best:>12.2} {other_median:>14.2} {:>11.3} {:>13.3}",
        workload.name,
        best / other_best,
        median / other_median,
    );
}

/// Millions of calls a second, without the time of decoding them.
fn speed(run: fn(&[u16], u32) -> u64, codes: &[u16]) -> (f64, u64) {
    let start = Instant::now();
    run(codes, 0);
    let decoded = Instant::now();
    let digest = run(codes, TIMES);
    let time = decoded.elapsed() - (decoded - start);
    (CALLS as f64 * f64::from(TIMES) / time.as_secs_f64() / 1e6, digest)
}

fn best_and_median(mut speeds: Vec<f64>) -> (f64, f64) {
    speeds.sort_by(|a, b| b.total_cmp(a));
    (speeds[0], speeds[speeds.len() / 2])
}
