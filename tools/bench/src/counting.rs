//! Machine instructions per call, by differences: what the first k + 1 calls take beyond the first k.

use crate::boards::{plain, proved};
use crate::callgrind::counted;
use crate::workload::{encoded, Drawn, WORKLOADS};
use independent::door::Call;
use std::collections::{BTreeMap, HashMap};

/// Calls of a whole run, for the mean.
const WHOLE: usize = 100_000;
/// Calls that are counted one by one, for the worst.
const SINGLE: usize = 1500;

type Board = (&'static str, fn(&[u16], u32) -> u64);
const BOARDS: [Board; 2] = [("proved", proved), ("plain", plain)];

/// One run of the first `calls` calls, and none: the difference leaves out the decoding. A run ahead that is not
/// counted brings the heap into the same state for both.
fn count_prefix((board, run): Board, workload: &str, codes: &[u16], calls: usize) {
    std::hint::black_box(run(&codes[..7 * calls], 1));
    for times in [0, 1] {
        counted(&format!("{board}/{workload}/{calls}/{times}"), || run(&codes[..7 * calls], times));
    }
}

pub fn count() {
    for workload in &WORKLOADS {
        let codes = encoded(&workload.draw(WHOLE));
        for board in BOARDS {
            for calls in (0..=SINGLE).chain([WHOLE]) {
                count_prefix(board, workload.name, &codes, calls);
            }
        }
    }
}

pub fn report(file: &str) {
    let text = std::fs::read_to_string(file).expect("callgrind's file can be read");
    let counts = counts_of(&text);
    for workload in &WORKLOADS {
        let drawn = workload.draw(SINGLE);
        for (board, _) in BOARDS {
            let run = |calls: usize| {
                let of = |times: u32| counts[&format!("{board}/{}/{calls}/{times}", workload.name)];
                of(1) - of(0)
            };
            let mean = (run(WHOLE) - run(0)) as f64 / WHOLE as f64;
            let cost = |k: usize| run(k + 1) - run(k);
            let worst_step = (0..SINGLE).filter(|&k| matches!(drawn[k].call, Call::Step { .. })).map(cost).max();
            println!(
                "{} on {board}: instructions a call, mean of {WHOLE}: {mean:.1}; worst step of the first {SINGLE}: {}",
                workload.name,
                worst_step.unwrap_or(0),
            );
            print_kinds(&drawn, cost);
        }
    }
}

fn print_kinds(drawn: &[Drawn], cost: impl Fn(usize) -> i64) {
    let mut kinds: BTreeMap<String, Vec<i64>> = BTreeMap::new();
    for (k, d) in drawn.iter().enumerate() {
        kinds.entry(kind(d)).or_default().push(cost(k));
    }
    for (kind, costs) in kinds {
        let worst = costs.iter().max().expect("a kind has a call");
        let mean = costs.iter().sum::<i64>() as f64 / costs.len() as f64;
        println!("    {kind:<12} {:>5} calls   mean {mean:>7.1}   worst {worst:>5}", costs.len());
    }
}

/// What a call is: a step by its row, any other by its name.
fn kind(drawn: &Drawn) -> String {
    match drawn.call {
        Call::Step { .. } => {
            let row = drawn.stage.map_or("none".into(), |stage| format!("{stage:?}"));
            format!("step {}", row.split(' ').next().unwrap_or_default())
        }
        Call::Abort { .. } => "abort".into(),
        Call::Reuse { .. } => "reuse".into(),
        Call::Request { kind, .. } => ["request", "enter read", "enter write", "leave", "add", "show"]
            .get(usize::from(kind))
            .unwrap_or(&"request")
            .to_string(),
    }
}

/// The counts of callgrind's file by the names that they were written under.
fn counts_of(text: &str) -> HashMap<String, i64> {
    let mut counts = HashMap::new();
    let mut name = None;
    for line in text.lines() {
        if let Some((_, after)) = line.split_once("Client Request: ") {
            name = Some(after.trim().to_string());
        } else if let Some(total) = line.strip_prefix("totals: ").or(line.strip_prefix("summary: ")) {
            if let Some(name) = name.take() {
                counts.insert(name, total.trim().parse().expect("a total is a number"));
            }
        }
    }
    counts
}
