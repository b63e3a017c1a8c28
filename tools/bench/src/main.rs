//! Measures the proved board against the independent one. `tools/bench/run.sh` builds and runs it.
//!
//!     bench time              steps per second of both, by turns
//!     bench count             under callgrind: counts for `bench report` to read
//!     bench report FILE       instructions per call, mean and worst, from callgrind's file

mod boards;
mod callgrind;
mod counting;
mod timing;
mod workload;

fn main() {
    let words: Vec<String> = std::env::args().skip(1).collect();
    match words.iter().map(String::as_str).collect::<Vec<_>>()[..] {
        ["time"] => timing::print(),
        ["count"] => counting::count(),
        ["report", file] => counting::report(file),
        _ => {
            eprintln!("usage: bench time | bench count | bench report FILE");
            std::process::exit(2);
        }
    }
}
