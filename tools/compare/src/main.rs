//! Draws schedules at random and compares what a given lockrun prints with what the independent implementation prints.

mod draw;
mod options;
mod program;

use std::fs;
use std::io::{self, Write};
use std::path::PathBuf;
use std::process::ExitCode;
use std::time::{Duration, Instant};

use independent::deferred::Deferred;
use independent::in_place::InPlace;
use independent::output::run;
use independent::random::Random;
use independent::watched::{Depth, Watched};

use draw::{Kind, Schedule};
use options::Options;
use program::{Outcome, Program};

fn main() -> ExitCode {
    let result = Options::from_args(std::env::args().skip(1)).and_then(|options| match &options.replay {
        Some(file) => replay(&options, file),
        None => compare(&options),
    });
    match result {
        Ok(true) => ExitCode::SUCCESS,
        Ok(false) => ExitCode::FAILURE,
        Err(message) => {
            eprintln!("compare: {message}");
            ExitCode::from(2)
        }
    }
}

/// What was done so far.
#[derive(Default)]
struct Tally {
    schedules: usize,
    runs: usize,
    bytes: usize,
    kinds: [usize; Kind::ALL.len()],
    depth: Depth,
}

/// Compares schedule after schedule; stops at the first difference or broken promise.
fn compare(options: &Options) -> Result<bool, String> {
    let program = options.lockrun.as_ref().map(|path| Program::new(path, options.patience)).transpose()?;
    let started = Instant::now();
    let mut shown = started;
    let mut tally = Tally::default();
    for index in options.first..options.first.saturating_add(options.count) {
        if options.seconds.is_some_and(|limit| started.elapsed() > Duration::from_secs(limit)) {
            eprintln!("\nstopped: the time is up");
            break;
        }
        let schedule = Schedule::draw(options.seed, index);
        if let Err(found) = try_schedule(options, program.as_ref(), &schedule, &mut tally, index) {
            eprintln!();
            report(options, &schedule, index, &found)?;
            return Ok(false);
        }
        if shown.elapsed() > Duration::from_secs(1) {
            shown = Instant::now();
            progress(&tally, options, started);
        }
    }
    progress(&tally, options, started);
    eprintln!();
    summary(&tally);
    Ok(true)
}

/// What went wrong, with both texts if the texts differ.
struct Found {
    what: String,
    expected: String,
    got: Option<Vec<u8>>,
}

impl Found {
    /// The first line that differs, with both texts of it.
    fn first_line(&self) -> Option<String> {
        let got = String::from_utf8_lossy(self.got.as_ref()?);
        let mut expected = self.expected.lines();
        let mut got = got.lines();
        let mut number = 0;
        loop {
            number += 1;
            match (expected.next(), got.next()) {
                (None, None) => return None,
                (one, other) if one == other => {}
                (one, other) => {
                    let (one, other) = (one.unwrap_or("(nothing)"), other.unwrap_or("(nothing)"));
                    return Some(format!("line {number}: expected `{one}`, got `{other}`"));
                }
            }
        }
    }
}

fn try_schedule(
    options: &Options,
    program: Option<&Program>,
    schedule: &Schedule,
    tally: &mut Tally,
    index: u64,
) -> Result<(), Found> {
    let expected = run::<Deferred>(&schedule.text);
    let in_place = run::<InPlace>(&schedule.text);
    if in_place != expected {
        let got = Some(in_place.into_bytes());
        return Err(Found { what: "the independent memories differ".into(), expected, got });
    }
    if let Some(program) = program {
        for word in options.words() {
            let outcome = program.run(word, &schedule.text);
            let (what, got) = match outcome {
                Ok(Outcome::Ended { status: 0, output }) if output == expected.as_bytes() => (None, None),
                Ok(Outcome::Ended { status: 0, output }) => (Some("different bytes".to_string()), Some(output)),
                Ok(Outcome::Ended { status, output }) => (Some(format!("status {status}")), Some(output)),
                Ok(Outcome::TooSlow) => (Some("no end in time".to_string()), None),
                Err(error) => (Some(format!("cannot run it: {error}")), None),
            };
            if let Some(what) = what {
                let what = format!("lockrun{}: {what}", word.map_or(String::new(), |word| format!(" {word}")));
                return Err(Found { what, expected, got });
            }
            tally.runs += 1;
        }
    }
    if options.check {
        let depth = check(schedule, options.seed, index).map_err(|what| Found {
            what,
            expected: expected.clone(),
            got: None,
        })?;
        tally.depth.add(&depth);
    }
    tally.schedules += 1;
    tally.bytes += schedule.text.len();
    tally.kinds[schedule.kind as usize] += 1;
    Ok(())
}

/// Checks the promises after every event; now and then on drawn futures of an owed wake.
fn check(schedule: &Schedule, seed: u64, index: u64) -> Result<Depth, String> {
    let Some(sizes) = schedule.sizes else { return Ok(Depth::default()) };
    let mut random = Random::new(seed.wrapping_mul(31).wrapping_add(index));
    let mut watched = Watched::new(sizes)?;
    for (k, &call) in schedule.calls.iter().enumerate() {
        let broken = |what: String| format!("promise broken after event {}: {what}", k + 1);
        watched.call(call).map_err(broken)?;
        if random.chance(5) {
            watched.try_futures(&mut random).map_err(broken)?;
        }
    }
    Ok(watched.depth)
}

fn progress(tally: &Tally, options: &Options, started: Instant) {
    let seconds = started.elapsed().as_secs();
    let of = options.count;
    eprint!("\r{} of {of} schedules, {} runs, 0 differences, {seconds} s ", tally.schedules, tally.runs);
    let _ = io::stderr().flush();
}

fn summary(tally: &Tally) {
    println!("{} schedules, {} bytes, {} runs of lockrun, no difference", tally.schedules, tally.bytes, tally.runs);
    for kind in Kind::ALL {
        println!("  {}: {}", kind.name(), tally.kinds[kind as usize]);
    }
    if tally.depth.events > 0 {
        println!("promises held after each of {} events: {:?}", tally.depth.events, tally.depth);
    }
}

/// Writes the schedule and both texts as files that can be replayed.
fn report(options: &Options, schedule: &Schedule, index: u64, found: &Found) -> Result<(), String> {
    let stem = format!("difference-{}-{index}", options.seed);
    let path = |ending: &str| options.out.join(format!("{stem}.{ending}"));
    let write = |path: PathBuf, bytes: &[u8]| fs::write(&path, bytes).map_err(|e| format!("{}: {e}", path.display()));
    write(path("in"), &schedule.text)?;
    write(path("expected"), found.expected.as_bytes())?;
    if let Some(got) = &found.got {
        write(path("got"), got)?;
    }
    println!("schedule {index} of seed {} ({}): {}", options.seed, schedule.kind.name(), found.what);
    if let Some(line) = found.first_line() {
        println!("{line}");
    }
    println!("replay: compare --lockrun PATH --replay {}", path("in").display());
    Ok(())
}

/// Compares on one file.
fn replay(options: &Options, file: &PathBuf) -> Result<bool, String> {
    let text = fs::read(file).map_err(|error| format!("{}: {error}", file.display()))?;
    let schedule = Schedule::from_text(text);
    let program = options.lockrun.as_ref().map(|path| Program::new(path, options.patience)).transpose()?;
    match try_schedule(options, program.as_ref(), &schedule, &mut Tally::default(), 0) {
        Ok(()) => {
            println!("no difference");
            Ok(true)
        }
        Err(found) => {
            println!("{}", found.what);
            println!("--- expected\n{}", found.expected);
            if let Some(got) = found.got {
                println!("--- got\n{}", String::from_utf8_lossy(&got));
            }
            Ok(false)
        }
    }
}
