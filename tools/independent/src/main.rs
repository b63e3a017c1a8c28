//! Reads a schedule on standard input and prints what `lockrun` prints for it.
//!
//! Words: `deferred` (as without a word) or `inplace` choose the memory. `check` runs the schedule on both and checks
//! the promises after every event; a broken one is told on standard error, with a failing status. `explore C N LIMIT`
//! reads nothing: it visits every state of a board of C cards and N nodes, at most LIMIT, and checks each; with `tidy`
//! at the end, those of the tidy runs.

use std::io::{self, Read, Write};
use std::process::ExitCode;

use independent::deferred::Deferred;
use independent::explore::{explore, Runs};
use independent::in_place::InPlace;
use independent::lock::Sizes;
use independent::output::run;
use independent::schedule::Lines;
use independent::watched::Watched;

const USAGE: &str = "usage: independent [deferred | inplace | check] < schedule
       independent explore CARDS NODES LIMIT [tidy]";

fn main() -> ExitCode {
    let words: Vec<String> = std::env::args().skip(1).collect();
    let words: Vec<&str> = words.iter().map(String::as_str).collect();
    let output = match words[..] {
        [] | ["deferred"] => read_all().map(|input| run::<Deferred>(&input)),
        ["inplace"] => read_all().map(|input| run::<InPlace>(&input)),
        ["check"] => read_all().and_then(|input| check(&input)),
        ["explore", cards, nodes, limit] => explore_all(cards, nodes, limit, Runs::All),
        ["explore", cards, nodes, limit, "tidy"] => explore_all(cards, nodes, limit, Runs::Tidy),
        _ => Err(USAGE.into()),
    };
    let printed = output.and_then(|text| io::stdout().write_all(text.as_bytes()).map_err(|error| error.to_string()));
    match printed {
        Ok(()) => ExitCode::SUCCESS,
        Err(message) => {
            eprintln!("independent: {message}");
            ExitCode::FAILURE
        }
    }
}

fn explore_all(cards: &str, nodes: &str, limit: &str, runs: Runs) -> Result<String, String> {
    let size = |text: &str| text.parse::<u16>().map_err(|_| USAGE.to_string());
    let limit = limit.parse().map_err(|_| USAGE.to_string())?;
    let sizes = (size(cards)?, size(nodes)?);
    let visited = explore(sizes, runs, limit, |states| eprint!("\r{states} states "))?;
    Ok(format!("promises held in every state visited: {visited:?}\n"))
}

fn read_all() -> Result<Vec<u8>, String> {
    let mut input = Vec::new();
    io::stdin().read_to_end(&mut input).map_err(|error| error.to_string())?;
    Ok(input)
}

/// Both memories print the same, and the promises hold after every event that runs.
fn check(input: &[u8]) -> Result<String, String> {
    if run::<Deferred>(input) != run::<InPlace>(input) {
        return Err("the two memories print different texts".into());
    }
    let mut lines = Lines::new(input);
    let Ok([cards, nodes, counters]) = lines.sizes() else { return Ok("no sizes\n".into()) };
    let Some(sizes) = Sizes::new(cards, nodes, counters) else { return Ok("refused 1\n".into()) };
    let Ok(count) = lines.event_count() else { return Ok("no events\n".into()) };
    let mut watched = Watched::new(sizes)?;
    for number in 1..=count {
        let Ok(call) = lines.event() else { break };
        watched.call(call).map_err(|broken| format!("after event {number}: {broken}"))?;
    }
    Ok(format!("{:?}\n", watched.depth))
}
