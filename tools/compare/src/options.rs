//! The command line.

use std::path::PathBuf;
use std::time::Duration;

pub const USAGE: &str =
    "usage: compare [--lockrun PATH] [--memory WORD].. [--check] [--seed N] [--count N] [--first N]
               [--seconds N] [--patience N] [--out FOLDER] [--replay FILE]
  --lockrun PATH   the program to hold against the independent implementation; without it only that one is run
  --memory WORD    run lockrun with this word; may be given more than once; without it lockrun gets no word
  --check          also check the promises after every event of every run
  --seed N         the seed, 1 if not given; a schedule depends on the seed and its index alone
  --count N        how many schedules, 20000 if not given
  --first N        the index of the first one, 0 if not given
  --seconds N      stop after this time
  --patience N     seconds to wait for one run of lockrun, 20 if not given
  --out FOLDER     where the first difference is written, . if not given
  --replay FILE    compare on this schedule only";

pub struct Options {
    pub lockrun: Option<PathBuf>,
    pub memories: Vec<String>,
    pub check: bool,
    pub seed: u64,
    pub count: u64,
    pub first: u64,
    pub seconds: Option<u64>,
    pub patience: Duration,
    pub out: PathBuf,
    pub replay: Option<PathBuf>,
}

impl Options {
    pub fn from_args(mut args: impl Iterator<Item = String>) -> Result<Options, String> {
        let mut options = Options {
            lockrun: None,
            memories: Vec::new(),
            check: false,
            seed: 1,
            count: 20_000,
            first: 0,
            seconds: None,
            patience: Duration::from_secs(20),
            out: PathBuf::from("."),
            replay: None,
        };
        while let Some(name) = args.next() {
            if name == "--check" {
                options.check = true;
                continue;
            }
            let value = args.next().ok_or(USAGE)?;
            let number = || value.parse::<u64>().map_err(|_| format!("{name} {value}: not a number\n{USAGE}"));
            match name.as_str() {
                "--lockrun" => options.lockrun = Some(value.into()),
                "--memory" => options.memories.push(value),
                "--seed" => options.seed = number()?,
                "--count" => options.count = number()?,
                "--first" => options.first = number()?,
                "--seconds" => options.seconds = Some(number()?),
                "--patience" => options.patience = Duration::from_secs(number()?),
                "--out" => options.out = value.into(),
                "--replay" => options.replay = Some(value.into()),
                _ => return Err(USAGE.into()),
            }
        }
        Ok(options)
    }

    /// The words to run lockrun with; `None` is no word.
    pub fn words(&self) -> Vec<Option<&str>> {
        if self.memories.is_empty() {
            vec![None]
        } else {
            self.memories.iter().map(|word| Some(word.as_str())).collect()
        }
    }
}
