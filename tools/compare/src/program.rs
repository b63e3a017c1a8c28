//! Runs a given lockrun on a text, for a bounded time.

use std::fs::{self, File};
use std::io;
use std::path::{Path, PathBuf};
use std::process::{Command, Stdio};
use std::time::{Duration, Instant};

pub enum Outcome {
    Ended { status: i32, output: Vec<u8> },
    TooSlow,
}

/// The program, with a folder for its input and output: files, so that no pipe can fill up.
pub struct Program {
    path: PathBuf,
    folder: PathBuf,
    patience: Duration,
}

impl Program {
    pub fn new(path: &Path, patience: Duration) -> Result<Self, String> {
        let path = path.canonicalize().map_err(|error| format!("{}: {error}", path.display()))?;
        let folder = std::env::temp_dir().join(format!("compare-{}", std::process::id()));
        fs::create_dir_all(&folder).map_err(|error| format!("{}: {error}", folder.display()))?;
        Ok(Program { path, folder, patience })
    }

    pub fn run(&self, word: Option<&str>, text: &[u8]) -> io::Result<Outcome> {
        let input = self.folder.join("in");
        let output = self.folder.join("out");
        fs::write(&input, text)?;
        let mut child = Command::new(&self.path)
            .args(word)
            .stdin(Stdio::from(File::open(&input)?))
            .stdout(Stdio::from(File::create(&output)?))
            .stderr(Stdio::null())
            .spawn()?;
        let started = Instant::now();
        let mut pause = Duration::from_micros(50);
        let status = loop {
            if let Some(status) = child.try_wait()? {
                break status;
            }
            if started.elapsed() > self.patience {
                child.kill()?;
                child.wait()?;
                return Ok(Outcome::TooSlow);
            }
            std::thread::sleep(pause);
            pause = (pause * 2).min(Duration::from_millis(5));
        };
        // A program that was killed by a signal has no code.
        Ok(Outcome::Ended { status: status.code().unwrap_or(-1), output: fs::read(&output)? })
    }
}

impl Drop for Program {
    fn drop(&mut self) {
        let _ = fs::remove_dir_all(&self.folder);
    }
}
