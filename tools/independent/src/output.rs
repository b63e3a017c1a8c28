//! The whole output of a whole input.

use std::fmt::Write;

use crate::door::{Call, Door, Refused};
use crate::lock::{Answer, LockRefusal, Sizes};
use crate::memory::{Memory, CARDS};
use crate::schedule::{BadLine, Lines, LONGEST};

/// Why the events of a schedule did not all run.
enum Stopped {
    TooLong,
    Bad(BadLine),
    Sizes,
}

impl From<BadLine> for Stopped {
    fn from(bad: BadLine) -> Self {
        Stopped::Bad(bad)
    }
}

/// What `lockrun` prints for this input.
pub fn run<M: Memory + Default>(input: &[u8]) -> String {
    run_watched::<M>(input, |_, _, _| {})
}

/// The same; `watch` sees each event that was run, its answer and the board after it.
pub fn run_watched<M: Memory + Default>(
    input: &[u8],
    watch: impl FnMut(Call, Result<Answer, Refused>, &Door<M>),
) -> String {
    let mut out = String::new();
    let last = match run_events(input, &mut out, watch) {
        Ok(door) => queue_line(&door),
        Err(Stopped::TooLong) => "bad 0 32".to_string(),
        Err(Stopped::Bad(BadLine(line))) => format!("bad {line} 31"),
        Err(Stopped::Sizes) => "refused 1".to_string(),
    };
    out.push_str(&last);
    out.push('\n');
    out
}

fn run_events<M: Memory + Default>(
    input: &[u8],
    out: &mut String,
    mut watch: impl FnMut(Call, Result<Answer, Refused>, &Door<M>),
) -> Result<Door<M>, Stopped> {
    if input.len() > LONGEST {
        return Err(Stopped::TooLong);
    }
    let mut lines = Lines::new(input);
    let [cards, nodes, counters] = lines.sizes()?;
    let sizes = Sizes::new(cards, nodes, counters).ok_or(Stopped::Sizes)?;
    let mut door = Door::new(sizes, M::default());
    for number in 1..=lines.event_count()? {
        let call = lines.event()?;
        let answer = door.call(call);
        // Writing to a String does not fail.
        let _ = writeln!(out, "{number} {}", words(answer));
        watch(call, answer, &door);
    }
    lines.end()?;
    Ok(door)
}

fn queue_line<M: Memory>(door: &Door<M>) -> String {
    let mut place = [0; CARDS];
    let count = door.lock().line(&mut place);
    place[..count].iter().fold("queue".to_string(), |line, node| format!("{line} {node}"))
}

pub fn words(answer: Result<Answer, Refused>) -> String {
    match answer {
        Ok(Answer::Ok) => "ok".into(),
        Ok(Answer::Step) => "step".into(),
        Ok(Answer::Wait) => "wait".into(),
        Ok(Answer::Lost) => "lost".into(),
        Ok(Answer::In) => "in".into(),
        Ok(Answer::Out) => "out".into(),
        Ok(Answer::Added(count)) => format!("added {count}"),
        Ok(Answer::Count(count)) => format!("count {count}"),
        Err(Refused::NoCard) => "refused 2".into(),
        Err(Refused::Malformed) => "refused 3".into(),
        Err(Refused::Differs) => "refused 4".into(),
        Err(Refused::Lock(LockRefusal::NotAllowed)) => "refused 5".into(),
        Err(Refused::Lock(LockRefusal::NoSuch)) => "refused 6".into(),
        Err(Refused::Lock(LockRefusal::NotFree)) => "refused 7".into(),
        Err(Refused::Lock(LockRefusal::Memory(fault))) => {
            format!("refused 8 {} {}", fault.refusal.number(), fault.cell)
        }
    }
}
