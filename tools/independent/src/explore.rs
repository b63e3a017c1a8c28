//! Visits every state that a small board can reach and checks the promises in each, and across each call.
//!
//! Where random runs go deep, this goes everywhere. The door is left out (a resend changes nothing, a refused call
//! neither); adds are of 65,535, so that a counter has two values; a reuse writes four times 65,535.
//!
//! Three cards have too many states for that. The tidy runs are those in which a card that is out sets its node's
//! cells to 0 at once, by a reuse, and a card enters with the lowest free node. Free nodes are then all alike, so that
//! which one is taken makes no difference but in the names.

use std::collections::hash_map::DefaultHasher;
use std::collections::HashSet;
use std::hash::{Hash, Hasher};

use crate::deferred::Deferred;
use crate::lock::{Answer, Lock, LockRefusal, Mode, Sizes, Stage};
use crate::memory::{Meaning, Memory};
use crate::promise::{check_free_nodes, ensure, Moment, Place};

#[derive(Clone, Copy, Debug)]
enum Move {
    Enter { node: u16, mode: Mode },
    Leave,
    Add,
    Show,
    Step,
    Abort,
    Reuse { node: u16 },
}

/// Which runs are visited.
#[derive(Clone, Copy, Debug, PartialEq, Eq)]
pub enum Runs {
    All,
    Tidy,
}

#[derive(Clone, PartialEq, Eq, Hash)]
struct State {
    lock: Lock<Deferred>,
    line: Vec<Place>,
    /// The capped sum of the one counter's finished adds.
    sum: u64,
}

/// What was visited.
#[derive(Debug, Default)]
pub struct Visited {
    pub states: usize,
    pub calls: usize,
    /// False if the limit came first.
    pub whole: bool,
}

/// Visits the states of a board with one counter, at most `limit` of them.
pub fn explore(
    (cards, nodes): (u16, u16),
    runs: Runs,
    limit: usize,
    progress: impl Fn(usize),
) -> Result<Visited, String> {
    let sizes = Sizes::new(cards, nodes, 1).ok_or("a size is out of range")?;
    let start = State { lock: Lock::new(sizes, Deferred::default()), line: Vec::new(), sum: 0 };
    let mut seen = HashSet::from([print_of(&start)]);
    let mut open = vec![start];
    let mut visited = Visited { states: 0, calls: 0, whole: true };
    while let Some(state) = open.pop() {
        let meaning = state.check()?;
        visited.states += 1;
        if visited.states.is_multiple_of(1_000_000) {
            progress(visited.states);
        }
        if visited.states >= limit {
            visited.whole = open.is_empty();
            break;
        }
        let moves = state.moves(runs);
        for card in 0..sizes.cards() {
            for &step in &moves {
                let Some(mut next) = state.make(&meaning, card, step)? else { continue };
                visited.calls += 1;
                if runs == Runs::Tidy {
                    next.tidy(&state, card);
                }
                if seen.insert(print_of(&next)) {
                    open.push(next);
                }
            }
        }
    }
    Ok(visited)
}

/// 128 bits stand for a state: among a billion states, two alike are less likely than a fault of the machine.
fn print_of(state: &State) -> u128 {
    let mut low = DefaultHasher::new();
    let mut high = DefaultHasher::new();
    state.hash(&mut low);
    (0x5eed_u16, state).hash(&mut high);
    u128::from(low.finish()) | u128::from(high.finish()) << 64
}

impl State {
    fn check(&self) -> Result<Meaning, String> {
        let meaning = self.lock.memory().meaning();
        let sums = [self.sum];
        let moment = Moment {
            sizes: self.lock.sizes(),
            meaning: &meaning,
            cards: self.lock.cards(),
            line: &self.line,
            sums: &sums,
        };
        moment.check().map_err(|broken| format!("{broken}: {:?}", self.lock.cards()))?;
        Ok(meaning)
    }

    fn moves(&self, runs: Runs) -> Vec<Move> {
        let mut moves = vec![Move::Step, Move::Abort, Move::Leave, Move::Add, Move::Show];
        let nodes = 0..self.lock.sizes().nodes();
        let free = nodes.filter(|&node| self.lock.is_free(node)).map(|node| node as u16);
        for node in free.take(if runs == Runs::Tidy { 1 } else { usize::MAX }) {
            moves.push(Move::Enter { node, mode: Mode::Read });
            moves.push(Move::Enter { node, mode: Mode::Write });
            if runs == Runs::All {
                moves.push(Move::Reuse { node });
            }
        }
        moves
    }

    /// After a step that ends in idle: the node's cells are set to 0.
    fn tidy(&mut self, before: &State, card: usize) {
        let was = before.lock.cards()[card];
        if was.stage != Stage::Idle && self.lock.cards()[card].stage == Stage::Idle {
            // An idle card may reuse the node it has just left.
            let _ = self.lock.reuse(card, was.node as u16, [0; 4]);
        }
    }

    /// Makes a call; `None` if it was refused.
    fn make(&self, before: &Meaning, card: usize, step: Move) -> Result<Option<State>, String> {
        let mut next = self.clone();
        let lock = &mut next.lock;
        let answer = match step {
            Move::Enter { node, mode } => lock.enter(card, node, mode),
            Move::Leave => lock.leave(card),
            Move::Add => lock.add(card, 0, 65_535),
            Move::Show => lock.show(card, 0),
            Move::Step => lock.step(card),
            Move::Abort => lock.abort(card),
            Move::Reuse { node } => lock.reuse(card, node, [65_535; 4]),
        };
        match answer {
            Err(LockRefusal::Memory(fault)) => {
                return Err(format!("refusal 8: {fault:?} at {:?}", self.lock.cards()))
            }
            Err(_) => return Ok(None),
            Ok(answer) => next.book(self, card, step, answer)?,
        }
        let reused = match step {
            Move::Reuse { node } => Some(usize::from(node)),
            _ => None,
        };
        let nodes = 0..self.lock.sizes().nodes();
        let free = nodes.filter(|&node| self.lock.is_free(node) && next.lock.is_free(node));
        check_free_nodes(reused, free, before, &next.lock.memory().meaning())?;
        Ok(Some(next))
    }

    /// Keeps the line and the finished adds, and sees that a card keeps its node and mode until it is idle.
    fn book(&mut self, before: &State, card: usize, step: Move, answer: Answer) -> Result<(), String> {
        let (was, is) = (before.lock.cards()[card], self.lock.cards()[card]);
        let kept = is.node == was.node && is.mode == was.mode;
        ensure(kept || was.stage == Stage::Idle || is.stage == Stage::Idle, || {
            format!("card {card} changed its node or mode: {was:?}, {is:?}")
        })?;
        let accepted_step = matches!(step, Move::Step) && answer != Answer::Lost;
        match was.stage {
            Stage::W5 { .. } | Stage::R7 { .. } if accepted_step => {
                self.line.push(Place { card, node: was.node, mode: was.mode });
            }
            Stage::X4 { .. } | Stage::Y7 { .. } if accepted_step => self.line.retain(|place| place.card != card),
            Stage::A2 { amount, .. } if accepted_step => self.sum = (self.sum + u64::from(amount)).min(65_535),
            _ => {}
        }
        Ok(())
    }
}
