//! The door: requests, toggles and resends. Judges refusals 2 to 4 and knows nothing of stages.

use crate::lock::{Answer, Lock, LockRefusal, Mode, Sizes};
use crate::memory::{Memory, CARDS};

/// A call of the board; all but the line call, which changes nothing.
#[derive(Clone, Copy, Debug, PartialEq, Eq)]
pub enum Call {
    Request { card: u16, toggle: u16, kind: u16, first: u16, second: u16 },
    Step { card: u16 },
    Abort { card: u16 },
    Reuse { card: u16, node: u16, values: [u16; 4] },
}

impl Call {
    pub fn card(&self) -> usize {
        match *self {
            Call::Request { card, .. } | Call::Step { card } | Call::Abort { card } | Call::Reuse { card, .. } => {
                card.into()
            }
        }
    }
}

/// What a request asks for, once its numbers are right.
#[derive(Clone, Copy, Debug, PartialEq, Eq)]
pub enum Wanted {
    Enter { mode: Mode, node: u16 },
    Leave,
    Add { counter: u16, amount: u16 },
    Show { counter: u16 },
}

impl Wanted {
    pub fn new(kind: u16, first: u16, second: u16) -> Option<Wanted> {
        match (kind, first, second) {
            (1, node, 0) => Some(Wanted::Enter { mode: Mode::Read, node }),
            (2, node, 0) => Some(Wanted::Enter { mode: Mode::Write, node }),
            (3, 0, 0) => Some(Wanted::Leave),
            (4, counter, amount) => Some(Wanted::Add { counter, amount }),
            (5, counter, 0) => Some(Wanted::Show { counter }),
            _ => None,
        }
    }
}

/// Refusals 2 to 8.
#[derive(Clone, Copy, Debug, PartialEq, Eq)]
pub enum Refused {
    NoCard,
    Malformed,
    Differs,
    Lock(LockRefusal),
}

impl From<LockRefusal> for Refused {
    fn from(refusal: LockRefusal) -> Self {
        Refused::Lock(refusal)
    }
}

/// What the door remembers of a card.
#[derive(Clone, Copy, Debug, PartialEq, Eq)]
pub struct Last {
    pub toggle: u16,
    /// `None` equals no request: nothing was asked yet.
    pub wanted: Option<Wanted>,
    pub answer: Result<Answer, LockRefusal>,
}

#[derive(Clone)]
pub struct Door<M> {
    lock: Lock<M>,
    last: [Last; CARDS],
}

impl<M: Memory> Door<M> {
    pub fn new(sizes: Sizes, memory: M) -> Self {
        let nothing = Last { toggle: 1, wanted: None, answer: Ok(Answer::Ok) };
        Door { lock: Lock::new(sizes, memory), last: [nothing; CARDS] }
    }

    pub fn lock(&self) -> &Lock<M> {
        &self.lock
    }

    pub fn last(&self, card: usize) -> &Last {
        &self.last[card]
    }

    pub fn call(&mut self, call: Call) -> Result<Answer, Refused> {
        let card = call.card();
        if card >= self.lock.sizes().cards() {
            return Err(Refused::NoCard);
        }
        match call {
            Call::Request { toggle, kind, first, second, .. } => self.request(card, toggle, kind, first, second),
            Call::Step { .. } => Ok(self.lock.step(card)?),
            Call::Abort { .. } => Ok(self.lock.abort(card)?),
            Call::Reuse { node, values, .. } => Ok(self.lock.reuse(card, node, values)?),
        }
    }

    fn request(&mut self, card: usize, toggle: u16, kind: u16, first: u16, second: u16) -> Result<Answer, Refused> {
        if toggle > 1 {
            return Err(Refused::Malformed);
        }
        let wanted = Wanted::new(kind, first, second).ok_or(Refused::Malformed)?;
        let last = &self.last[card];
        if toggle == last.toggle {
            return if last.wanted == Some(wanted) { Ok(last.answer?) } else { Err(Refused::Differs) };
        }
        let answer = match wanted {
            Wanted::Enter { mode, node } => self.lock.enter(card, node, mode),
            Wanted::Leave => self.lock.leave(card),
            Wanted::Add { counter, amount } => self.lock.add(card, counter, amount),
            Wanted::Show { counter } => self.lock.show(card, counter),
        };
        self.last[card] = Last { toggle, wanted: Some(wanted), answer };
        Ok(answer?)
    }
}
