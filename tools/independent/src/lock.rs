//! The lock: stages, the table of steps, and its calls on any memory. Judges refusals 1 and 5 to 8.

use crate::memory::{Fault, Memory, Refusal, CARDS};

/// The sizes of a board, in range.
#[derive(Clone, Copy, Debug, PartialEq, Eq, Hash)]
pub struct Sizes {
    cards: usize,
    nodes: usize,
    counters: usize,
}

impl Sizes {
    /// `None` is refusal 1.
    pub fn new(cards: u16, nodes: u16, counters: u16) -> Option<Sizes> {
        let right = (1..=8).contains(&cards) && (1..=32).contains(&nodes) && (1..=8).contains(&counters);
        right.then_some(Sizes { cards: cards.into(), nodes: nodes.into(), counters: counters.into() })
    }

    pub fn cards(&self) -> usize {
        self.cards
    }

    pub fn nodes(&self) -> usize {
        self.nodes
    }

    pub fn counters(&self) -> usize {
        self.counters
    }

    pub fn counter_cell(&self, counter: usize) -> usize {
        1 + 4 * self.nodes + counter
    }
}

pub const TAIL: usize = 0;
const READER: u16 = 1;
const WRITER: u16 = 2;
const ACTIVE_READER: u16 = 3;

pub fn link_of(node: usize) -> u16 {
    node as u16 + 1
}

/// The cells of the node that a link names. Link 0 names nobody and is never asked for.
pub fn next_of(link: u16) -> usize {
    (4 * usize::from(link)).saturating_sub(3)
}

pub fn prev_of(link: u16) -> usize {
    (4 * usize::from(link)).saturating_sub(2)
}

pub fn state_of(link: u16) -> usize {
    (4 * usize::from(link)).saturating_sub(1)
}

pub fn spin_of(link: u16) -> usize {
    4 * usize::from(link)
}

#[derive(Clone, Copy, Debug, PartialEq, Eq, Hash)]
pub enum Mode {
    Read,
    Write,
}

/// Where a card stands, with the numbers that it keeps there.
#[derive(Clone, Copy, Debug, PartialEq, Eq, Hash)]
pub enum Stage {
    Idle,
    Inside,
    W1,
    W2,
    W3 {
        pred: u16,
    },
    W4 {
        pred: u16,
    },
    W5 {
        pred: u16,
    },
    W6,
    R1,
    R2,
    R3 {
        pred: u16,
    },
    R4 {
        pred: u16,
    },
    R5 {
        pred: u16,
    },
    R6 {
        pred: u16,
    },
    /// `waits` is what ps and pred decide.
    R7 {
        waits: bool,
    },
    R8,
    R9,
    R10,
    R11,
    R12 {
        nxt: u16,
    },
    R13 {
        nxt: u16,
    },
    R14 {
        nxt: u16,
    },
    X1,
    X2,
    X3 {
        nxt: u16,
    },
    X4 {
        nxt: u16,
    },
    X5 {
        nxt: u16,
    },
    Y1,
    Y2,
    Y3 {
        pred: u16,
    },
    Y4 {
        pred: u16,
        nxt: u16,
    },
    Y5 {
        pred: u16,
        nxt: u16,
    },
    Y6 {
        nxt: u16,
    },
    /// `wakes` is what ss decides, false where Y6 was not passed.
    Y7 {
        nxt: u16,
        wakes: bool,
    },
    Y8 {
        nxt: u16,
    },
    A1 {
        counter: usize,
        amount: u16,
    },
    A2 {
        counter: usize,
        amount: u16,
        value: u16,
    },
}

impl Stage {
    /// The begin of the transaction that a card at this stage is in.
    pub fn begin(self) -> Option<Stage> {
        match self {
            Stage::W2 | Stage::W3 { .. } | Stage::W4 { .. } | Stage::W5 { .. } => Some(Stage::W1),
            Stage::R2
            | Stage::R3 { .. }
            | Stage::R4 { .. }
            | Stage::R5 { .. }
            | Stage::R6 { .. }
            | Stage::R7 { .. } => Some(Stage::R1),
            Stage::R10 | Stage::R11 | Stage::R12 { .. } => Some(Stage::R9),
            Stage::X2 | Stage::X3 { .. } | Stage::X4 { .. } => Some(Stage::X1),
            Stage::Y2
            | Stage::Y3 { .. }
            | Stage::Y4 { .. }
            | Stage::Y5 { .. }
            | Stage::Y6 { .. }
            | Stage::Y7 { .. } => Some(Stage::Y1),
            _ => None,
        }
    }

    /// Before the joining commit.
    pub fn is_entering(self) -> bool {
        matches!(self, Stage::W1 | Stage::R1) || matches!(self.begin(), Some(Stage::W1 | Stage::R1))
    }

    pub fn in_line(self) -> bool {
        !self.is_entering() && !matches!(self, Stage::Idle | Stage::X5 { .. } | Stage::Y8 { .. })
    }

    pub fn waits(self) -> bool {
        matches!(self, Stage::W6 | Stage::R8)
    }

    /// A card in the middle of an add still counts as inside.
    pub fn inside(self) -> bool {
        matches!(self, Stage::Inside | Stage::A1 { .. } | Stage::A2 { .. })
    }
}

/// A card's record. Node and mode mean something while the card is not idle.
#[derive(Clone, Copy, Debug, PartialEq, Eq, Hash)]
pub struct Card {
    pub stage: Stage,
    pub node: usize,
    pub mode: Mode,
}

impl Card {
    const IDLE: Card = Card { stage: Stage::Idle, node: 0, mode: Mode::Read };
}

#[derive(Clone, Copy, Debug, PartialEq, Eq)]
pub enum Answer {
    Ok,
    Step,
    Wait,
    Lost,
    In,
    Out,
    Added(u16),
    Count(u16),
}

/// Refusals 5 to 8.
#[derive(Clone, Copy, Debug, PartialEq, Eq)]
pub enum LockRefusal {
    NotAllowed,
    NoSuch,
    NotFree,
    Memory(Fault),
}

impl From<Fault> for LockRefusal {
    fn from(fault: Fault) -> Self {
        LockRefusal::Memory(fault)
    }
}

/// The one memory call of a row.
enum Access {
    Begin,
    Read(usize),
    Write(usize, u16),
    Commit,
    Load(usize),
    Store(usize, u16),
}

#[derive(Clone, PartialEq, Eq, Hash)]
pub struct Lock<M> {
    sizes: Sizes,
    memory: M,
    cards: [Card; CARDS],
}

impl<M: Memory> Lock<M> {
    pub fn new(sizes: Sizes, mut memory: M) -> Self {
        memory.clear();
        Lock { sizes, memory, cards: [Card::IDLE; CARDS] }
    }

    pub fn sizes(&self) -> Sizes {
        self.sizes
    }

    pub fn memory(&self) -> &M {
        &self.memory
    }

    /// The records of the cards that are on the board.
    pub fn cards(&self) -> &[Card] {
        &self.cards[..self.sizes.cards]
    }

    pub fn is_free(&self, node: usize) -> bool {
        self.cards().iter().all(|card| card.stage == Stage::Idle || card.node != node)
    }

    pub fn enter(&mut self, card: usize, node: u16, mode: Mode) -> Result<Answer, LockRefusal> {
        let node = self.idle_card_takes(card, node)?;
        let link = link_of(node);
        let state = match mode {
            Mode::Read => READER,
            Mode::Write => WRITER,
        };
        self.memory.store(card, state_of(link), state)?;
        self.memory.store(card, spin_of(link), 1)?;
        self.memory.store(card, next_of(link), 0)?;
        if mode == Mode::Read {
            self.memory.store(card, prev_of(link), 0)?;
        }
        let stage = match mode {
            Mode::Read => Stage::R1,
            Mode::Write => Stage::W1,
        };
        self.cards[card] = Card { stage, node, mode };
        Ok(Answer::Ok)
    }

    pub fn leave(&mut self, card: usize) -> Result<Answer, LockRefusal> {
        let mode = self.mode_inside(card)?;
        self.cards[card].stage = match mode {
            Mode::Read => Stage::Y1,
            Mode::Write => Stage::X1,
        };
        Ok(Answer::Ok)
    }

    pub fn add(&mut self, card: usize, counter: u16, amount: u16) -> Result<Answer, LockRefusal> {
        if self.mode_inside(card)? != Mode::Write {
            return Err(LockRefusal::NotAllowed);
        }
        let counter = self.counter(counter)?;
        self.cards[card].stage = Stage::A1 { counter, amount };
        Ok(Answer::Ok)
    }

    pub fn show(&mut self, card: usize, counter: u16) -> Result<Answer, LockRefusal> {
        self.mode_inside(card)?;
        let counter = self.counter(counter)?;
        let count = self.memory.load(card, self.sizes.counter_cell(counter))?;
        Ok(Answer::Count(count))
    }

    pub fn abort(&mut self, card: usize) -> Result<Answer, LockRefusal> {
        let begin = self.cards[card].stage.begin().ok_or(LockRefusal::NotAllowed)?;
        self.memory.drop_transaction(card)?;
        self.cards[card].stage = begin;
        Ok(Answer::Ok)
    }

    /// The values go to next, prev, state and spin, in this order.
    pub fn reuse(&mut self, card: usize, node: u16, values: [u16; 4]) -> Result<Answer, LockRefusal> {
        let node = self.idle_card_takes(card, node)?;
        for (place, value) in values.into_iter().enumerate() {
            self.memory.store(card, 1 + 4 * node + place, value)?;
        }
        Ok(Answer::Ok)
    }

    /// Takes one row of the table.
    pub fn step(&mut self, card: usize) -> Result<Answer, LockRefusal> {
        let access = self.access(card).ok_or(LockRefusal::NotAllowed)?;
        match self.perform(card, access) {
            Ok(value) => Ok(self.advance(card, value)),
            Err(fault) if fault.refusal == Refusal::Doomed => {
                if let Some(begin) = self.cards[card].stage.begin() {
                    self.cards[card].stage = begin;
                }
                Ok(Answer::Lost)
            }
            Err(fault) => Err(LockRefusal::Memory(fault)),
        }
    }

    /// Writes the nodes in line into `place`, first to last, and gives their count.
    pub fn line(&self, place: &mut [u16; CARDS]) -> usize {
        *place = [0; CARDS];
        let next = |node: usize| self.memory.look(next_of(link_of(node))).unwrap_or(0);
        let in_line = || self.cards().iter().filter(|card| card.stage.in_line()).map(|card| card.node);
        let first = in_line().find(|&node| in_line().all(|other| next(other) != link_of(node)));
        let mut link = first.map_or(0, link_of);
        let mut count = 0;
        while link != 0 && count < CARDS {
            place[count] = link - 1;
            count += 1;
            link = next(usize::from(link) - 1);
        }
        count
    }

    /// Judges 5, 6 and 7 for a call that stores into a free node.
    fn idle_card_takes(&self, card: usize, node: u16) -> Result<usize, LockRefusal> {
        let node = usize::from(node);
        if self.cards[card].stage != Stage::Idle {
            Err(LockRefusal::NotAllowed)
        } else if node >= self.sizes.nodes {
            Err(LockRefusal::NoSuch)
        } else if !self.is_free(node) {
            Err(LockRefusal::NotFree)
        } else {
            Ok(node)
        }
    }

    /// The mode of a card that may leave, add or show; in the middle of an add it may not.
    fn mode_inside(&self, card: usize) -> Result<Mode, LockRefusal> {
        match self.cards[card].stage {
            Stage::Inside => Ok(self.cards[card].mode),
            _ => Err(LockRefusal::NotAllowed),
        }
    }

    fn counter(&self, counter: u16) -> Result<usize, LockRefusal> {
        let counter = usize::from(counter);
        if counter < self.sizes.counters {
            Ok(counter)
        } else {
            Err(LockRefusal::NoSuch)
        }
    }

    /// The row's memory call; idle and inside have no row.
    fn access(&self, card: usize) -> Option<Access> {
        let Card { stage, node, .. } = self.cards[card];
        let me = link_of(node);
        Some(match stage {
            Stage::Idle | Stage::Inside => return None,
            Stage::W1 | Stage::R1 | Stage::R9 | Stage::X1 | Stage::Y1 => Access::Begin,
            Stage::W5 { .. } | Stage::R7 { .. } | Stage::R12 { .. } | Stage::X4 { .. } | Stage::Y7 { .. } => {
                Access::Commit
            }
            Stage::W2 | Stage::R2 => Access::Read(TAIL),
            Stage::W3 { .. } | Stage::R3 { .. } => Access::Write(TAIL, me),
            Stage::W4 { pred } | Stage::R5 { pred } => Access::Write(next_of(pred), me),
            Stage::W6 | Stage::R8 => Access::Load(spin_of(me)),
            Stage::R4 { pred } => Access::Write(prev_of(me), pred),
            Stage::R6 { pred } => Access::Read(state_of(pred)),
            Stage::R10 => Access::Write(state_of(me), ACTIVE_READER),
            Stage::R11 | Stage::X2 | Stage::Y3 { .. } => Access::Read(next_of(me)),
            Stage::R13 { nxt } => Access::Load(state_of(nxt)),
            Stage::R14 { nxt } | Stage::X5 { nxt } | Stage::Y8 { nxt } => Access::Store(spin_of(nxt), 0),
            Stage::X3 { nxt: 0 } => Access::Write(TAIL, 0),
            Stage::X3 { nxt } => Access::Write(prev_of(nxt), 0),
            Stage::Y2 => Access::Read(prev_of(me)),
            Stage::Y4 { pred, nxt } => Access::Write(next_of(pred), nxt),
            Stage::Y5 { pred, nxt: 0 } => Access::Write(TAIL, pred),
            Stage::Y5 { pred, nxt } => Access::Write(prev_of(nxt), pred),
            Stage::Y6 { nxt } => Access::Read(state_of(nxt)),
            Stage::A1 { counter, .. } => Access::Load(self.sizes.counter_cell(counter)),
            Stage::A2 { counter, amount, value } => {
                Access::Store(self.sizes.counter_cell(counter), value.saturating_add(amount))
            }
        })
    }

    /// Makes the memory call; 0 stands for an answer without a value.
    fn perform(&mut self, card: usize, access: Access) -> Result<u16, Fault> {
        match access {
            Access::Begin => self.memory.begin(card).map(|()| 0),
            Access::Read(cell) => self.memory.read(card, cell),
            Access::Write(cell, value) => self.memory.write(card, cell, value).map(|()| 0),
            Access::Commit => self.memory.commit(card).map(|()| 0),
            Access::Load(cell) => self.memory.load(card, cell),
            Access::Store(cell, value) => self.memory.store(card, cell, value).map(|()| 0),
        }
    }

    /// Moves the card along its row, after the memory accepted the call with this value.
    fn advance(&mut self, card: usize, value: u16) -> Answer {
        let before = self.cards[card].stage;
        let after = entering(before, value).or_else(|| leaving(before, value)).unwrap_or(before);
        self.cards[card].stage = after;
        if after == Stage::Idle {
            self.cards[card] = Card::IDLE;
        }
        match (before, after) {
            (Stage::A2 { amount, value, .. }, _) => Answer::Added(value.saturating_add(amount)),
            (Stage::W6, Stage::W6) | (Stage::R8, Stage::R8) => Answer::Wait,
            (_, Stage::Inside) => Answer::In,
            (_, Stage::Idle) => Answer::Out,
            _ => Answer::Step,
        }
    }
}

/// The rows of entering: where the card goes by the memory's answer.
fn entering(stage: Stage, value: u16) -> Option<Stage> {
    Some(match stage {
        Stage::W1 => Stage::W2,
        Stage::W2 => Stage::W3 { pred: value },
        Stage::W3 { pred: 0 } => Stage::W5 { pred: 0 },
        Stage::W3 { pred } => Stage::W4 { pred },
        Stage::W4 { pred } => Stage::W5 { pred },
        Stage::W5 { pred: 0 } => Stage::Inside,
        Stage::W5 { .. } => Stage::W6,
        Stage::W6 if value == 0 => Stage::Inside,
        Stage::W6 => Stage::W6,
        Stage::R1 => Stage::R2,
        Stage::R2 => Stage::R3 { pred: value },
        Stage::R3 { pred: 0 } => Stage::R7 { waits: false },
        Stage::R3 { pred } => Stage::R4 { pred },
        Stage::R4 { pred } => Stage::R5 { pred },
        Stage::R5 { pred } => Stage::R6 { pred },
        Stage::R6 { .. } => Stage::R7 { waits: value != ACTIVE_READER },
        Stage::R7 { waits: true } => Stage::R8,
        Stage::R7 { waits: false } => Stage::R9,
        Stage::R8 if value == 0 => Stage::R9,
        Stage::R8 => Stage::R8,
        Stage::R9 => Stage::R10,
        Stage::R10 => Stage::R11,
        Stage::R11 => Stage::R12 { nxt: value },
        Stage::R12 { nxt: 0 } => Stage::Inside,
        Stage::R12 { nxt } => Stage::R13 { nxt },
        Stage::R13 { nxt } if value == READER => Stage::R14 { nxt },
        Stage::R13 { .. } | Stage::R14 { .. } => Stage::Inside,
        _ => return None,
    })
}

/// The rows of leaving and adding.
fn leaving(stage: Stage, value: u16) -> Option<Stage> {
    Some(match stage {
        Stage::X1 => Stage::X2,
        Stage::X2 => Stage::X3 { nxt: value },
        Stage::X3 { nxt } => Stage::X4 { nxt },
        Stage::X4 { nxt: 0 } => Stage::Idle,
        Stage::X4 { nxt } => Stage::X5 { nxt },
        Stage::X5 { .. } | Stage::Y8 { .. } => Stage::Idle,
        Stage::Y1 => Stage::Y2,
        Stage::Y2 => Stage::Y3 { pred: value },
        Stage::Y3 { pred: 0 } => Stage::Y5 { pred: 0, nxt: value },
        Stage::Y3 { pred } => Stage::Y4 { pred, nxt: value },
        Stage::Y4 { pred, nxt } => Stage::Y5 { pred, nxt },
        Stage::Y5 { pred: 0, nxt } if nxt != 0 => Stage::Y6 { nxt },
        Stage::Y5 { nxt, .. } => Stage::Y7 { nxt, wakes: false },
        Stage::Y6 { nxt } => Stage::Y7 { nxt, wakes: value == WRITER },
        Stage::Y7 { nxt, wakes: true } => Stage::Y8 { nxt },
        Stage::Y7 { .. } => Stage::Idle,
        Stage::A1 { counter, amount } => Stage::A2 { counter, amount, value },
        Stage::A2 { .. } => Stage::Inside,
        _ => return None,
    })
}
