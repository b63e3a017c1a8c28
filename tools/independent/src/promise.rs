//! The promises of docs/promise.md that speak of one moment, as checks on the standing cells, the cards and the line.

use crate::lock::{link_of, next_of, prev_of, spin_of, state_of, Card, Mode, Sizes, Stage, TAIL};
use crate::memory::{Meaning, TransactionMeaning};

/// A place in line.
#[derive(Clone, Copy, Debug, PartialEq, Eq, Hash)]
pub struct Place {
    pub card: usize,
    pub node: usize,
    pub mode: Mode,
}

/// One moment of a run: what stands in the memory, and what the book says.
pub struct Moment<'a> {
    pub sizes: Sizes,
    pub meaning: &'a Meaning,
    pub cards: &'a [Card],
    pub line: &'a [Place],
    /// The sum of each counter's finished adds.
    pub sums: &'a [u64],
}

impl Moment<'_> {
    pub fn check(&self) -> Result<(), String> {
        self.check_apart()?;
        self.check_places()?;
        self.check_linked()?;
        self.check_inside()?;
        self.check_wakes()?;
        self.check_counts()
    }

    fn cell(&self, cell: usize) -> u16 {
        self.meaning.cells[cell]
    }

    fn is_active(&self, place: &Place) -> bool {
        self.cell(state_of(link_of(place.node))) == 3
    }

    /// Exactly the cards that are in line by stage have a place, each once and with its own node and mode.
    fn check_places(&self) -> Result<(), String> {
        for (k, place) in self.line.iter().enumerate() {
            let card = self.cards[place.card];
            ensure(card.stage.in_line() && card.node == place.node && card.mode == place.mode, || {
                format!("card {} is in line with node {} but stands at {card:?}", place.card, place.node)
            })?;
            ensure(self.line[..k].iter().all(|other| other.card != place.card && other.node != place.node), || {
                format!("card {} or its node is in line twice", place.card)
            })?;
        }
        let by_stage = self.cards.iter().filter(|card| card.stage.in_line()).count();
        ensure(by_stage == self.line.len(), || {
            format!("{by_stage} cards are in line by stage, {} by the book", self.line.len())
        })
    }

    fn check_linked(&self) -> Result<(), String> {
        let tail = self.line.last().map_or(0, |place| link_of(place.node));
        ensure(self.cell(TAIL) == tail, || format!("tail is {}, not {tail}", self.cell(TAIL)))?;
        for (k, place) in self.line.iter().enumerate() {
            let link = link_of(place.node);
            let behind = self.line.get(k + 1).map_or(0, |next| link_of(next.node));
            let ahead = if k == 0 { 0 } else { link_of(self.line[k - 1].node) };
            let (next, prev) = (self.cell(next_of(link)), self.cell(prev_of(link)));
            ensure(next == behind, || format!("next of node {} is {next}, not {behind}", place.node))?;
            ensure(place.mode == Mode::Write || prev == ahead, || {
                format!("prev of reader's node {} is {prev}, not {ahead}", place.node)
            })?;
        }
        Ok(())
    }

    fn check_inside(&self) -> Result<(), String> {
        let inside = self.cards.iter().filter(|card| card.stage.inside()).count();
        for (number, card) in self.cards.iter().enumerate().filter(|(_, card)| card.stage.inside()) {
            let k = self.line.iter().position(|place| place.card == number);
            let k = k.ok_or_else(|| format!("card {number} is inside and not in line"))?;
            match card.mode {
                Mode::Write => ensure(inside == 1 && k == 0, || {
                    format!("writer {number} is inside with {inside} cards, at place {k}")
                })?,
                Mode::Read => ensure(self.line[..k].iter().all(|place| self.is_active(place)), || {
                    format!("reader {number} is inside and somebody ahead is no active reader")
                })?,
            }
        }
        // Said under "why it holds": the active readers are a front part of the line.
        let front = self.line.iter().take_while(|place| self.is_active(place)).count();
        ensure(!self.line[front..].iter().any(|place| self.is_active(place)), || {
            "the active readers are no front part of the line".into()
        })
    }

    fn turn_has_come(&self, k: usize) -> bool {
        k == 0 || (self.line[k].mode == Mode::Read && self.is_active(&self.line[k - 1]))
    }

    /// Waiting cards whose turn has come with a spin that is not 0.
    pub fn owed(&self) -> impl Iterator<Item = Place> + '_ {
        let owed = |&k: &usize| {
            let place = self.line[k];
            let waits = self.cards[place.card].stage.waits();
            waits && self.turn_has_come(k) && self.cell(spin_of(link_of(place.node))) != 0
        };
        (0..self.line.len()).filter(owed).map(|k| self.line[k])
    }

    /// The other cards that owe this one its wake, each with the number of its steps that it takes, 1 or 2. A card at
    /// one of these stages is moved by its own step only.
    pub fn wakers(&self, owed: Place) -> impl Iterator<Item = (usize, usize)> + '_ {
        let me = link_of(owed.node);
        let others = self.cards.iter().enumerate().filter(move |(number, _)| *number != owed.card);
        others.filter_map(move |(number, card)| match card.stage {
            Stage::X5 { nxt } | Stage::Y8 { nxt } | Stage::R14 { nxt } if nxt == me => Some((number, 1)),
            Stage::R13 { nxt } if nxt == me && self.cell(state_of(me)) == 1 => Some((number, 2)),
            _ => None,
        })
    }

    fn check_wakes(&self) -> Result<(), String> {
        for place in self.owed() {
            ensure(self.wakers(place).next().is_some(), || {
                format!("card {} waits, its turn has come, and nobody will wake it", place.card)
            })?;
        }
        let owes = |card: &&Card| matches!(card.stage, Stage::X5 { .. } | Stage::Y8 { .. });
        let leaving = self.cards.iter().filter(owes).count();
        ensure(leaving <= 1, || format!("{leaving} leaving cards owe a wake"))
    }

    fn check_counts(&self) -> Result<(), String> {
        for (counter, &sum) in self.sums.iter().enumerate() {
            let count = self.cell(self.sizes.counter_cell(counter));
            ensure(u64::from(count) == sum.min(65_535), || {
                format!("counter {counter} holds {count}, the finished adds are {sum}")
            })?;
        }
        Ok(())
    }

    /// What one open transaction has written, no other open one has marked or written; at most four, once each.
    fn check_apart(&self) -> Result<(), String> {
        for (card, one) in self.meaning.transactions.iter().enumerate() {
            let TransactionMeaning::Open { marks, writes } = one else { continue };
            let written: Vec<usize> = writes.iter().map(|write| write.0).collect();
            let few = marks.len() <= 4 && written.len() <= 4;
            ensure(few && once(marks) && once(&written), || format!("card {card} has too many marks or writes"))?;
            for (other, another) in self.meaning.transactions.iter().enumerate() {
                let TransactionMeaning::Open { marks, writes } = another else { continue };
                let touched = |cell: &usize| marks.contains(cell) || writes.iter().any(|write| write.0 == *cell);
                ensure(other == card || !written.iter().any(touched), || {
                    format!("the open transactions of cards {card} and {other} overlap")
                })?;
            }
        }
        Ok(())
    }
}

/// No request, step or abort changes a cell of a node that is free before and after it; a reuse only its own node.
pub fn check_free_nodes(
    reused: Option<usize>,
    free: impl Iterator<Item = usize>,
    before: &Meaning,
    after: &Meaning,
) -> Result<(), String> {
    for node in free {
        let cells = 1 + 4 * node..5 + 4 * node;
        let same = before.cells[cells.clone()] == after.cells[cells];
        ensure(same || reused == Some(node), || format!("free node {node} was changed"))?;
    }
    Ok(())
}

fn once(cells: &[usize]) -> bool {
    cells.iter().enumerate().all(|(k, cell)| !cells[..k].contains(cell))
}

pub(crate) fn ensure(holds: bool, what: impl FnOnce() -> String) -> Result<(), String> {
    if holds {
        Ok(())
    } else {
        Err(what())
    }
}
