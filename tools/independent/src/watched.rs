//! A board with its book, checked against the promises after every call.
//!
//! The board under test stands on the in-place memory. The book stands on a deferred memory of its own and is fed the
//! same calls with their arguments alone; it also keeps the line, the finished adds and what each card asked for.

use crate::deferred::Deferred;
use crate::door::{Call, Door, Refused, Wanted};
use crate::in_place::InPlace;
use crate::lock::{link_of, spin_of, Answer, LockRefusal, Mode, Sizes, Stage};
use crate::memory::{Meaning, Memory, CARDS};
use crate::promise::{check_free_nodes, ensure, Moment, Place};
use crate::random::{Drawer, Random, Style};

/// What one card asked for and what came of it, in order.
#[derive(Clone, Default)]
struct Asked {
    enters: Vec<(usize, Mode)>,
    joinings: Vec<(usize, Mode)>,
    adds: Vec<(usize, u16)>,
    finished: Vec<(usize, u16)>,
}

/// How deep a run went.
#[derive(Clone, Copy, Debug, Default)]
pub struct Depth {
    pub events: usize,
    pub joinings: usize,
    pub adds: usize,
    pub lost: usize,
    pub waits: usize,
    pub wakes: usize,
    pub resends: usize,
    pub longest_line: usize,
    pub readers_together: usize,
    /// Times that a card's turn had come while its spin was not 0: the wake was owed.
    pub owed: usize,
    /// Sampled futures of such a moment.
    pub futures: usize,
}

impl Depth {
    pub fn add(&mut self, other: &Depth) {
        self.events += other.events;
        self.joinings += other.joinings;
        self.adds += other.adds;
        self.lost += other.lost;
        self.waits += other.waits;
        self.wakes += other.wakes;
        self.resends += other.resends;
        self.longest_line = self.longest_line.max(other.longest_line);
        self.readers_together = self.readers_together.max(other.readers_together);
        self.owed += other.owed;
        self.futures += other.futures;
    }
}

/// The book.
#[derive(Clone)]
pub struct Book {
    door: Door<Deferred>,
    line: Vec<Place>,
    sums: Vec<u64>,
    asked: Vec<Asked>,
}

impl Book {
    pub fn new(sizes: Sizes) -> Self {
        Book {
            door: Door::new(sizes, Deferred::default()),
            line: Vec::new(),
            sums: vec![0; sizes.counters()],
            asked: vec![Asked::default(); sizes.cards()],
        }
    }

    pub fn line(&self) -> &[Place] {
        &self.line
    }

    /// Feeds one call and gives its answer.
    pub fn feed(&mut self, call: Call) -> Result<Answer, Refused> {
        let card = call.card();
        let before = self.door.lock().cards().get(card).copied();
        let last = before.map(|_| *self.door.last(card));
        let answer = self.door.call(call);
        let (Some(before), Some(last)) = (before, last) else { return answer };
        match (call, answer) {
            (Call::Request { toggle, kind, first, second, .. }, Ok(Answer::Ok)) if toggle != last.toggle => {
                match Wanted::new(kind, first, second) {
                    Some(Wanted::Enter { mode, node }) => self.asked[card].enters.push((node.into(), mode)),
                    Some(Wanted::Add { counter, amount }) => self.asked[card].adds.push((counter.into(), amount)),
                    _ => {}
                }
            }
            (Call::Step { .. }, Ok(moved)) if moved != Answer::Lost => match before.stage {
                Stage::W5 { .. } | Stage::R7 { .. } => {
                    self.line.push(Place { card, node: before.node, mode: before.mode });
                    self.asked[card].joinings.push((before.node, before.mode));
                }
                Stage::X4 { .. } | Stage::Y7 { .. } => self.line.retain(|place| place.card != card),
                Stage::A2 { counter, amount, .. } => {
                    self.sums[counter] += u64::from(amount);
                    self.asked[card].finished.push((counter, amount));
                }
                _ => {}
            },
            _ => {}
        }
        answer
    }

    fn stage(&self, card: usize) -> Stage {
        self.door.lock().cards()[card].stage
    }

    fn free_nodes(&self) -> Vec<usize> {
        let lock = self.door.lock();
        (0..lock.sizes().nodes()).filter(|&node| lock.is_free(node)).collect()
    }

    /// This moment, with the standing cells of the board's memory.
    fn moment<'a>(&'a self, meaning: &'a Meaning) -> Moment<'a> {
        let lock = self.door.lock();
        Moment { sizes: lock.sizes(), meaning, cards: lock.cards(), line: &self.line, sums: &self.sums }
    }

    /// No second entry, no second count: what happened is what was asked for, save what is still under way.
    fn check_asked(&self) -> Result<(), String> {
        for (card, asked) in self.asked.iter().enumerate() {
            let stage = self.stage(card);
            let entering = stage.is_entering();
            let adding = matches!(stage, Stage::A1 { .. } | Stage::A2 { .. });
            let enters = &asked.enters[..asked.enters.len() - usize::from(entering)];
            let adds = &asked.adds[..asked.adds.len() - usize::from(adding)];
            ensure(asked.joinings == enters, || format!("card {card}: joinings are not its accepted enters"))?;
            ensure(asked.finished == adds, || format!("card {card}: finished adds are not its accepted adds"))?;
        }
        Ok(())
    }
}

/// A board with its book.
#[derive(Clone)]
pub struct Watched {
    board: Door<InPlace>,
    book: Book,
    pub depth: Depth,
}

impl Watched {
    pub fn new(sizes: Sizes) -> Result<Self, String> {
        let board = Door::new(sizes, InPlace::default());
        let watched = Watched { board, book: Book::new(sizes), depth: Depth::default() };
        watched.check_moment(&watched.meaning())?;
        Ok(watched)
    }

    pub fn board(&self) -> &Door<InPlace> {
        &self.board
    }

    fn meaning(&self) -> Meaning {
        self.board.lock().memory().meaning()
    }

    /// Makes one call on both and checks every promise after it.
    pub fn call(&mut self, call: Call) -> Result<(), String> {
        let before = self.meaning();
        let free_before = self.book.free_nodes();
        let resend = self.is_resend(call);
        let answer = self.board.call(call);
        let booked = self.book.feed(call);
        let after = self.meaning();

        ensure(answer == booked, || format!("board answers {answer:?}, book {booked:?}"))?;
        let refused_by_memory = matches!(answer, Err(Refused::Lock(LockRefusal::Memory(_))));
        ensure(!refused_by_memory, || format!("refusal 8: {answer:?}"))?;
        ensure(!resend || before == after, || "a resend changed the memory".into())?;
        let reused = match call {
            Call::Reuse { node, .. } => Some(usize::from(node)),
            _ => None,
        };
        let free = free_before.into_iter().filter(|&node| self.book.door.lock().is_free(node));
        check_free_nodes(reused, free, &before, &after)?;
        self.check_moment(&after)?;
        self.note(answer, resend, &before, &after);
        Ok(())
    }

    fn is_resend(&self, call: Call) -> bool {
        let Call::Request { toggle, kind, first, second, .. } = call else { return false };
        if call.card() >= self.board.lock().sizes().cards() {
            return false;
        }
        let last = self.board.last(call.card());
        last.toggle == toggle && last.wanted.is_some() && last.wanted == Wanted::new(kind, first, second)
    }

    fn check_moment(&self, meaning: &Meaning) -> Result<(), String> {
        let book = self.book.door.lock();
        ensure(*meaning == book.memory().meaning(), || "board's and book's memory differ in meaning".into())?;
        ensure(self.board.lock().cards() == book.cards(), || "the cards differ from the book's".into())?;
        self.book.moment(meaning).check()?;
        self.check_line_call()?;
        self.book.check_asked()
    }

    fn check_line_call(&self) -> Result<(), String> {
        let mut place = [9; CARDS];
        let count = self.board.lock().line(&mut place);
        let nodes: Vec<u16> = self.book.line().iter().map(|place| place.node as u16).collect();
        let rest_empty = place[count.min(CARDS)..].iter().all(|&node| node == 0);
        ensure(count == nodes.len() && place[..count] == nodes[..] && rest_empty, || {
            format!("the line call gives {count} of {place:?}, the book {nodes:?}")
        })
    }

    fn note(&mut self, answer: Result<Answer, Refused>, resend: bool, before: &Meaning, after: &Meaning) {
        let cards = self.board.lock().cards();
        let readers = cards.iter().filter(|card| card.stage.inside() && card.mode == Mode::Read).count();
        let line = self.book.line();
        let spins = line.iter().map(|place| spin_of(link_of(place.node)));
        let wakes = spins.filter(|&cell| before.cells[cell] != 0 && after.cells[cell] == 0).count();
        let owed = self.book.moment(after).owed().count();
        let depth = &mut self.depth;
        depth.events += 1;
        depth.joinings = self.book.asked.iter().map(|asked| asked.joinings.len()).sum();
        depth.adds = self.book.asked.iter().map(|asked| asked.finished.len()).sum();
        depth.lost += usize::from(answer == Ok(Answer::Lost));
        depth.waits += usize::from(answer == Ok(Answer::Wait));
        depth.wakes += wakes;
        depth.resends += usize::from(resend);
        depth.longest_line = depth.longest_line.max(line.len());
        depth.readers_together = depth.readers_together.max(readers);
        depth.owed += owed;
    }

    /// Tries the wake promise on drawn futures: whatever the others do, the waker's next step, or the one after,
    /// sets the spin to 0.
    pub fn try_futures(&mut self, random: &mut Random) -> Result<(), String> {
        let meaning = self.meaning();
        let moment = self.book.moment(&meaning);
        let wakes: Vec<_> =
            moment.owed().flat_map(|place| moment.wakers(place).map(move |waker| (place, waker))).collect();
        for (place, (waker, steps)) in wakes {
            self.depth.futures += 1;
            let mut future = self.clone();
            for _ in 0..steps {
                future.others_do(waker, random)?;
                future.call(Call::Step { card: waker as u16 })?;
            }
            let spin = future.meaning().cells[spin_of(link_of(place.node))];
            ensure(spin == 0, || format!("card {waker} did not wake card {}", place.card))?;
        }
        Ok(())
    }

    /// A drawn list of calls that holds no step of this card.
    fn others_do(&mut self, but: usize, random: &mut Random) -> Result<(), String> {
        let style = Style::draw(random);
        let mut drawer = Drawer::new(Random::new(random.draw()), style);
        for _ in 0..random.below(40) {
            let call = drawer.call(&self.board);
            if call != (Call::Step { card: but as u16 }) {
                self.call(call)?;
            }
        }
        Ok(())
    }
}
