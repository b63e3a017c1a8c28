//! Random calls that lead a board deep into contention, the same for the same seed.

use crate::door::{Call, Door, Wanted};
use crate::lock::{Mode, Stage};
use crate::memory::Memory;

/// The generator splitmix64.
#[derive(Clone)]
pub struct Random(u64);

impl Random {
    pub fn new(seed: u64) -> Self {
        Random(seed)
    }

    pub fn draw(&mut self) -> u64 {
        self.0 = self.0.wrapping_add(0x9e37_79b9_7f4a_7c15);
        let mut z = self.0;
        z = (z ^ (z >> 30)).wrapping_mul(0xbf58_476d_1ce4_e5b9);
        z = (z ^ (z >> 27)).wrapping_mul(0x94d0_49bb_1331_11eb);
        z ^ (z >> 31)
    }

    /// A number below `bound`, which is not 0.
    pub fn below(&mut self, bound: usize) -> usize {
        (self.draw() % bound as u64) as usize
    }

    /// True in `percent` of a hundred draws.
    pub fn chance(&mut self, percent: usize) -> bool {
        self.below(100) < percent
    }

    pub fn pick<T: Copy>(&mut self, items: &[T]) -> T {
        items[self.below(items.len())]
    }

    pub fn value(&mut self) -> u16 {
        let any = self.draw() as u16;
        self.pick(&[0, 1, 2, 3, 4, 33, 65_535, any])
    }
}

/// How a run is drawn; each number is a percentage.
#[derive(Clone, Copy, Debug)]
pub struct Style {
    /// The same card goes on.
    pub sticks: usize,
    pub reads: usize,
    /// A card inside stays there and does something harmless instead of leaving.
    pub lingers: usize,
    pub aborts: usize,
    pub resends: usize,
    /// Wrong cards, nodes, toggles, differing resends, calls at the wrong stage.
    pub wrongs: usize,
    pub reuses: usize,
}

impl Style {
    pub fn draw(random: &mut Random) -> Style {
        Style {
            sticks: random.pick(&[0, 30, 60, 80, 90, 95]),
            reads: random.pick(&[0, 20, 50, 80, 95, 100]),
            lingers: random.pick(&[0, 30, 70, 90, 98]),
            aborts: random.pick(&[0, 1, 5, 15]),
            resends: random.pick(&[0, 2, 10]),
            wrongs: random.pick(&[0, 1, 5, 20]),
            reuses: random.pick(&[0, 1, 5]),
        }
    }
}

/// Draws call after call, looking at the board they go to.
pub struct Drawer {
    pub random: Random,
    style: Style,
    card: usize,
}

impl Drawer {
    pub fn new(random: Random, style: Style) -> Self {
        Drawer { random, style, card: 0 }
    }

    pub fn call<M: Memory>(&mut self, door: &Door<M>) -> Call {
        let cards = door.lock().sizes().cards();
        if self.card >= cards || !self.random.chance(self.style.sticks) {
            self.card = self.random.below(cards);
        }
        // A waiting card is asked now and then, so that the run gets on.
        if door.lock().cards()[self.card].stage.waits() && self.random.chance(70) {
            self.card = self.random.below(cards);
        }
        let card = self.card;
        if self.random.chance(self.style.wrongs) {
            return self.wrong(door, card);
        }
        if self.random.chance(self.style.resends) {
            if let Some(call) = resend(door, card) {
                return call;
            }
        }
        if self.random.chance(self.style.aborts) {
            return Call::Abort { card: card as u16 };
        }
        if self.random.chance(self.style.reuses) {
            return self.reuse(door);
        }
        self.proper(door, card)
    }

    /// What a card would do of itself.
    fn proper<M: Memory>(&mut self, door: &Door<M>, card: usize) -> Call {
        match door.lock().cards()[card].stage {
            Stage::Idle => {
                let kind = if self.random.chance(self.style.reads) { 1 } else { 2 };
                let node = self.free_node(door);
                request(door, card, kind, node, 0)
            }
            Stage::Inside => {
                let counter = self.random.below(door.lock().sizes().counters()) as u16;
                if !self.random.chance(self.style.lingers) {
                    request(door, card, 3, 0, 0)
                } else if self.random.chance(50) {
                    let amount = self.random.value();
                    request(door, card, 4, counter, amount)
                } else {
                    request(door, card, 5, counter, 0)
                }
            }
            _ => Call::Step { card: card as u16 },
        }
    }

    fn free_node<M: Memory>(&mut self, door: &Door<M>) -> u16 {
        let nodes = door.lock().sizes().nodes();
        let first = self.random.below(nodes);
        let free = (0..nodes).map(|k| (first + k) % nodes).find(|&node| door.lock().is_free(node));
        free.unwrap_or(first) as u16
    }

    fn reuse<M: Memory>(&mut self, door: &Door<M>) -> Call {
        let cards = door.lock().cards();
        let idle = cards.iter().position(|card| card.stage == Stage::Idle).unwrap_or(0);
        let node = self.free_node(door);
        let values = [self.random.value(), self.random.value(), self.random.value(), self.random.value()];
        Call::Reuse { card: idle as u16, node, values }
    }

    fn wrong<M: Memory>(&mut self, door: &Door<M>, card: usize) -> Call {
        let sizes = door.lock().sizes();
        let card = card as u16;
        let some_card = self.random.pick(&[card, sizes.cards() as u16, 8, 65_535]);
        let some_node = self.random.pick(&[0, sizes.nodes() as u16 - 1, sizes.nodes() as u16, 31, 32, 65_535]);
        let some_counter = self.random.pick(&[0, sizes.counters() as u16 - 1, sizes.counters() as u16, 65_535]);
        let toggle = self.random.pick(&[0, 1, 0, 1, 2, 65_535]);
        let kind = 1 + self.random.below(5) as u16;
        let (first, second) = match kind {
            1 | 2 => (some_node, 0),
            4 => (some_counter, self.random.value()),
            5 => (some_counter, 0),
            _ => (0, 0),
        };
        match self.random.below(8) {
            0 => Call::Step { card: some_card },
            1 => Call::Abort { card: some_card },
            2 => Call::Reuse { card: some_card, node: some_node, values: [self.random.value(); 4] },
            3 => Call::Step { card },
            4 => Call::Request { card: some_card, toggle, kind, first, second },
            _ => Call::Request { card, toggle, kind, first, second },
        }
    }
}

/// A new request of the card: with the other toggle.
pub fn request<M: Memory>(door: &Door<M>, card: usize, kind: u16, first: u16, second: u16) -> Call {
    let toggle = 1 - door.last(card).toggle;
    Call::Request { card: card as u16, toggle, kind, first, second }
}

/// The card's last request once more, if there was one.
pub fn resend<M: Memory>(door: &Door<M>, card: usize) -> Option<Call> {
    let last = door.last(card);
    let (kind, first, second) = match last.wanted? {
        Wanted::Enter { mode: Mode::Read, node } => (1, node, 0),
        Wanted::Enter { mode: Mode::Write, node } => (2, node, 0),
        Wanted::Leave => (3, 0, 0),
        Wanted::Add { counter, amount } => (4, counter, amount),
        Wanted::Show { counter } => (5, counter, 0),
    };
    Some(Call::Request { card: card as u16, toggle: last.toggle, kind, first, second })
}
