//! The calls that both boards are given, drawn once from a fixed seed, and their code as numbers.

use independent::deferred::Deferred;
use independent::door::{Call, Door};
use independent::lock::{Sizes, Stage};
use independent::random::{Drawer, Random, Style};

/// The largest board: eight cards, 32 nodes, eight counters.
pub fn largest() -> Sizes {
    Sizes::new(8, 32, 8).expect("these sizes are in range")
}

pub struct Workload {
    pub name: &'static str,
    style: Style,
    seed: u64,
}

/// Readers and writers all after the lock at once, with adds, resends, aborts, reuses and calls that are refused; and
/// readers that mostly read, with a writer now and then.
pub const WORKLOADS: [Workload; 2] = [
    Workload {
        name: "contended",
        style: Style { sticks: 0, reads: 50, lingers: 50, aborts: 3, resends: 5, wrongs: 2, reuses: 1 },
        seed: 1,
    },
    Workload {
        name: "read-mostly",
        style: Style { sticks: 60, reads: 97, lingers: 80, aborts: 0, resends: 2, wrongs: 0, reuses: 0 },
        seed: 2,
    },
];

/// A call, with the stage that its card was at.
pub struct Drawn {
    pub call: Call,
    pub stage: Option<Stage>,
}

impl Workload {
    pub fn draw(&self, count: usize) -> Vec<Drawn> {
        let mut drawer = Drawer::new(Random::new(self.seed), self.style);
        let mut door = Door::new(largest(), Deferred::default());
        let mut drawn = Vec::with_capacity(count);
        for _ in 0..count {
            let call = drawer.call(&door);
            let stage = door.lock().cards().get(call.card()).map(|card| card.stage);
            let _ = door.call(call);
            drawn.push(Drawn { call, stage });
        }
        drawn
    }
}

/// Seven numbers to a call: what it is, its card, and five numbers more, 0 where unused.
pub fn encoded(drawn: &[Drawn]) -> Vec<u16> {
    drawn.iter().flat_map(|d| code(d.call)).collect()
}

const STEP: u16 = 0;
const ABORT: u16 = 1;
const REUSE: u16 = 2;
const REQUEST: u16 = 3;

fn code(call: Call) -> [u16; 7] {
    match call {
        Call::Step { card } => [STEP, card, 0, 0, 0, 0, 0],
        Call::Abort { card } => [ABORT, card, 0, 0, 0, 0, 0],
        Call::Reuse { card, node, values: [next, prev, state, spin] } => [REUSE, card, node, next, prev, state, spin],
        Call::Request { card, toggle, kind, first, second } => [REQUEST, card, toggle, kind, first, second, 0],
    }
}

pub fn decode(code: &[u16]) -> Call {
    match *code {
        [STEP, card, ..] => Call::Step { card },
        [ABORT, card, ..] => Call::Abort { card },
        [REUSE, card, node, next, prev, state, spin] => Call::Reuse { card, node, values: [next, prev, state, spin] },
        [_, card, toggle, kind, first, second, ..] => Call::Request { card, toggle, kind, first, second },
        _ => Call::Step { card: u16::MAX },
    }
}
