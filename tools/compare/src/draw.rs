//! Draws schedules: runs deep into contention, and texts that are damaged, huge, empty or nonsense.

use independent::deferred::Deferred;
use independent::door::{Call, Door};
use independent::lock::Sizes;
use independent::random::{Drawer, Random, Style};
use independent::schedule::{write_event, Lines, LONGEST};

#[derive(Clone, Copy, Debug, PartialEq, Eq)]
pub enum Kind {
    /// A run as cards would make it.
    Run,
    /// Up to 2,000 events.
    LongRun,
    /// Lines of every letter with numbers drawn without looking at the board.
    Wild,
    /// A run's text with a few bytes or lines changed.
    Damaged,
    /// Sizes at and past their limits.
    Sizes,
    /// At and past 65,535 bytes, and a number of events at and past 2,000.
    Huge,
    /// Empty, or bytes without sense.
    Nonsense,
}

impl Kind {
    pub const ALL: [Kind; 7] =
        [Kind::Run, Kind::LongRun, Kind::Wild, Kind::Damaged, Kind::Sizes, Kind::Huge, Kind::Nonsense];

    pub fn name(self) -> &'static str {
        match self {
            Kind::Run => "runs",
            Kind::LongRun => "long runs",
            Kind::Wild => "wild runs",
            Kind::Damaged => "damaged texts",
            Kind::Sizes => "odd sizes",
            Kind::Huge => "huge texts",
            Kind::Nonsense => "nonsense",
        }
    }
}

pub struct Schedule {
    pub kind: Kind,
    pub text: Vec<u8>,
    /// The sizes and the events that the text says, as far as it is of its form.
    pub sizes: Option<Sizes>,
    pub calls: Vec<Call>,
}

impl Schedule {
    /// The schedule of this seed and index, the same each time.
    pub fn draw(seed: u64, index: u64) -> Schedule {
        let mut random = Random::new(Random::new(seed ^ index.wrapping_mul(0xd134_2543_de82_ef95)).draw());
        let kind = match random.below(100) {
            0..=54 => Kind::Run,
            55..=62 => Kind::LongRun,
            63..=70 => Kind::Wild,
            71..=90 => Kind::Damaged,
            91..=94 => Kind::Sizes,
            95..=96 => Kind::Huge,
            _ => Kind::Nonsense,
        };
        let text = match kind {
            Kind::Run => {
                let most = random.pick(&[10, 40, 150, 400]);
                run_text(&mut random, most)
            }
            Kind::LongRun => run_text(&mut random, 2_000),
            Kind::Wild => wild_text(&mut random),
            Kind::Damaged => {
                let text = run_text(&mut random, 120);
                damaged(&mut random, text)
            }
            Kind::Sizes => sizes_text(&mut random),
            Kind::Huge => huge_text(&mut random),
            Kind::Nonsense => nonsense(&mut random),
        };
        Schedule { kind, ..Schedule::from_text(text) }
    }

    pub fn from_text(text: Vec<u8>) -> Schedule {
        let (sizes, calls) = said(&text).unwrap_or((None, Vec::new()));
        Schedule { kind: Kind::Run, text, sizes, calls }
    }
}

/// What a text says, up to its first bad line.
fn said(text: &[u8]) -> Option<(Option<Sizes>, Vec<Call>)> {
    if text.len() > LONGEST {
        return None;
    }
    let mut lines = Lines::new(text);
    let [cards, nodes, counters] = lines.sizes().ok()?;
    let sizes = Sizes::new(cards, nodes, counters)?;
    let count = lines.event_count().ok()?;
    let calls = (0..count).map_while(|_| lines.event().ok()).collect();
    Some((Some(sizes), calls))
}

fn text_of(cards: u16, nodes: u16, counters: u16, events: &[String]) -> Vec<u8> {
    let mut text = format!("3\n{cards}\n{nodes}\n{counters}\n{}\n", events.len());
    for event in events {
        text.push_str(event);
        text.push('\n');
    }
    text.into_bytes()
}

/// A run of at most so many events, drawn on a board so that it goes deep.
fn run_text(random: &mut Random, most: usize) -> Vec<u8> {
    let cards = 1 + random.below(8) as u16;
    let few = cards + random.below(3) as u16;
    let nodes = random.pick(&[1, cards, few, few, 32]).min(32);
    let counters = random.pick(&[1, 2, 8]);
    let style = Style::draw(random);
    let count = if most == 2_000 { random.pick(&[2_000, 1_999, 1_000]) } else { 1 + random.below(most) };
    let Some(sizes) = Sizes::new(cards, nodes, counters) else { return Vec::new() };
    let mut door = Door::new(sizes, Deferred::default());
    let mut drawer = Drawer::new(Random::new(random.draw()), style);
    let mut events = Vec::with_capacity(count);
    for _ in 0..count {
        let call = drawer.call(&door);
        events.push(write_event(&call));
        let _ = door.call(call);
    }
    text_of(cards, nodes, counters, &events)
}

/// Every letter with numbers from a small set, whatever the board makes of them.
fn wild_text(random: &mut Random) -> Vec<u8> {
    let cards = 1 + random.below(3) as u16;
    let nodes = 1 + random.below(3) as u16;
    let count = random.below(300);
    let mut events = Vec::with_capacity(count);
    for _ in 0..count {
        let card = random.pick(&[0, 0, 0, 1, 1, 2, 3]);
        let toggle = random.pick(&[0, 1, 0, 1, 0, 1, 2]);
        let node = random.pick(&[0, 0, 1, 1, 2, 3, 65_535]);
        let value = random.value();
        events.push(match random.below(16) {
            0 | 1 => format!("r {card} {toggle} {node}"),
            2 | 3 => format!("w {card} {toggle} {node}"),
            4 => format!("l {card} {toggle}"),
            5 => format!("a {card} {toggle} {} {value}", node % 3),
            6 => format!("c {card} {toggle} {}", node % 3),
            7 => format!("x {card}"),
            8 => format!("u {card} {node} {value} {} {} {}", value / 2, value % 5, value % 3),
            _ => format!("s {card}"),
        });
    }
    text_of(cards, nodes, 2, &events)
}

/// Changes a few places of a text.
fn damaged(random: &mut Random, mut text: Vec<u8>) -> Vec<u8> {
    for _ in 0..1 + random.below(2) {
        if text.is_empty() || random.chance(50) {
            damage_bytes(random, &mut text);
        } else {
            damage_lines(random, &mut text);
        }
    }
    text
}

fn insert(text: &mut Vec<u8>, place: usize, bytes: &[u8]) {
    text.splice(place..place, bytes.iter().copied());
}

/// One change at any byte, or at the end.
fn damage_bytes(random: &mut Random, text: &mut Vec<u8>) {
    let place = random.below(text.len() + 1);
    let changed = text.get_mut(place);
    match (random.below(8), changed) {
        (0, Some(byte)) => *byte = random.draw() as u8,
        (1, Some(_)) => {
            text.remove(place);
        }
        (2, _) => text.insert(place, random.pick(b" 0123456789\n\rsxrwlacu+-\t\0\x80\xff")),
        (3, _) => text.truncate(place),
        (4, _) => {
            text.pop();
        }
        (5, _) => text.push(random.pick(b"\n x0")),
        (6, _) => insert(text, text.len(), b"s 0\n"),
        _ => {
            let odd: &[u8] = random.pick(&[b"65535".as_slice(), b"65536", b"99999", b"655350", b"4294967296", b"00"]);
            insert(text, place, odd);
        }
    }
}

/// One change at the start or the end of a line, or at a number.
fn damage_lines(random: &mut Random, text: &mut Vec<u8>) {
    let ends: Vec<usize> = (0..text.len()).filter(|&k| text[k] == b'\n').collect();
    let spaces: Vec<usize> = (0..text.len()).filter(|&k| text[k] == b' ').collect();
    let end = if ends.is_empty() { text.len() - 1 } else { random.pick(&ends) };
    let start = text[..end].iter().rposition(|&byte| byte == b'\n').map_or(0, |k| k + 1);
    match random.below(9) {
        0 => text.truncate(end + 1),
        1 => text.truncate(end),
        2 => insert(text, end, b" "),
        3 => insert(text, end, b"\r"),
        4 => insert(text, end, b" 0"),
        5 => {
            text.remove(end);
        }
        6 => {
            let line = text[start..=end].to_vec();
            insert(text, start, &line);
        }
        7 => text.drain(start..=end).for_each(drop),
        _ if spaces.is_empty() => insert(text, start, b" "),
        _ => insert(text, random.pick(&spaces) + 1, random.pick(&[b"0".as_slice(), b" ", b"-", b"6553"])),
    }
}

fn sizes_text(random: &mut Random) -> Vec<u8> {
    let lines =
        ["0", "1", "2", "7", "8", "9", "31", "32", "33", "65535", "65536", "", "01", "-1", "+1", "x", " 1", "1 "];
    let usual = |random: &mut Random| ["1", "2", "8"][random.below(3)];
    let mut text =
        String::from(if random.chance(90) { "3\n" } else { random.pick(&["4\n", "03\n", "3 \n", "\n", "3"]) });
    let odd = random.below(4);
    for k in 0..3 {
        text.push_str(if k == odd { lines[random.below(lines.len())] } else { usual(random) });
        text.push('\n');
    }
    match random.below(6) {
        0 => {}
        1 => text.push_str("zzz\n"),
        2 => text.push_str("1\ns 0\n"),
        3 => text.push_str("1\ns 0"),
        4 => text.push_str("2\nw 0 0 0\ns 0\n"),
        _ => text.push_str("0\n"),
    }
    if random.chance(20) {
        text.truncate(random.below(text.len()));
    }
    text.into_bytes()
}

fn huge_text(random: &mut Random) -> Vec<u8> {
    let mut text = match random.below(4) {
        0 => run_text(random, 2_000),
        1 => {
            // As many bytes as events can have: 2,000 reuses.
            let event = "u 0 0 65535 65535 65535 65535".to_string();
            text_of(1, 1, 1, &vec![event; 2_000])
        }
        2 => {
            let count = random.pick(&[1_999, 2_000, 2_001, 2_002]);
            text_of(1, 1, 1, &vec!["s 0".to_string(); count])
        }
        _ => b"3\n1\n1\n1\n1\ns 0\n".to_vec(),
    };
    let filler = random.pick(b"\n 0sx");
    match random.below(5) {
        0 => text.resize(65_534, filler),
        1 => text.resize(65_535, filler),
        2 => text.resize(65_536, filler),
        3 => text.resize(random.pick(&[65_537, 70_000, 131_072, 200_000]), filler),
        _ => {}
    }
    text
}

fn nonsense(random: &mut Random) -> Vec<u8> {
    let length = random.pick(&[0, 1, 2, 3, 10, 100, 5_000]);
    let printable = random.chance(60);
    let bytes = b"3\n1\n1\n1\n0\n srwlacxu0123456789";
    let mut text: Vec<u8> =
        (0..length).map(|_| if printable { random.pick(bytes) } else { random.draw() as u8 }).collect();
    if random.chance(50) {
        let mut start = b"3\n2\n2\n1\n9\n".to_vec();
        start.append(&mut text);
        text = start;
    }
    text
}
