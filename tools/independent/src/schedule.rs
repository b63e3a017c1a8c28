//! From text to sizes and events.

use crate::door::Call;

pub const LONGEST: usize = 65_535;
pub const MOST_EVENTS: u16 = 2_000;

/// Refusal 31 at this line.
#[derive(Clone, Copy, Debug, PartialEq, Eq)]
pub struct BadLine(pub usize);

/// Hands out the lines of a text, one after the other.
pub struct Lines<'a> {
    rest: &'a [u8],
    /// The number of the line that comes next.
    number: usize,
}

impl<'a> Lines<'a> {
    pub fn new(text: &'a [u8]) -> Self {
        Lines { rest: text, number: 1 }
    }

    /// Takes the next line and reads it; a line that is missing, has no end or cannot be read is bad.
    fn take<T>(&mut self, read: impl FnOnce(&[u8]) -> Option<T>) -> Result<T, BadLine> {
        let bad = BadLine(self.number);
        let end = self.rest.iter().position(|&byte| byte == b'\n').ok_or(bad)?;
        let value = read(&self.rest[..end]).ok_or(bad)?;
        self.rest = &self.rest[end + 1..];
        self.number += 1;
        Ok(value)
    }

    /// The sizes, of their form but not judged.
    pub fn sizes(&mut self) -> Result<[u16; 3], BadLine> {
        self.take(|line| (line == b"3").then_some(()))?;
        Ok([self.take(number)?, self.take(number)?, self.take(number)?])
    }

    pub fn event_count(&mut self) -> Result<u16, BadLine> {
        self.take(|line| number(line).filter(|&count| count <= MOST_EVENTS))
    }

    pub fn event(&mut self) -> Result<Call, BadLine> {
        self.take(event)
    }

    pub fn end(&self) -> Result<(), BadLine> {
        if self.rest.is_empty() {
            Ok(())
        } else {
            Err(BadLine(self.number))
        }
    }
}

fn number(digits: &[u8]) -> Option<u16> {
    if digits.is_empty() || (digits[0] == b'0' && digits.len() > 1) {
        return None;
    }
    digits.iter().try_fold(0u16, |number, digit| {
        let digit = digit.is_ascii_digit().then(|| u16::from(digit - b'0'))?;
        number.checked_mul(10)?.checked_add(digit)
    })
}

/// Exactly `COUNT` numbers, each after one space.
fn numbers<const COUNT: usize>(text: &[u8]) -> Option<[u16; COUNT]> {
    // The text before the first space is empty, or the line is not of its form.
    let mut words = text.split(|&byte| byte == b' ');
    if !words.next()?.is_empty() {
        return None;
    }
    let mut values = [0; COUNT];
    for value in &mut values {
        *value = number(words.next()?)?;
    }
    words.next().is_none().then_some(values)
}

fn event(line: &[u8]) -> Option<Call> {
    let (&letter, rest) = line.split_first()?;
    let request = |card, toggle, kind, first, second| Call::Request { card, toggle, kind, first, second };
    Some(match letter {
        b'r' => numbers(rest).map(|[card, toggle, node]| request(card, toggle, 1, node, 0))?,
        b'w' => numbers(rest).map(|[card, toggle, node]| request(card, toggle, 2, node, 0))?,
        b'l' => numbers(rest).map(|[card, toggle]| request(card, toggle, 3, 0, 0))?,
        b'a' => numbers(rest).map(|[card, toggle, counter, amount]| request(card, toggle, 4, counter, amount))?,
        b'c' => numbers(rest).map(|[card, toggle, counter]| request(card, toggle, 5, counter, 0))?,
        b's' => numbers(rest).map(|[card]| Call::Step { card })?,
        b'x' => numbers(rest).map(|[card]| Call::Abort { card })?,
        b'u' => numbers(rest).map(|[card, node, next, prev, state, spin]| Call::Reuse {
            card,
            node,
            values: [next, prev, state, spin],
        })?,
        _ => return None,
    })
}

/// The line of an event, for those who write schedules. A request must be one that an event line can say.
pub fn write_event(call: &Call) -> String {
    match *call {
        Call::Request { card, toggle, kind: 1, first, .. } => format!("r {card} {toggle} {first}"),
        Call::Request { card, toggle, kind: 2, first, .. } => format!("w {card} {toggle} {first}"),
        Call::Request { card, toggle, kind: 4, first, second } => format!("a {card} {toggle} {first} {second}"),
        Call::Request { card, toggle, kind: 5, first, .. } => format!("c {card} {toggle} {first}"),
        Call::Request { card, toggle, .. } => format!("l {card} {toggle}"),
        Call::Step { card } => format!("s {card}"),
        Call::Abort { card } => format!("x {card}"),
        Call::Reuse { card, node, values: [a, b, c, d] } => format!("u {card} {node} {a} {b} {c} {d}"),
    }
}
