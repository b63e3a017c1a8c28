//! What a memory means, and what both memories share: transactions, their marks and writes, and dooming.

pub const CELLS: usize = 137;
pub const CARDS: usize = 8;
/// Most marks, and most writes, of one transaction.
pub const MOST: usize = 4;

#[derive(Clone, Copy, Debug, PartialEq, Eq)]
pub enum Refusal {
    OutOfRange,
    TransactionThere,
    NoTransaction,
    Doomed,
    Full,
}

impl Refusal {
    pub fn number(self) -> u16 {
        match self {
            Refusal::OutOfRange => 21,
            Refusal::TransactionThere => 22,
            Refusal::NoTransaction => 23,
            Refusal::Doomed => 24,
            Refusal::Full => 25,
        }
    }
}

/// A refusal with the card and the cell of the call, 0 where the call has none.
#[derive(Clone, Copy, Debug, PartialEq, Eq)]
pub struct Fault {
    pub refusal: Refusal,
    pub card: usize,
    pub cell: usize,
}

pub trait Memory {
    fn clear(&mut self);
    fn look(&self, cell: usize) -> Result<u16, Fault>;
    fn load(&mut self, card: usize, cell: usize) -> Result<u16, Fault>;
    fn store(&mut self, card: usize, cell: usize, value: u16) -> Result<(), Fault>;
    fn begin(&mut self, card: usize) -> Result<(), Fault>;
    fn read(&mut self, card: usize, cell: usize) -> Result<u16, Fault>;
    fn write(&mut self, card: usize, cell: usize, value: u16) -> Result<(), Fault>;
    fn commit(&mut self, card: usize) -> Result<(), Fault>;
    /// The call `drop`; the name is taken in Rust.
    fn drop_transaction(&mut self, card: usize) -> Result<(), Fault>;
    /// For checks only: everything that the rules let a memory be asked about.
    fn meaning(&self) -> Meaning;
}

/// The standing values and the eight transactions.
#[derive(Clone, Debug, PartialEq, Eq)]
pub struct Meaning {
    pub cells: [u16; CELLS],
    pub transactions: [TransactionMeaning; CARDS],
}

#[derive(Clone, Debug, PartialEq, Eq)]
pub enum TransactionMeaning {
    None,
    Open { marks: Vec<usize>, writes: Vec<(usize, u16)> },
    Doomed,
}

/// A record about one cell.
pub(crate) trait AboutCell {
    fn cell(&self) -> usize;
}

#[derive(Clone, Copy, Default, PartialEq, Eq, Hash)]
pub(crate) struct Mark(pub u8);

impl AboutCell for Mark {
    fn cell(&self) -> usize {
        usize::from(self.0)
    }
}

/// A written cell with a number: the new value in the deferred memory, the old one in the in-place memory.
#[derive(Clone, Copy, Default, PartialEq, Eq, Hash)]
pub(crate) struct Written {
    pub cell: u8,
    pub value: u16,
}

impl AboutCell for Written {
    fn cell(&self) -> usize {
        usize::from(self.cell)
    }
}

/// At most four records, each about another cell, in order of arrival.
#[derive(Clone, Copy, Default, PartialEq, Eq, Hash)]
pub(crate) struct Few<T> {
    items: [T; MOST],
    len: u8,
}

impl<T: AboutCell + Copy> Few<T> {
    pub fn as_slice(&self) -> &[T] {
        &self.items[..usize::from(self.len)]
    }

    pub fn position(&self, cell: usize) -> Option<usize> {
        self.as_slice().iter().position(|item| item.cell() == cell)
    }

    pub fn has(&self, cell: usize) -> bool {
        self.position(cell).is_some()
    }

    pub fn find(&self, cell: usize) -> Option<&T> {
        self.as_slice().iter().find(|item| item.cell() == cell)
    }

    pub fn find_mut(&mut self, cell: usize) -> Option<&mut T> {
        let position = self.position(cell)?;
        Some(&mut self.items[position])
    }

    pub fn is_full(&self) -> bool {
        usize::from(self.len) == MOST
    }

    /// Only where it is not full.
    pub fn push(&mut self, item: T) {
        self.items[usize::from(self.len)] = item;
        self.len += 1;
    }
}

#[derive(Clone, Copy, Default, PartialEq, Eq, Hash)]
pub(crate) struct Open {
    pub marks: Few<Mark>,
    pub writes: Few<Written>,
}

#[derive(Clone, Copy, Default, PartialEq, Eq, Hash)]
pub(crate) enum Transaction {
    #[default]
    None,
    Open(Open),
    Doomed,
}

/// Which of the others lose when a card touches a cell.
#[derive(Clone, Copy, PartialEq, Eq)]
pub(crate) enum Touch {
    /// Load and read: those that have written the cell.
    Looks,
    /// Store and write: those that have marked or written it.
    Changes,
}

/// The transactions of the eight cards.
#[derive(Clone, Default, PartialEq, Eq, Hash)]
pub(crate) struct Transactions {
    of: [Transaction; CARDS],
}

impl Transactions {
    pub fn get(&self, card: usize) -> &Transaction {
        &self.of[card]
    }

    pub fn all(&self) -> &[Transaction; CARDS] {
        &self.of
    }

    pub fn close(&mut self, card: usize) {
        self.of[card] = Transaction::None;
    }

    /// Judges 21 and 22.
    pub fn want_none(&self, card: usize, cell: usize) -> Result<(), Fault> {
        in_range(card, cell)?;
        match self.of[card] {
            Transaction::None => Ok(()),
            _ => Err(Fault { refusal: Refusal::TransactionThere, card, cell }),
        }
    }

    pub fn open(&mut self, card: usize) -> Result<(), Fault> {
        self.want_none(card, 0)?;
        self.of[card] = Transaction::Open(Open::default());
        Ok(())
    }

    /// Judges 21, 23 and 24; 24 closes the transaction.
    pub fn want_open(&mut self, card: usize, cell: usize) -> Result<&mut Open, Fault> {
        in_range(card, cell)?;
        let transaction = &mut self.of[card];
        if let Transaction::Doomed = transaction {
            *transaction = Transaction::None;
            return Err(Fault { refusal: Refusal::Doomed, card, cell });
        }
        match transaction {
            Transaction::Open(open) => Ok(open),
            _ => Err(Fault { refusal: Refusal::NoTransaction, card, cell }),
        }
    }

    /// Judges 21 and 23: a drop takes an open or a doomed transaction, and gets the open one to undo.
    pub fn take(&mut self, card: usize) -> Result<Option<Open>, Fault> {
        in_range(card, 0)?;
        match std::mem::take(&mut self.of[card]) {
            Transaction::None => Err(Fault { refusal: Refusal::NoTransaction, card, cell: 0 }),
            Transaction::Open(open) => Ok(Some(open)),
            Transaction::Doomed => Ok(None),
        }
    }

    /// The requester wins: dooms the other cards' open transactions that are in the way, and hands each to `undo`.
    pub fn doom_others(&mut self, card: usize, cell: usize, touch: Touch, mut undo: impl FnMut(&Open)) {
        for (other, transaction) in self.of.iter_mut().enumerate() {
            if other == card {
                continue;
            }
            if let Transaction::Open(open) = transaction {
                if open.writes.has(cell) || (touch == Touch::Changes && open.marks.has(cell)) {
                    undo(open);
                    *transaction = Transaction::Doomed;
                }
            }
        }
    }
}

fn in_range(card: usize, cell: usize) -> Result<(), Fault> {
    if cell < CELLS && card < CARDS {
        Ok(())
    } else {
        Err(Fault { refusal: Refusal::OutOfRange, card, cell })
    }
}

/// Judges 21 for a call without a card.
pub(crate) fn is_cell(cell: usize) -> Result<(), Fault> {
    in_range(0, cell)
}

/// A cell number that was judged to be in range; 136 fits a byte.
pub(crate) fn small(cell: usize) -> u8 {
    debug_assert!(cell < CELLS);
    cell as u8
}
