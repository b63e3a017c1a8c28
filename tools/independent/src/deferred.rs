//! The memory that sets written values aside until commit.

use crate::memory::{
    is_cell, small, Fault, Mark, Meaning, Memory, Refusal, Touch, Transaction, TransactionMeaning, Transactions,
    Written, CELLS,
};

#[derive(Clone, PartialEq, Eq, Hash)]
pub struct Deferred {
    /// The standing values.
    cells: [u16; CELLS],
    transactions: Transactions,
}

impl Default for Deferred {
    fn default() -> Self {
        Deferred { cells: [0; CELLS], transactions: Transactions::default() }
    }
}

impl Memory for Deferred {
    fn clear(&mut self) {
        *self = Deferred::default();
    }

    fn look(&self, cell: usize) -> Result<u16, Fault> {
        is_cell(cell)?;
        Ok(self.cells[cell])
    }

    fn load(&mut self, card: usize, cell: usize) -> Result<u16, Fault> {
        self.transactions.want_none(card, cell)?;
        self.transactions.doom_others(card, cell, Touch::Looks, |_| {});
        Ok(self.cells[cell])
    }

    fn store(&mut self, card: usize, cell: usize, value: u16) -> Result<(), Fault> {
        self.transactions.want_none(card, cell)?;
        self.transactions.doom_others(card, cell, Touch::Changes, |_| {});
        self.cells[cell] = value;
        Ok(())
    }

    fn begin(&mut self, card: usize) -> Result<(), Fault> {
        self.transactions.open(card)
    }

    fn read(&mut self, card: usize, cell: usize) -> Result<u16, Fault> {
        let open = self.transactions.want_open(card, cell)?;
        let value = match open.writes.find(cell) {
            Some(written) => written.value,
            None => {
                if !open.marks.has(cell) {
                    if open.marks.is_full() {
                        self.transactions.close(card);
                        return Err(Fault { refusal: Refusal::Full, card, cell });
                    }
                    open.marks.push(Mark(small(cell)));
                }
                self.cells[cell]
            }
        };
        self.transactions.doom_others(card, cell, Touch::Looks, |_| {});
        Ok(value)
    }

    fn write(&mut self, card: usize, cell: usize, value: u16) -> Result<(), Fault> {
        let open = self.transactions.want_open(card, cell)?;
        if let Some(written) = open.writes.find_mut(cell) {
            written.value = value;
        } else if open.writes.is_full() {
            self.transactions.close(card);
            return Err(Fault { refusal: Refusal::Full, card, cell });
        } else {
            open.writes.push(Written { cell: small(cell), value });
        }
        self.transactions.doom_others(card, cell, Touch::Changes, |_| {});
        Ok(())
    }

    fn commit(&mut self, card: usize) -> Result<(), Fault> {
        let open = self.transactions.want_open(card, 0)?;
        for written in open.writes.as_slice() {
            self.cells[usize::from(written.cell)] = written.value;
        }
        self.transactions.close(card);
        Ok(())
    }

    fn drop_transaction(&mut self, card: usize) -> Result<(), Fault> {
        self.transactions.take(card)?;
        Ok(())
    }

    fn meaning(&self) -> Meaning {
        let transactions = self.transactions.all().map(|transaction| match transaction {
            Transaction::None => TransactionMeaning::None,
            Transaction::Doomed => TransactionMeaning::Doomed,
            Transaction::Open(open) => TransactionMeaning::Open {
                marks: open.marks.as_slice().iter().map(|mark| usize::from(mark.0)).collect(),
                writes: open.writes.as_slice().iter().map(|w| (usize::from(w.cell), w.value)).collect(),
            },
        });
        Meaning { cells: self.cells, transactions }
    }
}
