//! The memory that puts written values into the cells at once and keeps the old ones to restore.

use crate::memory::{
    is_cell, small, Fault, Mark, Meaning, Memory, Open, Refusal, Touch, Transaction, TransactionMeaning,
    Transactions, Written, CELLS,
};

#[derive(Clone)]
pub struct InPlace {
    /// The standing values, except where an open transaction has written: its record keeps the standing value.
    cells: [u16; CELLS],
    transactions: Transactions,
}

impl Default for InPlace {
    fn default() -> Self {
        InPlace { cells: [0; CELLS], transactions: Transactions::default() }
    }
}

impl InPlace {
    fn doom_others(&mut self, card: usize, cell: usize, touch: Touch) {
        let cells = &mut self.cells;
        self.transactions.doom_others(card, cell, touch, |open| restore(cells, open));
    }

    fn give_up(&mut self, card: usize) {
        if let Transaction::Open(open) = self.transactions.get(card) {
            restore(&mut self.cells, open);
        }
        self.transactions.close(card);
    }

    fn standing(&self, cell: usize) -> u16 {
        let kept = self.transactions.all().iter().find_map(|transaction| match transaction {
            Transaction::Open(open) => open.writes.find(cell),
            _ => None,
        });
        kept.map_or(self.cells[cell], |old| old.value)
    }
}

fn restore(cells: &mut [u16; CELLS], open: &Open) {
    for old in open.writes.as_slice() {
        cells[usize::from(old.cell)] = old.value;
    }
}

impl Memory for InPlace {
    fn clear(&mut self) {
        *self = InPlace::default();
    }

    fn look(&self, cell: usize) -> Result<u16, Fault> {
        is_cell(cell)?;
        Ok(self.standing(cell))
    }

    fn load(&mut self, card: usize, cell: usize) -> Result<u16, Fault> {
        self.transactions.want_none(card, cell)?;
        self.doom_others(card, cell, Touch::Looks);
        Ok(self.cells[cell])
    }

    fn store(&mut self, card: usize, cell: usize, value: u16) -> Result<(), Fault> {
        self.transactions.want_none(card, cell)?;
        self.doom_others(card, cell, Touch::Changes);
        self.cells[cell] = value;
        Ok(())
    }

    fn begin(&mut self, card: usize) -> Result<(), Fault> {
        self.transactions.open(card)
    }

    fn read(&mut self, card: usize, cell: usize) -> Result<u16, Fault> {
        let open = self.transactions.want_open(card, cell)?;
        if !open.writes.has(cell) && !open.marks.has(cell) {
            if open.marks.is_full() {
                self.give_up(card);
                return Err(Fault { refusal: Refusal::Full, card, cell });
            }
            open.marks.push(Mark(small(cell)));
        }
        self.doom_others(card, cell, Touch::Looks);
        Ok(self.cells[cell])
    }

    fn write(&mut self, card: usize, cell: usize, value: u16) -> Result<(), Fault> {
        let open = self.transactions.want_open(card, cell)?;
        let first = !open.writes.has(cell);
        if first && open.writes.is_full() {
            self.give_up(card);
            return Err(Fault { refusal: Refusal::Full, card, cell });
        }
        // The others go first: their old values are back before this one's old value is taken.
        self.doom_others(card, cell, Touch::Changes);
        if first {
            let old = self.cells[cell];
            self.transactions.want_open(card, cell)?.writes.push(Written { cell: small(cell), value: old });
        }
        self.cells[cell] = value;
        Ok(())
    }

    fn commit(&mut self, card: usize) -> Result<(), Fault> {
        self.transactions.want_open(card, 0)?;
        self.transactions.close(card);
        Ok(())
    }

    fn drop_transaction(&mut self, card: usize) -> Result<(), Fault> {
        if let Some(open) = self.transactions.take(card)? {
            restore(&mut self.cells, &open);
        }
        Ok(())
    }

    fn meaning(&self) -> Meaning {
        let mut cells = self.cells;
        for transaction in self.transactions.all() {
            if let Transaction::Open(open) = transaction {
                restore(&mut cells, open);
            }
        }
        let transactions = self.transactions.all().map(|transaction| match transaction {
            Transaction::None => TransactionMeaning::None,
            Transaction::Doomed => TransactionMeaning::Doomed,
            Transaction::Open(open) => TransactionMeaning::Open {
                marks: open.marks.as_slice().iter().map(|mark| usize::from(mark.0)).collect(),
                writes: open
                    .writes
                    .as_slice()
                    .iter()
                    .map(|old| (usize::from(old.cell), self.cells[usize::from(old.cell)]))
                    .collect(),
            },
        });
        Meaning { cells, transactions }
    }
}
