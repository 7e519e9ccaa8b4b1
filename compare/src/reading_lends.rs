//! The reading as a library that writes into lent columns, with faults to
//! try whether the check of lent columns finds them.

use crate::answers::*;
use crate::lent::*;
use crate::reading::Reading;

#[derive(Debug, Clone, Copy, PartialEq, Eq)]
pub enum Fault {
    None,
    WritesBeforeRefusing,
    LeavesWorkingColumn,
    ClearsPastTheEntries,
    MarkAboveNodeCount,
    TakesShortColumn,
}

pub struct ReadingLends {
    pub fault: Fault,
}

impl ReadingLends {
    fn put(&self, lent: &mut Lent, answer: Wanted) -> Returned {
        let lengths = lent.written.iter().map(Vec::len).zip(COLUMNS.iter().map(|column| column.1));
        let is_short = lengths.into_iter().any(|(length, least)| length < least)
            || lent.working.iter().any(|column| column.len() < 1600);
        if self.fault == Fault::WritesBeforeRefusing && !is_short {
            lent.written[0][0] = ABSENT;
        }
        if is_short && self.fault != Fault::TakesShortColumn {
            return Err(1);
        }
        let columns = answer?;
        for (column, cells) in lent.written.iter_mut().zip(&columns) {
            let fitting = cells.len().min(column.len());
            column[..fitting].copy_from_slice(&cells[..fitting]);
        }
        if let Some(marks) = lent.written.get_mut(11) {
            let mark = if self.fault == Fault::MarkAboveNodeCount { 1601 } else { 0 };
            let names = columns[6].len().min(marks.len());
            marks[..names].fill(mark);
        }
        if self.fault == Fault::ClearsPastTheEntries {
            lent.written[4].iter_mut().skip(columns[4].len()).for_each(|cell| *cell = 0);
        }
        if self.fault != Fault::LeavesWorkingColumn {
            lent.working.iter_mut().for_each(|column| column.fill(0));
        }
        Ok(counts_of(&columns))
    }
}

impl Lending for ReadingLends {
    fn name(&self) -> String {
        format!("reading that lends, fault {:?}", self.fault)
    }

    fn working_columns(&self, _call: Call) -> usize {
        2
    }

    fn cell_bits(&self, _column: usize) -> u32 {
        64
    }

    fn working_bits(&self) -> u32 {
        64
    }

    fn chart(&mut self, sheet: &[u64], lent: &mut Lent) -> Returned {
        self.put(lent, Reading::PLAIN.chart(sheet).map(|chart| columns_of(&chart.columns())))
    }

    fn judge(&mut self, sheet: &[u64], uses: &[u64], scopes: &[u64], lent: &mut Lent) -> Returned {
        let judged = Reading::PLAIN.judge(sheet, uses, scopes);
        self.put(lent, judged.map(|judged| columns_of(&judged.columns())))
    }

    fn run(&mut self, sheet: &[u64], offset: u32) -> Answer<Run> {
        Reading::PLAIN.run(&Reading::PLAIN.chart(sheet), offset)
    }

    fn label_check(&mut self, sheet: &[u64]) -> Answer<bool> {
        Reading::PLAIN.label_check(sheet)
    }
}
