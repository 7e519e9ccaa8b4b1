//! A plain reading of documents 01 and 02, beside luck and in no part taken from it.
//! Speed does not matter here, only that each sentence can be found again.

pub mod findings;
pub mod graph;
pub mod scopes;
pub mod table;
pub mod text;

use crate::answers::{Answer, Answers, Case, Chart, Judgement, Run};

/// A slip in the reading, for trying whether the comparison finds it.
#[derive(Debug, Clone, Copy, PartialEq, Eq)]
pub enum Slip {
    None,
    LabelHasCodeStart,
    EndEqualToOffsetTaken,
    ReadWriteMarkedBeforeItsRead,
    UsedNodeWalkedThrough,
    NodeUsesSortedByOffset,
    Count513Taken,
    CountZeroTakenForNone,
    UseScopesBeforeNameScopes,
    OwnParentTaken,
    ParentMaxTakenForNone,
    ChainFollowedFromName,
    OwnScopeOfUseSkipped,
    FunctionAskedFirst,
    ModuleIsBoundary,
    RunningOutCrosses,
    SuppliedBitKept,
    SuppliedBitOnlyRaised,
    CapturedNotAsked,
    NineBeforeEight,
}

#[derive(Debug, Clone, Copy)]
pub struct Item {
    pub kind: u64,
    pub argument: u64,
    pub start: u64,
    pub end: u64,
}

impl Item {
    pub fn condition(&self) -> u64 {
        self.argument % 32
    }

    pub fn scope_end(&self) -> u64 {
        self.argument / 32
    }

    pub fn span_word(&self) -> u64 {
        self.start + (self.end << 32)
    }

    pub fn is_code(&self) -> bool {
        match self.kind {
            2 | 4 | 5 | 6 | 9 | 10 | 13..=18 => true,
            12 => self.argument != 0,
            _ => false,
        }
    }
}

/// The items of a sheet whose length fits its count.
pub fn items_of(sheet: &[u64]) -> Vec<Item> {
    let count = sheet[0] as usize;
    let (kinds, spans) = sheet[2..].split_at(count);
    let item = |(word, span): (&u64, &u64)| Item {
        kind: word % 256,
        argument: word / 256,
        start: span % (1 << 32),
        end: span >> 32,
    };
    kinds.iter().zip(spans).map(item).collect()
}

#[derive(Debug, Clone, Copy)]
pub struct Use {
    pub local: u64,
    /// kind + 4 × crossing
    pub high: u64,
    pub start: u64,
    pub end: u64,
}

impl Use {
    pub fn is_read(&self) -> bool {
        self.high % 4 != 1
    }

    pub fn is_write(&self) -> bool {
        self.high % 4 != 0
    }

    pub fn crosses(&self) -> bool {
        self.high / 4 == 1
    }
}

pub fn uses_of(sheet: &[u64]) -> Vec<Use> {
    let count = sheet[0] as usize;
    let (words, spans) = sheet[1..].split_at(count);
    let used = |(word, span): (&u64, &u64)| Use {
        local: word % 65_536,
        high: word / 65_536,
        start: span % (1 << 32),
        end: span >> 32,
    };
    words.iter().zip(spans).map(used).collect()
}

pub struct Reading {
    pub slip: Slip,
}

impl Reading {
    pub const PLAIN: Self = Self { slip: Slip::None };

    pub fn chart(&self, sheet: &[u64]) -> Answer<Chart> {
        table::of_sheet(sheet)?;
        Ok(graph::chart(sheet, self.slip))
    }

    pub fn run(&self, chart: &Answer<Chart>, offset: u32) -> Answer<Run> {
        let chart = chart.as_ref().map_err(|number| *number)?;
        let node = graph::node_at(chart, u64::from(offset), self.slip);
        Ok((node, node.is_none_or(|node| chart.reachable[node as usize] == 1)))
    }

    /// A scope sheet of 0 words is none.
    pub fn judge(&self, sheet: &[u64], uses: &[u64], scopes: &[u64]) -> Answer<Judgement> {
        table::of_judge(sheet, uses, scopes, self.slip)?;
        let uses = scopes::crossed(sheet, uses, scopes, self.slip);
        Ok(findings::judge(sheet, &uses, self.slip))
    }

    pub fn label_check(&self, sheet: &[u64]) -> Answer<bool> {
        table::of_sheet(sheet)?;
        Ok(graph::label_check(&items_of(sheet)))
    }

    pub fn answers(&self, case: &Case, offsets: &[u32]) -> Answers {
        let chart = self.chart(&case.sheet);
        let judge = self.judge(&case.sheet, &case.uses, &case.scopes);
        Answers {
            labels: self.label_check(&case.sheet),
            runs: offsets.iter().map(|&offset| (offset, self.run(&chart, offset))).collect(),
            text: text::printed(self, &case.bytes()),
            chart,
            judge,
        }
    }
}
