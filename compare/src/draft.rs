//! A pair of sheets while it is being made, and what its making knows.

use std::ops::Range;

use crate::answers::{Case, span};
use crate::scope_sheet::Beside;

pub const TOP: u64 = u32::MAX as u64;

/// Kind and argument in one word, the span in the other.
pub type Line = (u64, u64);

pub fn line(kind: u64, argument: u64, start: u64, end: u64) -> Line {
    (kind + 256 * argument, span(start, end))
}

/// The argument of a kind that opens a block.
pub fn scope(condition: u64, scope_end: u64) -> u64 {
    condition + 32 * scope_end
}

pub fn kind_of(line: Line) -> u64 {
    line.0 % 256
}

pub fn argument_of(line: Line) -> u64 {
    line.0 / 256
}

pub fn start_of(line: Line) -> u64 {
    line.1 % (1 << 32)
}

pub fn end_of(line: Line) -> u64 {
    line.1 >> 32
}

pub fn is_code(line: Line) -> bool {
    match kind_of(line) {
        2 | 4 | 5 | 6 | 9 | 10 | 13..=18 => true,
        12 => argument_of(line) != 0,
        _ => false,
    }
}

/// How many nodes an item adds to a graph.
pub fn nodes_of(line: Line) -> u64 {
    match kind_of(line) {
        2 | 5 => 2,
        3 | 4 => 3,
        6 | 10 | 13..=18 => 1,
        12 if argument_of(line) != 0 => 1,
        _ => 0,
    }
}

#[derive(Debug, Clone, Default)]
pub struct Draft {
    pub outer_end: u64,
    pub items: Vec<Line>,
    pub uses: Vec<Line>,
    pub scopes: Beside,
}

impl Draft {
    pub fn case(&self) -> Case {
        let mut sheet = vec![self.items.len() as u64, self.outer_end];
        sheet.extend(self.items.iter().map(|line| line.0));
        sheet.extend(self.items.iter().map(|line| line.1));
        let mut uses = vec![self.uses.len() as u64];
        uses.extend(self.uses.iter().map(|line| line.0));
        uses.extend(self.uses.iter().map(|line| line.1));
        Case { scopes: self.scopes.words(), ..Case::new(sheet, uses) }
    }

    /// The draft of words that need not fit each other.
    pub fn of_case(case: &Case) -> Option<Self> {
        let pair = |words: &[u64]| -> Vec<Line> {
            let (kinds, spans) = words.split_at(words.len() / 2);
            kinds.iter().copied().zip(spans.iter().copied()).collect()
        };
        let is_whole = case.sheet.len() % 2 == 0 && case.uses.len() % 2 == 1;
        (is_whole && case.sheet.len() >= 2).then(|| {
            let (items, uses) = (pair(&case.sheet[2..]), pair(&case.uses[1..]));
            let mut draft = Self { outer_end: case.sheet[1], items, uses, ..Self::default() };
            let (names, uses) = (draft.names() as usize, draft.uses.len());
            draft.scopes = Beside::of_words(&case.scopes, names, uses);
            draft
        })
    }

    /// Takes items out, and the scopes of the names among them.
    pub fn drop_items(&mut self, places: Range<usize>) {
        let names = |items: &[Line]| items.iter().filter(|line| kind_of(**line) == 11).count();
        let first = names(&self.items[..places.start]);
        let last = first + names(&self.items[places.clone()]);
        if let Beside::Sheet(sheet) = &mut self.scopes {
            sheet.of_names.drain(first..last);
        }
        self.items.drain(places);
    }

    pub fn drop_uses(&mut self, places: Range<usize>) {
        if let Beside::Sheet(sheet) = &mut self.scopes {
            sheet.of_uses.drain(places.clone());
        }
        self.uses.drain(places);
    }

    pub fn names(&self) -> u64 {
        self.items.iter().filter(|line| kind_of(**line) == 11).count() as u64
    }

    /// Nodes, codes and names, counted item by item.
    pub fn counts(&self) -> [u64; 3] {
        let nodes = 6 + self.items.iter().map(|line| nodes_of(*line)).sum::<u64>();
        let codes = self.items.iter().filter(|line| is_code(**line)).count() as u64;
        [nodes, codes, self.names()]
    }

    /// By how much openers outnumber closers at most, over all first items.
    pub fn depth(&self) -> i64 {
        let step = |line: &Line| match kind_of(*line) {
            1..=5 => 1,
            8 | 9 => -1,
            _ => 0,
        };
        let mut surplus = 0;
        let running = self.items.iter().map(|line| {
            surplus += step(line);
            surplus
        });
        running.max().unwrap_or(0).max(0)
    }
}

/// A case with what its making knows of the answers. 0 stands for no refusal.
#[derive(Debug, Clone)]
pub struct Made {
    pub what: &'static str,
    pub case: Case,
    pub chart: u64,
    pub judge: u64,
    pub counts: Option<[u64; 3]>,
    /// Which exits are reachable, in the order of their nodes.
    pub exits: Option<[u64; 5]>,
    pub labels: Option<bool>,
    pub findings: Option<Vec<Line>>,
    /// The way in which the scope sheet was spoilt, if it was.
    pub spoilt_scopes: Option<&'static str>,
}

impl Made {
    pub fn admitted(what: &'static str, draft: &Draft) -> Self {
        Self { counts: Some(draft.counts()), ..Self::refused(what, draft.case(), 0, 0) }
    }

    pub fn refused(what: &'static str, case: Case, chart: u64, judge: u64) -> Self {
        let (counts, exits, labels, findings, spoilt_scopes) = (None, None, None, None, None);
        Self { what, case, chart, judge, counts, exits, labels, findings, spoilt_scopes }
    }
}
