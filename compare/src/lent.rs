//! Calls that write into lent columns: what every cell must hold afterwards.

use crate::answers::*;
use crate::random::Random;

/// 01's columns in its order, with the least length of each.
pub const COLUMNS: [(&str, usize); 12] = [
    ("first", 1600),
    ("second", 1600),
    ("start", 1600),
    ("reachable", 1600),
    ("code span", 1024),
    ("code node", 1024),
    ("name span", 1024),
    ("name node", 1024),
    ("name scope end", 1024),
    ("finding word", 3072),
    ("finding span", 3072),
    ("mark figure", 1024),
];
const MARK: usize = 11;
const WORKING_LEAST: usize = 1600;

#[derive(Debug, Clone, Copy, PartialEq, Eq)]
pub enum Call {
    Chart,
    Judge,
    Run,
    LabelCheck,
}

impl Call {
    pub const ALL: [Self; 4] = [Self::Chart, Self::Judge, Self::Run, Self::LabelCheck];

    pub fn name(self) -> &'static str {
        match self {
            Self::Chart => "chart",
            Self::Judge => "judge",
            Self::Run => "run",
            Self::LabelCheck => "label check",
        }
    }

    fn columns(self) -> usize {
        match self {
            Self::Chart => 9,
            Self::Judge => 12,
            Self::Run | Self::LabelCheck => 0,
        }
    }
}

#[derive(Debug, Clone, PartialEq, Eq)]
pub struct Lent {
    pub written: Vec<Vec<u64>>,
    pub working: Vec<Vec<u64>>,
}

/// The three or four counts of an accepted call, or a refusal's number.
pub type Returned = Answer<Vec<u64>>;

/// What an accepted call writes, column by column, or a refusal's number.
pub type Wanted = Answer<Vec<Vec<u64>>>;

/// The calls of a library that writes into what it is lent.
pub trait Lending {
    fn name(&self) -> String;
    fn working_columns(&self, call: Call) -> usize;
    /// The width of a column's cells, so that garbage fits into them.
    fn cell_bits(&self, column: usize) -> u32;
    fn working_bits(&self) -> u32;
    fn chart(&mut self, sheet: &[u64], lent: &mut Lent) -> Returned;
    /// A scope sheet of 0 words is none.
    fn judge(&mut self, sheet: &[u64], uses: &[u64], scopes: &[u64], lent: &mut Lent) -> Returned;
    fn run(&mut self, sheet: &[u64], offset: u32) -> Answer<Run>;
    fn label_check(&mut self, sheet: &[u64]) -> Answer<bool>;
}

/// A lending library as a side, with columns full of garbage at each call.
pub struct Lender<L: Lending> {
    library: L,
    random: Random,
}

/// Short columns are lent with sheets of at most this many words, as there
/// are many columns and the sheet matters little.
const TINY: usize = 6;

impl<L: Lending> Lender<L> {
    pub fn new(library: L) -> Self {
        Self { library, random: Random::new(1) }
    }

    fn lend(&mut self, call: Call) -> Lent {
        let mut column = |least: usize, bits: u32| -> Vec<u64> {
            let length = least + self.random.pick(&[0, 0, 1, 40]);
            (0..length).map(|_| self.random.word() >> (64 - bits)).collect()
        };
        let written = (0..call.columns())
            .map(|at| column(COLUMNS[at].1, self.library.cell_bits(at)))
            .collect();
        let working = (0..self.library.working_columns(call))
            .map(|_| column(WORKING_LEAST, self.library.working_bits()))
            .collect();
        Lent { written, working }
    }

    /// A call over whole columns and, with a tiny sheet, over short ones.
    fn lent(
        &mut self,
        call: Call,
        case: &Case,
        wanted: &Wanted,
        made: impl Fn(&mut L, &mut Lent) -> Returned,
    ) -> Option<String> {
        let answer = |library: &mut L, before: &Lent, wanted: &Wanted| {
            let mut after = before.clone();
            let returned = made(library, &mut after);
            lent_difference(call.name(), wanted, &returned, before, &after)
        };
        let whole = self.lend(call);
        let what = answer(&mut self.library, &whole, wanted);
        if what.is_some() || case.sheet.len() > TINY {
            return what;
        }
        (0..call.columns() + whole.working.len()).find_map(|at| {
            let (name, short) = self.shortened(call, &whole, at);
            let what = answer(&mut self.library, &short, &Err(1));
            what.map(|what| format!("with the column '{name}' too short, {what}"))
        })
    }

    /// One column too short by a cell, or empty.
    fn shortened(&mut self, call: Call, whole: &Lent, at: usize) -> (&'static str, Lent) {
        let mut short = whole.clone();
        let working = at.checked_sub(call.columns());
        let (name, least) = working.map_or_else(|| COLUMNS[at], |_| ("working", WORKING_LEAST));
        let column = match working {
            Some(place) => &mut short.working[place],
            None => &mut short.written[at],
        };
        column.truncate(if self.random.percent(20) { 0 } else { least - 1 });
        (name, short)
    }

    fn ask(&mut self, call: Call, case: &Case, expected: &Answers) -> Option<String> {
        let Case { sheet, uses, scopes, .. } = case;
        match call {
            Call::Chart => {
                let wanted = expected.chart.clone().map(|chart| columns_of(&chart.columns()));
                self.lent(call, case, &wanted, |library, lent| library.chart(sheet, lent))
            }
            Call::Judge => {
                let wanted = expected.judge.clone().map(|judged| columns_of(&judged.columns()));
                self.lent(call, case, &wanted, |library, lent| {
                    library.judge(sheet, uses, scopes, lent)
                })
            }
            Call::Run => expected.runs.iter().find_map(|(offset, want)| {
                let have = self.library.run(sheet, *offset);
                answer_difference(&format!("run {offset}"), want, &have, plain_difference)
            }),
            Call::LabelCheck => {
                let have = self.library.label_check(sheet);
                answer_difference(call.name(), &expected.labels, &have, plain_difference)
            }
        }
    }
}

impl<L: Lending> Side for Lender<L> {
    fn name(&self) -> String {
        self.library.name()
    }

    fn difference(&mut self, case: &Case, expected: &Answers) -> Option<String> {
        Call::ALL.into_iter().find_map(|call| self.ask(call, case, expected))
    }
}

pub fn columns_of(columns: &[(&'static str, &Vec<u64>)]) -> Vec<Vec<u64>> {
    columns.iter().map(|(_, cells)| (*cells).clone()).collect()
}

/// Nodes, codes, names and, of judge, findings.
pub fn counts_of(columns: &[Vec<u64>]) -> Vec<u64> {
    [0, 4, 6, 9]
        .iter()
        .filter_map(|at| columns.get(*at))
        .map(|column| column.len() as u64)
        .collect()
}

/// An accepted call lays what it writes over the old cells and leaves zeros
/// in its working columns; a refusal changes nothing.
fn lent_difference(
    call: &str,
    wanted: &Wanted,
    returned: &Returned,
    before: &Lent,
    after: &Lent,
) -> Option<String> {
    let counts = wanted.as_ref().map(|columns| counts_of(columns)).map_err(|number| *number);
    let answers = answer_difference(call, &counts, returned, plain_difference);
    let cells = || match wanted {
        Err(_) => (before != after).then(|| format!("{call}: a refusal changed a lent cell")),
        Ok(columns) => {
            let zeros = after.working.iter().flatten().any(|cell| *cell != 0);
            let dirty = zeros.then(|| format!("{call}: a working column is not all zero"));
            let written = (0..after.written.len()).find_map(|at| {
                let [old, new] = [&before.written[at], &after.written[at]];
                if at == MARK {
                    return mark_difference(old, new, columns);
                }
                let mut overlay = columns[at].clone();
                overlay.extend(&old[columns[at].len()..]);
                column_difference(&format!("{call}: {}", COLUMNS[at].0), &overlay, new)
            });
            written.or(dirty)
        }
    };
    answers.or_else(cells)
}

/// A mark figure is free but for its bound, and stands once for each name.
fn mark_difference(old: &[u64], new: &[u64], columns: &[Vec<u64>]) -> Option<String> {
    let nodes = columns[0].len() as u64;
    let names = columns[6].len();
    let is_high = new[..names].iter().any(|mark| *mark > nodes);
    let high = is_high.then(|| format!("judge: a mark figure above the node count {nodes}"));
    high.or_else(|| {
        column_difference("judge: mark figure past the names", &old[names..], &new[names..])
    })
}
