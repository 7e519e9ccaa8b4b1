//! Sides that are wrong in a known way. The comparison must find each.

use crate::answers::*;
use crate::cases;
use crate::lent::Lender;
use crate::random::Random;
use crate::reading::{Reading, Slip};
use crate::reading_lends::{Fault, ReadingLends};
use crate::run::{expected, offsets_of, words};
use crate::shrink;

struct Slipped(Slip);

impl Side for Slipped {
    fn name(&self) -> String {
        format!("{:?}", self.0)
    }

    fn difference(&mut self, case: &Case, expected: &Answers) -> Option<String> {
        let got = Reading { slip: self.0 }.answers(case, &offsets_of(case));
        answers_difference(expected, &got)
    }
}

/// Right answers, changed afterwards.
struct Altered(&'static str, fn(&mut Answers));

impl Side for Altered {
    fn name(&self) -> String {
        self.0.to_owned()
    }

    fn difference(&mut self, _case: &Case, expected: &Answers) -> Option<String> {
        let mut got = expected.clone();
        self.1(&mut got);
        answers_difference(expected, &got)
    }
}

fn findings(answers: &mut Answers, change: fn(&mut Vec<u64>, &mut Vec<u64>)) {
    if let Ok(judged) = &mut answers.judge {
        change(&mut judged.finding_word, &mut judged.finding_span);
    }
}

const ALTERED: &[(&str, fn(&mut Answers))] = &[
    ("lists nothing", |answers| {
        findings(answers, |words, spans| {
            words.clear();
            spans.clear();
        });
    }),
    ("lists the same each time", |answers| {
        findings(answers, |words, spans| {
            *words = vec![1];
            *spans = vec![6 + (7 << 32)];
        });
    }),
    ("judges the first local only", |answers| {
        findings(answers, |words, spans| {
            let first: Vec<bool> = words.iter().map(|word| word % (1 << 32) < 2).collect();
            words.retain(|word| word % (1 << 32) < 2);
            let mut kept = first.iter();
            spans.retain(|_| *kept.next().expect("a span a word"));
        });
    }),
    ("calls every offset runnable", |answers| {
        for (_, run) in &mut answers.runs {
            *run = run.map(|(node, _)| (node, true));
        }
    }),
    ("finds no node", |answers| {
        for (_, run) in &mut answers.runs {
            *run = run.map(|(_, yes)| (None, yes));
        }
    }),
    ("refuses all", |answers| answers.chart = Err(3)),
    ("says yes to all labels", |answers| answers.labels = Ok(true)),
    ("invents counts", |answers| {
        if let Ok(chart) = &mut answers.chart {
            chart.first.push(ABSENT);
        }
    }),
];

fn all() -> Vec<Box<dyn Side>> {
    let slips = [
        Slip::LabelHasCodeStart,
        Slip::EndEqualToOffsetTaken,
        Slip::ReadWriteMarkedBeforeItsRead,
        Slip::UsedNodeWalkedThrough,
        Slip::NodeUsesSortedByOffset,
        Slip::Count513Taken,
        Slip::CountZeroTakenForNone,
        Slip::UseScopesBeforeNameScopes,
        Slip::OwnParentTaken,
        Slip::ParentMaxTakenForNone,
        Slip::ChainFollowedFromName,
        Slip::OwnScopeOfUseSkipped,
        Slip::FunctionAskedFirst,
        Slip::ModuleIsBoundary,
        Slip::RunningOutCrosses,
        Slip::SuppliedBitKept,
        Slip::SuppliedBitOnlyRaised,
        Slip::CapturedNotAsked,
        Slip::NineBeforeEight,
    ];
    let faults = [
        Fault::WritesBeforeRefusing,
        Fault::LeavesWorkingColumn,
        Fault::ClearsPastTheEntries,
        Fault::MarkAboveNodeCount,
        Fault::TakesShortColumn,
    ];
    let slips = slips.into_iter().map(|slip| Box::new(Slipped(slip)) as Box<dyn Side>);
    let altered =
        ALTERED.iter().map(|(name, change)| Box::new(Altered(name, *change)) as Box<dyn Side>);
    let lenders = faults
        .into_iter()
        .map(|fault| Box::new(Lender::new(ReadingLends { fault })) as Box<dyn Side>);
    slips.chain(altered).chain(lenders).collect()
}

/// Says for each wrong side which pair gives it away. The reading as a
/// lending library must pass all the same pairs.
pub fn check(pairs: u64, seed: u64) -> Result<(), String> {
    for mut side in all() {
        let mut random = Random::new(seed);
        let found = (1..=pairs).find_map(|pair| {
            let case = cases::any(&mut random).case;
            side.difference(&case, &expected(&case)).map(|_| (pair, case))
        });
        let name = side.name();
        let (pair, case) = found.ok_or_else(|| format!("{name}: not found in {pairs} pairs"))?;
        let mut differs = |case: &Case| side.difference(case, &expected(case)).is_some();
        let small = shrink::smallest(&case, &mut differs);
        println!("{name}: found at pair {pair}, smallest\n{}", words(&small));
    }
    let mut right = Lender::new(ReadingLends { fault: Fault::None });
    let mut random = Random::new(seed);
    for _ in 0..pairs.min(2000) {
        let case = cases::any(&mut random).case;
        if let Some(what) = right.difference(&case, &expected(&case)) {
            return Err(format!("a right library is found wrong: {what}"));
        }
    }
    Ok(())
}
