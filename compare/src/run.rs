//! Holds a made case against its making, the reading and every side.

use std::collections::BTreeMap;

use crate::answers::{Answer, Answers, Case, Judgement, Side};
use crate::draft::*;
use crate::reading::{Item, Reading, Slip, items_of, scopes, uses_of};
use crate::scope_sheet;
use crate::shrink;

/// Offsets on, before and behind some of the code, and the ends of the range.
pub fn offsets_of(case: &Case) -> Vec<u32> {
    let mut offsets = vec![0, u32::MAX];
    if let Some(draft) = Draft::of_case(case) {
        let codes: Vec<Line> = draft.items.iter().copied().filter(|line| is_code(*line)).collect();
        for code in codes.iter().step_by(codes.len() / 4 + 1).chain(codes.last()) {
            let (start, end) = (start_of(*code), end_of(*code));
            offsets.extend([start, end, end.saturating_sub(1)].map(|offset| offset as u32));
        }
    }
    offsets.sort_unstable();
    offsets.dedup();
    offsets
}

pub fn expected(case: &Case) -> Answers {
    Reading::PLAIN.answers(case, &offsets_of(case))
}

/// A refusal's number, and 0 for an accepted call.
pub fn refusal<T>(answer: &Answer<T>) -> u64 {
    answer.as_ref().err().copied().unwrap_or(0)
}

/// Where the making of a case and the reading disagree.
pub fn making_differs(made: &Made, answers: &Answers) -> Option<String> {
    let sheet_calls = [refusal(&answers.chart), refusal(&answers.labels)].into_iter();
    let runs = answers.runs.iter().map(|(_, run)| refusal(run));
    if let Some(read) = sheet_calls.chain(runs).find(|number| *number != made.chart) {
        return Some(format!("sheet made for {}, read as {read}", made.chart));
    }
    if refusal(&answers.judge) != made.judge {
        return Some(format!("pair made for {}, read as {}", made.judge, refusal(&answers.judge)));
    }
    if let (Some(known), Ok(chart)) = (made.counts, &answers.chart)
        && known != chart.counts()
    {
        return Some(format!("counts {known:?} by the making, {:?} read", chart.counts()));
    }
    if let (Some(known), Ok(chart)) = (made.exits, &answers.chart)
        && known != chart.reachable[..5]
    {
        return Some(format!("exits {known:?} by the making, {:?} read", &chart.reachable[..5]));
    }
    if let (Some(known), Ok(read)) = (made.labels, &answers.labels)
        && known != *read
    {
        return Some(format!("labels fit: {known} by the making, {read} read"));
    }
    if let (Some(known), Ok(judged)) = (&made.findings, &answers.judge) {
        let read: Vec<Line> =
            judged.finding_word.iter().copied().zip(judged.finding_span.iter().copied()).collect();
        if *known != read {
            return Some(format!("findings {known:?} by the making, {read:?} read"));
        }
    }
    (!made.case.spare.is_empty() && answers.text != b"refused 2\n")
        .then(|| "bytes that make no word, and no refusal 2".to_owned())
}

/// What good scope sheets did.
#[derive(Default)]
pub struct Scoped {
    pub pairs: u64,
    /// Pairs with a captured local.
    pub captured: u64,
    /// Crossing bits set, cleared and left.
    pub bits: [u64; 3],
    /// Pairs whose lists are other ones than by the supplied bits.
    pub other_lists: u64,
}

impl Scoped {
    fn count(&mut self, case: &Case, judged: &Judgement) {
        let is_captured = |item: &Item| item.kind == 11 && item.argument & 4 != 0;
        let has_captured = items_of(&case.sheet).iter().any(is_captured);
        self.pairs += 1;
        self.captured += u64::from(has_captured);
        let crossed = scopes::crossed(&case.sheet, &case.uses, &case.scopes, Slip::None);
        for (old, new) in uses_of(&case.uses).iter().zip(uses_of(&crossed)) {
            let place = match (old.crosses(), new.crosses()) {
                (false, true) => 0,
                (true, false) => 1,
                _ => 2,
            };
            self.bits[place] += 1;
        }
        if has_captured {
            let supplied = Reading::PLAIN.judge(&case.sheet, &case.uses, &[]);
            self.other_lists += u64::from(supplied.as_ref() != Ok(judged));
        }
    }
}

#[derive(Default)]
pub struct Tally {
    pub pairs: u64,
    pub shapes: BTreeMap<&'static str, u64>,
    pub refused: [u64; 10],
    /// How often each way to spoil a scope sheet gave 9.
    pub ways_into_9: BTreeMap<&'static str, u64>,
    /// Spoilt scope sheets beside a pair that is refused itself, by its number.
    pub before_9: [u64; 9],
    pub scoped: Scoped,
    pub findings: [u64; 2],
    pub labels_fit: u64,
    /// The most nodes, uses and findings of one pair.
    pub most: [usize; 3],
}

impl Tally {
    fn count(&mut self, made: &Made, answers: &Answers) {
        self.pairs += 1;
        *self.shapes.entry(made.what).or_default() += 1;
        self.refused[made.judge as usize] += 1;
        self.labels_fit += u64::from(answers.labels == Ok(true));
        match (made.spoilt_scopes, made.judge) {
            (Some(way), 9) => *self.ways_into_9.entry(way).or_default() += 1,
            (Some(_), number) => self.before_9[number as usize] += 1,
            (None, _) => {}
        }
        if let Ok(judged) = &answers.judge {
            if !made.case.scopes.is_empty() {
                self.scoped.count(&made.case, judged);
            }
            for word in &judged.finding_word {
                self.findings[(word % 2) as usize] += 1;
            }
            let sizes =
                [judged.chart.first.len(), made.case.uses.len() / 2, judged.finding_word.len()];
            for (most, size) in self.most.iter_mut().zip(sizes) {
                *most = size.max(*most);
            }
        }
    }

    /// Every way into 9 occurred, and every number of a pair that goes before it.
    pub fn covers_9(&self) -> Result<(), String> {
        let missing: Vec<&str> = scope_sheet::WAYS
            .iter()
            .map(|(way, _)| *way)
            .filter(|way| !self.ways_into_9.contains_key(way))
            .collect();
        if !missing.is_empty() {
            return Err(format!("these ways into 9 never occurred: {}", missing.join(", ")));
        }
        match (2..=8).find(|number| self.before_9[*number] == 0) {
            Some(number) => Err(format!("no pair with {number} and a spoilt scope sheet occurred")),
            None => Ok(()),
        }
    }
}

/// One case through everything. A difference comes back as its report.
pub fn check(made: &Made, sides: &mut [Box<dyn Side>], tally: &mut Tally) -> Result<(), String> {
    let answers = expected(&made.case);
    if let Some(what) = making_differs(made, &answers) {
        return Err(format!("{} ({what})\n{}", made.what, words(&made.case)));
    }
    for side in sides {
        if let Some(what) = side.difference(&made.case, &answers) {
            return Err(report(made, side.as_mut(), &what));
        }
    }
    tally.count(made, &answers);
    Ok(())
}

fn report(made: &Made, side: &mut dyn Side, what: &str) -> String {
    let mut differs = |case: &Case| side.difference(case, &expected(case)).is_some();
    let small = shrink::smallest(&made.case, &mut differs);
    let reason = side.difference(&small, &expected(&small)).unwrap_or_default();
    format!(
        "{} differs on a case of shape '{}': {what}\nsmallest found: {reason}\n{}",
        side.name(),
        made.what,
        words(&small),
    )
}

pub fn words(case: &Case) -> String {
    let Case { sheet, uses, scopes, spare } = case;
    format!("sheet {sheet:?}\nuses {uses:?}\nscopes {scopes:?}\nspare bytes {spare:?}")
}
