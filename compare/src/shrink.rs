//! The smallest case with a difference that dropping and lowering finds.

use std::ops::Range;

use crate::answers::Case;
use crate::draft::*;
use crate::scope_sheet::Beside;

pub fn smallest(case: &Case, differs: &mut dyn FnMut(&Case) -> bool) -> Case {
    let whole = Case { spare: Vec::new(), ..case.clone() };
    let best = if differs(&whole) { whole } else { case.clone() };
    match Draft::of_case(&best).filter(|draft| draft.case() == best) {
        Some(best) => Shrinker { best, differs }.smallest().case(),
        None => shortest(best, differs),
    }
}

/// Words that make no draft lose their ends only.
fn shortest(best: Case, differs: &mut dyn FnMut(&Case) -> bool) -> Case {
    let mut best = best;
    loop {
        let mut shorter = [best.clone(), best.clone(), best.clone(), best.clone()];
        let [sheet, uses, scopes, spare] = &mut shorter;
        sheet.sheet.pop();
        uses.uses.pop();
        scopes.scopes.pop();
        spare.spare.pop();
        match shorter.into_iter().find(|tried| *tried != best && differs(tried)) {
            Some(tried) => best = tried,
            None => return best,
        }
    }
}

struct Shrinker<'a> {
    best: Draft,
    differs: &'a mut dyn FnMut(&Case) -> bool,
}

impl Shrinker<'_> {
    fn smallest(mut self) -> Draft {
        loop {
            let before = self.best.case();
            self.plain_scopes();
            self.drop_lines(|draft| draft.uses.len(), Draft::drop_uses);
            self.drop_lines(|draft| draft.items.len(), Draft::drop_items);
            self.drop_pairs();
            self.drop_scopes();
            self.lower_scopes();
            let ranked = ranked(&self.best);
            self.keeps(ranked);
            self.lower(|draft| &mut draft.items, 256);
            self.lower(|draft| &mut draft.uses, 65_536);
            self.lower_outer_end();
            if self.best.case() == before {
                return self.best;
            }
        }
    }

    fn keeps(&mut self, tried: Draft) -> bool {
        let is_kept = (self.differs)(&tried.case());
        if is_kept {
            self.best = tried;
        }
        is_kept
    }

    /// No scope sheet, or else the shortest that is refused.
    fn plain_scopes(&mut self) {
        for words in [vec![], vec![513]] {
            let scopes = Beside::Words(words);
            if self.keeps(Draft { scopes, ..self.best.clone() }) {
                return;
            }
        }
    }

    fn drop_scopes(&mut self) {
        let mut scope = usize::MAX;
        while let Beside::Sheet(sheet) = &self.best.scopes {
            scope = scope.min(sheet.scopes.len());
            let Some(before) = scope.checked_sub(1) else { return };
            scope = before;
            let scopes = Beside::Sheet(sheet.without(scope));
            self.keeps(Draft { scopes, ..self.best.clone() });
        }
    }

    fn lower_scopes(&mut self) {
        let (names, uses) = (self.best.names() as usize, self.best.uses.len());
        for at in 1..self.best.scopes.words().len() {
            let words = self.best.scopes.words();
            for lower in [0, words[at] / 2, words[at].saturating_sub(1)] {
                let mut tried = words.clone();
                tried[at] = lower;
                let scopes = Beside::of_words(&tried, names, uses);
                if lower < words[at] && self.keeps(Draft { scopes, ..self.best.clone() }) {
                    break;
                }
            }
        }
    }

    /// Long parts first, then single lines.
    fn drop_lines(&mut self, count: fn(&Draft) -> usize, drop: fn(&mut Draft, Range<usize>)) {
        let mut size = count(&self.best);
        while size > 0 {
            let mut from = 0;
            while from < count(&self.best) {
                let mut tried = self.best.clone();
                let to = count(&tried).min(from + size);
                drop(&mut tried, from..to);
                if !self.keeps(tried) {
                    from += size;
                }
            }
            size /= 2;
        }
    }

    /// An opener goes with the closer that pairs with it.
    fn drop_pairs(&mut self) {
        let mut open = Vec::new();
        let mut at = 0;
        while at < self.best.items.len() {
            match kind_of(self.best.items[at]) {
                1..=5 => open.push(at),
                8 | 9 => {
                    if let Some(opener) = open.pop() {
                        let mut tried = self.best.clone();
                        tried.items.remove(at);
                        tried.items.remove(opener);
                        if self.keeps(tried) {
                            at -= 1;
                            continue;
                        }
                    }
                }
                _ => {}
            }
            at += 1;
        }
    }

    fn lower(&mut self, lines: fn(&mut Draft) -> &mut Vec<Line>, base: u64) {
        for at in 0..lines(&mut self.best).len() {
            loop {
                let line = lines(&mut self.best)[at];
                let is_lowered = lower_lines(line, base).into_iter().any(|lower| {
                    let mut tried = self.best.clone();
                    lines(&mut tried)[at] = lower;
                    self.keeps(tried)
                });
                if !is_lowered {
                    break;
                }
            }
        }
    }

    fn lower_outer_end(&mut self) {
        loop {
            let end = self.best.outer_end;
            let is_lowered = [end / 2, end.saturating_sub(1)].into_iter().any(|outer_end| {
                outer_end < end && self.keeps(Draft { outer_end, ..self.best.clone() })
            });
            if !is_lowered || end > TOP {
                return;
            }
        }
    }
}

/// Every offset replaced by its rank among all of them, which keeps what lies
/// before what.
fn ranked(draft: &Draft) -> Draft {
    let is_opener = |line: &Line| matches!(kind_of(*line), 1..=7);
    let mut offsets = vec![draft.outer_end];
    for line in draft.items.iter().chain(&draft.uses) {
        offsets.extend([start_of(*line), end_of(*line)]);
    }
    offsets.extend(
        draft.items.iter().filter(|line| is_opener(line)).map(|line| argument_of(*line) / 32),
    );
    // 0 stays 0, as it is the span of an item without one.
    offsets.push(0);
    offsets.sort_unstable();
    offsets.dedup();
    let rank = |offset: u64| offsets.binary_search(&offset).expect("an offset of the draft") as u64;
    let span = |line: &Line| rank(start_of(*line)) + (rank(end_of(*line)) << 32);
    let item = |line: &Line| {
        let argument = argument_of(*line);
        let ranked =
            if is_opener(line) { scope(argument % 32, rank(argument / 32)) } else { argument };
        (kind_of(*line) + 256 * ranked, span(line))
    };
    Draft {
        outer_end: rank(draft.outer_end),
        items: draft.items.iter().map(item).collect(),
        uses: draft.uses.iter().map(|line| (line.0, span(line))).collect(),
        scopes: draft.scopes.clone(),
    }
}

fn lower_lines(line: Line, base: u64) -> Vec<Line> {
    let (low, high) = (line.0 % base, line.0 / base);
    let (start, end) = (start_of(line), end_of(line));
    let mut all = vec![
        (low, line.1),
        (low + base * (high / 2), line.1),
        (line.0, 0),
        (line.0, start / 2 + (end / 2 << 32)),
    ];
    // Step by step only where few steps are left.
    if end < 4096 {
        all.push((line.0, start + (end.saturating_sub(1) << 32)));
        all.push((line.0, start.saturating_sub(1) + (end << 32)));
    }
    // A use's low part is the number of its local, an item's is its kind.
    if base == 65_536 {
        all.push((low / 2 + base * high, line.1));
    }
    all.retain(|lower| *lower != line);
    all
}
