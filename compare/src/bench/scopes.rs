//! Scope sheets beside the bodies that are timed.

use std::collections::BTreeMap;

use crate::answers::Case;
use crate::draft::*;
use crate::reading::{Slip, scopes::crossed, uses_of};
use crate::scope_sheet::{MOST, ScopeSheet};

const MODULE: u64 = 0;
const FUNCTION: u64 = 1;
const BLOCK: u64 = 2;
const LOOP: u64 = 3;

/// 23 calls on a chain of 512, counted over all pairs of its scopes; from the
/// last scope it is 17.
const MOST_JUMPS: u64 = 503;

#[derive(Debug, Clone, Copy, PartialEq, Eq)]
pub enum Scopes {
    None,
    Own,
    Chain,
}

impl Scopes {
    pub const ALL: [Self; 3] = [Self::None, Self::Own, Self::Chain];

    pub fn name(self) -> &'static str {
        ["none", "own", "chain"][self as usize]
    }

    pub fn words(self, case: &Case) -> Vec<u64> {
        match self {
            Self::None => Vec::new(),
            Self::Own => own(case),
            Self::Chain => chain(case),
        }
    }
}

/// A scope for each block of the body, which is that of a Function in a
/// Module. A use that crosses stands in a Function in its block, so that every
/// crossing bit remains what it is.
fn own(case: &Case) -> Vec<u64> {
    let draft = Draft::of_case(case).expect("an admitted case");
    let mut sheet =
        ScopeSheet { scopes: vec![(MODULE, 0), (FUNCTION, 1)], ..ScopeSheet::default() };
    let mut open = vec![1];
    // Where each code ends, and its scope.
    let mut codes: Vec<(u64, u64)> = Vec::new();
    for item in draft.items {
        let kind = kind_of(item);
        if matches!(kind, 6..=8) {
            open.pop();
        }
        let scope = open[open.len() - 1];
        if kind == 11 {
            sheet.of_names.push(scope);
        }
        if is_code(item) {
            codes.push((end_of(item), scope));
        }
        if matches!(kind, 1..=7) {
            open.push(sheet.scopes.len() as u64);
            sheet.scopes.push((if matches!(kind, 2..=4) { LOOP } else { BLOCK }, scope + 1));
        }
        if kind == 9 {
            open.pop();
        }
    }
    let mut functions = BTreeMap::new();
    for (used, place) in uses_of(&case.uses).iter().zip(&draft.uses) {
        let (_, scope) = codes[codes.partition_point(|(end, _)| *end <= start_of(*place))];
        sheet.of_uses.push(match used.crosses() {
            false => scope,
            true => *functions.entry(scope).or_insert_with(|| {
                sheet.scopes.push((FUNCTION, scope + 1));
                sheet.scopes.len() as u64 - 1
            }),
        });
    }
    let words = sheet.words();
    assert_eq!(crossed(&case.sheet, &case.uses, &words, Slip::None), case.uses);
    words
}

/// The longest walk: every name in the second scope of a chain, the one
/// Function before that, and every use where most jumps lead to the second.
fn chain(case: &Case) -> Vec<u64> {
    let draft = Draft::of_case(case).expect("an admitted case");
    let sheet = ScopeSheet {
        scopes: (0..MOST).map(|scope| (if scope == 0 { FUNCTION } else { BLOCK }, scope)).collect(),
        of_names: vec![1; draft.names() as usize],
        of_uses: vec![MOST_JUMPS; draft.uses.len()],
    };
    sheet.words()
}
