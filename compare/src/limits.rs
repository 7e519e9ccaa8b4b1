//! One case on each side of each limit of 01, and of 02's scope sheet.

use crate::answers::{Case, span};
use crate::cases::of_sheet;
use crate::draft::*;
use crate::scope_sheet::Beside;

pub fn all() -> Vec<Made> {
    let drafts = [arguments(), spans(), names(), uses(), item_counts(), depths()].concat();
    let made = |(draft, number): (Draft, u64)| match number {
        0 => Made::admitted("limit", &draft),
        _ => Made::refused("limit", draft.case(), of_sheet(number), number),
    };
    drafts.into_iter().map(made).chain(word_counts()).collect()
}

fn draft(outer_end: u64, items: Vec<Line>) -> Draft {
    Draft { outer_end, items, ..Draft::default() }
}

/// A sheet with one item of the kind, and what it needs beside it.
fn statement(kind: u64, argument: u64) -> Draft {
    let (start, end) = if matches!(kind, 1 | 3 | 7 | 8 | 19) { (0, 0) } else { (5, 9) };
    let item = line(kind, argument, start, end);
    let closer = line(8, 0, 0, 0);
    let until_end = argument / 32 % (1 << 32);
    draft(
        TOP,
        match kind {
            1 | 2 | 4 | 5 => vec![item, closer],
            3 => vec![item, line(9, 0, until_end, until_end)],
            6 | 7 => vec![line(5, scope(0, 9), 0, 2), item, closer],
            8 => vec![line(1, scope(0, 9), 0, 0), item],
            9 => vec![line(3, scope(10, 9), 0, 0), item],
            10 => vec![item, line(11, 0, 6, 7)],
            11 => vec![line(10, 0, 5, 9), item],
            _ => vec![item],
        },
    )
}

fn arguments() -> Vec<(Draft, u64)> {
    let mut all = Vec::new();
    for kind in 0..=20 {
        let (most, above) = match kind {
            2 | 3 => (scope(18, TOP), vec![scope(19, 9), scope(31, 9), scope(0, TOP + 1)]),
            1 | 4..=7 => (scope(0, TOP), vec![scope(1, 9), scope(31, 9), scope(0, TOP + 1)]),
            10 | 12 | 13 => (65_535, vec![65_536]),
            11 => (7, vec![8]),
            16 => (1, vec![2]),
            17 => (127, vec![128]),
            _ => (0, vec![1, 256]),
        };
        let is_kind = (1..=19).contains(&kind);
        all.push((statement(kind, most), if is_kind { 0 } else { 3 }));
        all.extend(above.iter().map(|argument| (statement(kind, *argument), 3)));
        all.push((statement(kind, (1 << 56) - 1), 3));
    }
    all.push((statement(255, 0), 3));
    all
}

fn spans() -> Vec<(Draft, u64)> {
    let plain =
        |(outer_end, start, end, number)| (draft(outer_end, vec![line(18, 0, start, end)]), number);
    let mut all = [
        (TOP, TOP, TOP, 0),
        (TOP + 1, 0, 0, 3),
        (9, 5, 9, 0),
        (9, 5, 10, 6),
        (9, 9, 9, 0),
        (9, 10, 10, 6),
        (9, 6, 5, 3),
        (0, 0, 0, 0),
    ]
    .map(plain)
    .to_vec();
    // A header is not held by the body that it opens, nor arms by each other.
    let end = line(8, 0, 0, 0);
    let test = |kind, scope_end, at| line(kind, scope(0, scope_end), at, at + 4);
    all.push((draft(20, vec![line(2, scope(10, 1), 0, 5), end]), 0));
    all.push((draft(20, vec![test(5, 3, 0), test(6, 20, 5), end]), 0));
    all.push((draft(8, vec![test(5, 3, 0), test(6, 20, 5), end]), 6));
    for (until_end, number) in [(8, 6), (9, 0), (10, 6)] {
        let items = vec![line(3, scope(10, 9), 0, 0), line(9, 0, 5, until_end)];
        all.push((draft(20, items), number));
    }
    // A label without identifier has a span that nothing holds.
    all.push((draft(0, vec![line(12, 0, 20, TOP)]), 0));
    all.push((draft(0, vec![line(12, 0, 1, 0)]), 3));
    for (next, number) in [(5, 0), (4, 6)] {
        all.push((draft(20, vec![line(18, 0, 0, 5), line(18, 0, next, 9)]), number));
    }
    all
}

/// A LOCAL at 5-9 with two names, the second one up to 9.
fn two_names(start: u64, end: u64, next: u64) -> Draft {
    draft(20, vec![line(10, 0, 5, 9), line(11, 2, start, end), line(11, 2, next, 9)])
}

fn names() -> Vec<(Draft, u64)> {
    let case = |(start, end, next, number)| (two_names(start, end, next), number);
    [
        (5, 6, 6, 0),
        (5, 8, 8, 0),
        (4, 6, 6, 7),
        (5, 7, 6, 7),
        (5, 5, 6, 7),
        (5, 6, 9, 7),
        (8, 10, 8, 7),
    ]
    .map(case)
    .to_vec()
}

fn uses() -> Vec<(Draft, u64)> {
    let case = |(local, high, start, end, number): (u64, u64, u64, u64, u64)| {
        let used = (local + 65_536 * high, span(start, end));
        (Draft { uses: vec![used], ..two_names(5, 6, 6) }, number)
    };
    [
        (1, 6, 0, 0, 0),
        (2, 0, 0, 0, 8),
        (65_535, 0, 0, 0, 8),
        (0, 3, 0, 0, 8),
        (0, 7, 0, 0, 8),
        (0, 8, 0, 0, 8),
        (0, 1 << 47, 0, 0, 8),
        (0, 2, TOP, TOP, 0),
        (0, 4, 0, TOP, 0),
        (0, 2, 1, 0, 8),
    ]
    .map(case)
    .to_vec()
}

fn item_counts() -> Vec<(Draft, u64)> {
    let empties = |count: usize| draft(0, vec![line(19, 0, 0, 0); count]);
    vec![(empties(1023), 0), (empties(1024), 0), (empties(1025), 2)]
}

fn depths() -> Vec<(Draft, u64)> {
    let pile = |(before, depth, closer, number): (usize, usize, u64, u64)| {
        let mut items = vec![line(8, 0, 0, 0); before];
        items.resize(before + depth, line(1, scope(0, TOP), 0, 0));
        items.resize(before + 2 * depth, line(closer, 0, 0, 0));
        (draft(0, items), number)
    };
    let mut all =
        [(0, 64, 8, 0), (0, 65, 8, 4), (1, 65, 8, 5), (1, 66, 8, 4), (0, 65, 9, 4), (0, 64, 9, 5)]
            .map(pile)
            .to_vec();
    // An arm opens no new level.
    let mut items = vec![line(5, scope(0, TOP), 0, 0); 64];
    items.push(line(6, scope(0, TOP), 0, 0));
    items.resize(129, line(8, 0, 0, 0));
    all.push((draft(TOP, items), 0));
    all
}

/// Lengths, and counts whose double wraps round to the length that is there.
fn word_counts() -> Vec<Made> {
    let whole = two_names(5, 6, 6).case();
    let sheets: [&[u64]; 7] =
        [&[], &[0], &[1 << 63, 0], &[1 << 63, 0, 0], &[u64::MAX], &[u64::MAX, 0], &[0, 0, 0]];
    let uses: [&[u64]; 5] = [&[], &[1 << 63], &[u64::MAX], &[0, 0], &[1, 0]];
    let of_sheet = sheets
        .iter()
        .map(|words| Made::refused("limit", Case::new(words.to_vec(), whole.uses.clone()), 2, 2));
    let of_uses = uses
        .iter()
        .map(|words| Made::refused("limit", Case::new(whole.sheet.clone(), words.to_vec()), 0, 2));
    let many = |count: usize| Draft { uses: vec![(1, 0); count], ..two_names(5, 6, 6) };
    let mut all: Vec<Made> = of_sheet.chain(of_uses).collect();
    all.push(Made::admitted("limit", &many(1024)));
    all.push(Made::refused("limit", many(1025).case(), 0, 2));
    all
}

/// Scope sheets beside an empty pair, each with its number.
fn scopes_alone() -> Vec<(Vec<u64>, u64)> {
    let full = |count: usize| [vec![count as u64], vec![0; 2 * count]].concat();
    let mut all = vec![(full(512), 0), (full(513), 9)];
    let short: [(&[u64], u64); 18] = [
        (&[], 0),
        (&[0], 0),
        (&[0, 0], 9),
        (&[1], 9),
        (&[1, 0], 9),
        (&[1, 0, 0], 0),
        (&[1, 0, 0, 0], 9),
        (&[513], 9),
        (&[1 << 63], 9),
        (&[u64::MAX], 9),
        (&[u64::MAX, 0], 9),
        (&[1, 3, 0], 0),
        (&[1, 4, 0], 9),
        (&[1, 0, 1], 9),
        (&[2, 0, 0, 0, 1], 0),
        (&[2, 0, 0, 0, 2], 9),
        (&[2, 0, 0, 0, 3], 9),
        (&[1, 0, u64::MAX], 9),
    ];
    all.extend(short.map(|(words, number)| (words.to_vec(), number)));
    all
}

/// A local with the flags, and one use of it with the high part behind it.
pub fn one_use(flags: u64, high: u64) -> Draft {
    let items = vec![line(10, 0, 0, 9), line(11, flags, 6, 7), line(18, 0, 10, 13)];
    Draft { uses: vec![(65_536 * high, span(10, 11))], ..draft(13, items) }
}

/// Whether the one use is listed as unassigned: flags, high part, words.
fn crossings() -> Vec<Made> {
    let cases: [(u64, u64, &[u64], bool); 11] = [
        // A use in a Function below the name's Module.
        (4, 0, &[2, 0, 1, 0, 1, 0, 1], false),
        (0, 0, &[2, 0, 1, 0, 1, 0, 1], true),
        // The name's scope is itself a Function.
        (4, 0, &[1, 1, 0, 0, 0], true),
        (4, 0, &[2, 1, 2, 0, 1, 0, 1], true),
        // Nothing joins the two scopes.
        (4, 0, &[2, 0, 1, 0, 0, 0, 1], false),
        (4, 0, &[2, 1, 0, 0, 0, 0, 1], true),
        // The use stands above the name.
        (4, 0, &[2, 0, 1, 0, 1, 1, 0], true),
        // The bit is replaced in both directions, and stands without a sheet.
        (4, 4, &[], false),
        (4, 4, &[1, 0, 0, 0, 0], true),
        (4, 0, &[], true),
        (4, 4, &[2, 0, 1, 0, 1, 0, 1], false),
    ];
    let made = |(flags, high, words, is_listed): (u64, u64, &[u64], bool)| {
        listed_or_not(flags, high, words.to_vec(), is_listed)
    };
    cases.into_iter().map(made).chain(long_chains()).collect()
}

fn listed_or_not(flags: u64, high: u64, words: Vec<u64>, is_listed: bool) -> Made {
    let draft = Draft { scopes: Beside::Words(words), ..one_use(flags, high) };
    let finding = is_listed.then_some((1 << 32, span(10, 11)));
    Made { findings: Some(finding.into_iter().collect()), ..Made::admitted("limit", &draft) }
}

/// A use in the last scope of a chain of 512, each scope the next one's
/// parent: the only Function if there is one, the name's scope, whether the
/// use is listed.
fn long_chains() -> Vec<Made> {
    let cases = [
        (None, 0, true),
        (Some(0), 0, true),
        (Some(1), 0, false),
        (Some(1), 1, true),
        (Some(1), 2, true),
        (Some(255), 254, false),
        (Some(256), 255, false),
        (Some(510), 509, false),
        (Some(510), 511, true),
        (Some(511), 510, false),
        (Some(511), 511, true),
    ];
    let made = |(function, of_name, is_listed): (Option<u64>, u64, bool)| {
        let kinds = (0..512).map(|scope| if function == Some(scope) { 1 } else { 2 });
        let words = [512].into_iter().chain(kinds).chain(0..512).chain([of_name, 511]).collect();
        listed_or_not(4, 0, words, is_listed)
    };
    cases.into_iter().map(made).collect()
}

/// One name and one use, or a use that is refused before its scope sheet.
fn scopes_beside() -> Vec<Made> {
    let cases: [(u64, &[u64], u64); 14] = [
        (0, &[0], 9),
        (0, &[0, 0, 0], 9),
        (0, &[1, 0, 0, 0], 9),
        (0, &[1, 0, 0, 0, 0], 0),
        (0, &[1, 0, 0, 0, 0, 0], 9),
        (0, &[1, 0, 0, 1, 0], 9),
        (0, &[1, 0, 0, 0, 1], 9),
        (0, &[1, 0, 0, u64::MAX, 0], 9),
        (0, &[1 << 63, 0, 0], 9),
        (3, &[1, 0, 0, 0, 0], 8),
        (8, &[1, 0, 0, 0, 0], 8),
        (1 << 47, &[1, 0, 0, 0, 0], 8),
        (3, &[513], 8),
        (7, &[1, 0, 0, 0, 1], 8),
    ];
    let made = |(high, words, number): (u64, &[u64], u64)| {
        let draft = Draft { scopes: Beside::Words(words.to_vec()), ..one_use(4, high) };
        Made::refused("limit", draft.case(), 0, number)
    };
    cases.into_iter().map(made).collect()
}

pub fn scopes() -> Vec<Made> {
    let alone = scopes_alone().into_iter().map(|(words, number)| {
        let case = Case { scopes: words, ..Draft::default().case() };
        Made::refused("limit", case, 0, number)
    });
    alone.chain(crossings()).chain(scopes_beside()).collect()
}
