//! The families of admitted sheets that a run draws from.

use crate::admitted::{Shape, admitted};
use crate::answers::span;
use crate::draft::*;
use crate::random::Random;
use crate::scope_sheet::{self, Beside, Scope, ScopeSheet};

const SMALL: Shape = Shape {
    items: 14,
    depth: 4,
    blocks: 45,
    labels: 15,
    gotos: 15,
    locals: 40,
    uses: 10,
    label_names: 3,
};

pub fn any(random: &mut Random) -> Made {
    match random.below(1000) {
        0..=3 => large(random),
        4..=5 => nested(random),
        6..=7 => for_loops(random),
        8..=9 => many_names(random),
        10 => many_findings(random),
        11..=39 => shadowed_labels(random),
        40..=79 => calls(random),
        80..=199 => straight(random),
        200..=399 => admitted(random, Shape { items: 60, depth: 8, uses: 60, ..SMALL }),
        400..=499 => labels(random),
        500..=549 => loops(random),
        _ => {
            let items = random.index(SMALL.items + 1);
            admitted(random, Shape { items, ..SMALL })
        }
    }
}

/// Up to 1,024 items and 1,024 uses.
pub fn large(random: &mut Random) -> Made {
    let items = random.pick(&[300, 700, 1023, 1024]);
    let uses = random.pick(&[0, 200, 1023, 1024]);
    let blocks = random.pick(&[10, 30, 50]);
    Made { what: "large", ..admitted(random, Shape { items, depth: 64, blocks, uses, ..SMALL }) }
}

fn labels(random: &mut Random) -> Made {
    let shape = Shape { items: 24, labels: 60, gotos: 50, locals: 20, ..SMALL };
    Made { what: "labels", ..admitted(random, shape) }
}

fn loops(random: &mut Random) -> Made {
    let shape = Shape { items: 30, depth: 6, blocks: 70, locals: 60, uses: 20, ..SMALL };
    Made { what: "loops", ..admitted(random, shape) }
}

/// Openers of every kind up to the depth limit, with code at the bottom.
pub fn nested(random: &mut Random) -> Made {
    let depth = random.pick(&[63, 64]);
    let openers: Vec<u64> = (0..depth).map(|_| random.between(1, 5)).collect();
    let mut draft = Draft { outer_end: TOP, ..Draft::default() };
    for (at, &kind) in openers.iter().enumerate() {
        let at = 2 * at as u64;
        match kind {
            1 => draft.items.push(line(1, scope(0, TOP), 0, 0)),
            2 => draft.items.push(line(2, scope(random.below(19), TOP), at, at + 1)),
            // UNTIL n from the inside ends at 1000 + 2n.
            3 => {
                let until = 1000 + depth - at / 2 - 1;
                draft.items.push(line(3, scope(random.below(19), until), 0, 0));
            }
            _ => draft.items.push(line(kind, scope(0, TOP), at, at + 1)),
        }
    }
    draft.items.push(line(18, 0, 500, 501));
    for (closed, &kind) in openers.iter().rev().enumerate() {
        let end = 1000 + closed as u64;
        draft.items.push(if kind == 3 { line(9, 0, end, end) } else { line(8, 0, 0, 0) });
    }
    Made { labels: Some(true), ..Made::admitted("nested", &draft) }
}

/// 512 FORs, which make the most nodes, in piles of some height.
pub fn for_loops(random: &mut Random) -> Made {
    let height = random.pick(&[1, 2, 8, 64]);
    let mut draft = Draft { outer_end: 2000, ..Draft::default() };
    for pile in 0..512 / height {
        for level in 0..height {
            let at = 3 * (pile * height + level);
            draft.items.push(line(4, scope(0, 2000), at, at + 2));
        }
        draft.items.extend((0..height).map(|_| line(8, 0, 0, 0)));
    }
    assert_eq!((draft.items.len(), draft.counts()[0]), (1024, 1542));
    let exits = Some([1, 0, 0, 0, 0]);
    Made { labels: Some(true), exits, ..Made::admitted("for loops", &draft) }
}

/// One LOCAL with up to 1,023 names and uses of them all.
pub fn many_names(random: &mut Random) -> Made {
    let names = random.pick(&[1023, 1022, 500]);
    let values = random.pick(&[0, 1, names - 1, names, 65_535]);
    let mut draft = Draft { outer_end: 3000, ..Draft::default() };
    draft.items.push(line(10, values, 0, names));
    draft.items.extend((0..names).map(|at| line(11, random.below(8), at, at + 1)));
    if names < 1023 {
        draft.items.push(line(18, 0, 2000, 2010));
    }
    for _ in 0..1024 {
        let start = random.pick(&[0, 1, 2000, 2009]);
        let word = random.below(names) + 65_536 * random.pick(&[0, 1, 2, 4, 5, 6]);
        draft.uses.push((word, start + (2010 << 32)));
    }
    Made { labels: Some(true), ..Made::admitted("many names", &draft) }
}

/// As many findings as a pair can have: names with a value, each written in
/// a loop and never read, so that both the value and the write are lost.
pub fn many_findings(random: &mut Random) -> Made {
    let names = random.between(1000, 1020);
    let mut draft = Draft { outer_end: 3000, ..Draft::default() };
    draft.items.push(line(10, 65_535, 0, names));
    draft.items.extend((0..names).map(|at| line(11, 2, at, at + 1)));
    draft.items.push(line(2, scope(10, 3000), 2000, 2005));
    draft.items.push(line(18, 0, 2005, 2010));
    draft.items.push(line(8, 0, 0, 0));
    draft.uses = (0..names).map(|local| (local + 65_536, 2006 + (2007 << 32))).collect();
    let lost = |local: u64| {
        let value = (1 + 2 * local, local + ((local + 1) << 32));
        [value, (1 + 2 * local + ((local + 1) << 32), 2006 + (2007 << 32))]
    };
    let (findings, exits) = (Some((0..names).flat_map(lost).collect()), Some([1, 0, 0, 0, 0]));
    Made { labels: Some(true), exits, findings, ..Made::admitted("many findings", &draft) }
}

/// One label name in every block round a GOTO, some of them twice.
fn shadowed_labels(random: &mut Random) -> Made {
    let depth = random.between(1, 6);
    let mut draft = Draft { outer_end: 1000, ..Draft::default() };
    let mut at = 0;
    let mut repeats = false;
    let mut is_found = false;
    let label = |random: &mut Random, draft: &mut Draft, at: &mut u64, most: u64| {
        let count = random.between(0, most);
        for _ in 0..count {
            draft.items.push(line(12, 1, *at, *at + 2));
            *at += 2;
        }
        count
    };
    let mut placed = vec![label(random, &mut draft, &mut at, 1)];
    for _ in 0..depth {
        draft.items.push(line(1, scope(0, 1000), 0, 0));
        placed.push(label(random, &mut draft, &mut at, 1));
    }
    draft.items.push(line(13, 1, at, at + 1));
    at += 1;
    for level in (0..=depth as usize).rev() {
        placed[level] += label(random, &mut draft, &mut at, 2);
        repeats |= placed[level] > 1;
        is_found |= placed[level] > 0;
        if level > 0 {
            draft.items.push(line(8, 0, 0, 0));
        }
    }
    Made { labels: Some(!repeats && is_found), ..Made::admitted("shadowed labels", &draft) }
}

/// CALLs of every argument, of which 6 alone raises.
fn calls(random: &mut Random) -> Made {
    let mut draft = Draft { outer_end: 1000, ..Draft::default() };
    let shared = random.pick(&[0, 0, 32, 64, 96]);
    for at in 0..random.between(1, 8) {
        let argument = if random.percent(40) { 6 } else { random.below(128) };
        draft.items.push(line(17, argument | shared, 3 * at, 3 * at + random.below(4)));
    }
    let raises = draft.items.iter().any(|line| argument_of(*line) == 6);
    let exits = Some([u64::from(!raises), 0, 0, 0, u64::from(raises)]);
    Made { labels: Some(true), exits, ..Made::admitted("calls", &draft) }
}

/// Code without a branch, where the next use in sheet order is the next one
/// on the only path, so that the findings are known from the uses alone.
fn straight(random: &mut Random) -> Made {
    let names = random.between(1, 4);
    let values = random.below(names + 1);
    let flags: Vec<u64> = (0..names).map(|_| random.pick(&[2, 2, 2, 0, 4, 6, 3])).collect();
    let steps = random.between(1, 12);
    let mut draft = Draft { outer_end: 500, ..Draft::default() };
    draft.items.push(line(10, values, 0, 20));
    draft.items.extend((0..names).map(|at| line(11, flags[at as usize], 2 * at, 2 * at + 1)));
    for at in 0..steps {
        draft.items.push(line(18, 0, 20 + 10 * at, 30 + 10 * at));
        for _ in 0..random.below(3) {
            let start = 20 + 10 * at + random.below(10);
            draft
                .uses
                .push((random.below(names) + 65_536 * random.below(3), start + (start << 32)));
        }
    }
    let mut unassigned = Vec::new();
    let mut overwritten = Vec::new();
    for local in 0..names {
        let flags = flags[local as usize];
        let own: Vec<(u64, Line)> = (0..)
            .zip(draft.uses.iter().copied())
            .filter(|(_, used)| used.0 % 65_536 == local)
            .collect();
        let is_pure_write =
            |place: usize| own.get(place).is_some_and(|(_, used)| used.0 / 65_536 == 1);
        let has_value = local < values;
        if flags & 1 == 0 && !has_value && !own.is_empty() && !is_pure_write(0) {
            unassigned.push((2 * local + ((own[0].0 + 1) << 32), own[0].1.1));
        }
        if flags == 2 {
            if has_value && is_pure_write(0) {
                overwritten.push((1 + 2 * local, draft.items[1 + local as usize].1));
            }
            for (place, (number, used)) in own.iter().enumerate() {
                if used.0 / 65_536 != 0 && is_pure_write(place + 1) {
                    overwritten.push((1 + 2 * local + ((number + 1) << 32), used.1));
                }
            }
        }
    }
    unassigned.extend(overwritten);
    let (findings, exits) = (Some(unassigned), Some([1, 0, 0, 0, 0]));
    Made { labels: Some(true), exits, findings, ..Made::admitted("straight", &draft) }
}

/// Functions inside functions: code without a branch whose locals no value
/// fills, so that the findings are known from the uses and what they cross.
pub fn closures(random: &mut Random) -> Made {
    let (names, count) = (random.between(1, 4), random.between(1, 30));
    let scopes = scope_sheet::tree(random, count);
    let of_names: Vec<u64> = (0..names).map(|_| random.below(count)).collect();
    let flags: Vec<u64> = (0..names).map(|_| random.pick(&[4, 4, 6, 0])).collect();
    let mut draft = Draft { outer_end: 500, ..Draft::default() };
    draft.items.push(line(10, 0, 0, 20));
    draft.items.extend((0..names).map(|at| line(11, flags[at as usize], 2 * at, 2 * at + 1)));
    let (mut of_uses, mut findings) = (Vec::new(), Vec::new());
    let mut is_over = vec![false; names as usize];
    for number in 0..random.below(12) {
        let start = 20 + 10 * number;
        draft.items.push(line(18, 0, start, start + 10));
        let (local, kind) = (random.below(names), random.pick(&[0, 0, 0, 0, 1, 2]));
        let (of_use, crosses) = scope_of_use(random, &scopes, of_names[local as usize]);
        let place = span(start, start + 1);
        draft.uses.push((local + 65_536 * (kind + random.pick(&[0, 4])), place));
        of_uses.push(of_use);
        let is_closed = crosses && flags[local as usize] != 0;
        let is_over = &mut is_over[local as usize];
        if !*is_over && kind != 1 && !is_closed {
            findings.push((2 * local + ((number + 1) << 32), place));
        }
        *is_over |= kind != 0 || !is_closed;
    }
    findings.sort_by_key(|(word, _)| word % (1 << 32));
    draft.scopes = Beside::Sheet(ScopeSheet { scopes, of_names, of_uses });
    Made { findings: Some(findings), ..Made::admitted("closures", &draft) }
}

/// A scope for a use, and whether it crosses from there. Inside the name's
/// scope it does when another function holds it than holds the name,
/// elsewhere when any function holds it.
fn scope_of_use(random: &mut Random, scopes: &[Scope], of_name: u64) -> (u64, bool) {
    let mut function_of = Vec::new();
    for (scope, (kind, parent)) in scopes.iter().enumerate() {
        let outer = parent.checked_sub(1).and_then(|parent| function_of[parent as usize]);
        function_of.push(if *kind == 1 { Some(scope) } else { outer });
    }
    let inside = inside(scopes, of_name);
    let anywhere = random.below(scopes.len() as u64);
    let of_use = if random.percent(70) { random.pick(&inside) } else { anywhere };
    let function = function_of[of_use as usize];
    let crosses = if inside.contains(&of_use) {
        function != function_of[of_name as usize]
    } else {
        function.is_some()
    };
    (of_use, crosses)
}

/// A scope and those inside it.
fn inside(scopes: &[Scope], top: u64) -> Vec<u64> {
    let mut inside = vec![top];
    for (scope, (_, parent)) in (0..).zip(scopes) {
        if parent.checked_sub(1).is_some_and(|parent| inside.contains(&parent)) {
            inside.push(scope);
        }
    }
    inside
}
