//! Ways to spoil an admitted pair, each for one number of 01's table. A way
//! for a number breaks no rule with a lower one, so of two ways applied one
//! after the other, the higher number first, the lower number is returned.

use crate::answers::{Case, span};
use crate::draft::*;
use crate::random::Random;

/// A way to spoil a draft. It says no where the draft gives no occasion.
type Way = fn(&mut Random, &mut Draft) -> bool;

pub const WAYS: &[(u64, &str, Way)] = &[
    (3, "unknown kind", unknown_kind),
    (3, "argument past its limit", wide_argument),
    (3, "outer end past 32 bits", |random, draft| {
        draft.outer_end = random.pick(&[TOP + 1, u64::MAX, TOP + 2 + draft.outer_end]);
        true
    }),
    (3, "item starts past its end", backward_item),
    (3, "span where none belongs", stray_span),
    (4, "too deep at the end", |random, draft| {
        let at = draft.items.len();
        deepen(random, draft, at)
    }),
    (4, "too deep inside", |random, draft| {
        let at = random.index(draft.items.len() + 1);
        deepen(random, draft, at)
    }),
    (5, "closer missing", |random, draft| remove(random, draft, &[8, 9])),
    (5, "opener missing", |random, draft| remove(random, draft, &[1, 2, 3, 4, 5])),
    (5, "closer alone", |random, draft| {
        let closer = line(random.pick(&[8, 9]), 0, 0, 0);
        insert_anywhere(random, draft, closer)
    }),
    (5, "opener alone", |random, draft| {
        let opener = line(random.between(1, 5), 0, 0, 0);
        insert_anywhere(random, draft, opener)
    }),
    (5, "wrong closer", wrong_closer),
    (5, "arm outside an if", arm_outside),
    (5, "arm after else", arm_after_else),
    (5, "local without name", local_without_name),
    (5, "name without local", name_without_local),
    (5, "return or continue not last", early_end),
    (6, "code overlaps", overlap),
    (6, "code past a scope end", |random, draft| tighten(random, draft, &[1, 2, 3, 4, 5, 6, 7])),
    (6, "code past the outer end", past_outer_end),
    (6, "repeat and until differ", repeat_differs),
    (7, "name empty", |random, draft| {
        rename(random, draft, |name, _, _| name.1 = span(end_of(*name), end_of(*name)))
    }),
    (7, "name before its local", |random, draft| {
        rename(random, draft, |name, local, _| move_start(name, start_of(local).wrapping_sub(1)))
    }),
    (7, "name past its local", |random, draft| {
        rename(random, draft, |name, local, _| move_end(name, end_of(local) + 1))
    }),
    (7, "name overlaps", |random, draft| {
        rename(random, draft, |name, _, before| {
            move_start(name, before.map_or(u64::MAX, |before| end_of(before) - 1))
        })
    }),
    (7, "local empty", |random, draft| {
        let Some(at) = any_of(random, draft, &[10]) else { return false };
        let start = start_of(draft.items[at]);
        move_end(&mut draft.items[at], start)
    }),
    (8, "no such local", |random, draft| {
        let local = random.pick(&[draft.names(), draft.names() + 1, 65_535]);
        respoil(random, draft, |used| used.0 = used.0 / 65_536 * 65_536 + local)
    }),
    (8, "no such kind of use", |random, draft| {
        let high = random.pick(&[3, 7, 8, 9, 16, 1 << 47, (1 << 48) - 1]);
        respoil(random, draft, |used| used.0 = used.0 % 65_536 + 65_536 * high)
    }),
    (8, "use starts past its end", |random, draft| {
        respoil(random, draft, |used| {
            let start = start_of(*used).max(1);
            used.1 = span(start, start - 1);
        })
    }),
];

fn any_of(random: &mut Random, draft: &Draft, kinds: &[u64]) -> Option<usize> {
    let is_wanted = |at: &usize| kinds.contains(&kind_of(draft.items[*at]));
    let places: Vec<usize> = (0..draft.items.len()).filter(is_wanted).collect();
    (!places.is_empty()).then(|| random.pick(&places))
}

fn move_start(item: &mut Line, start: u64) -> bool {
    let fits = start <= TOP && start < end_of(*item);
    if fits {
        item.1 = start + (item.1 >> 32 << 32);
    }
    fits
}

fn move_end(item: &mut Line, end: u64) -> bool {
    let fits = end <= TOP && start_of(*item) <= end;
    if fits {
        item.1 = start_of(*item) + (end << 32);
    }
    fits
}

fn has_room(draft: &Draft, items: usize) -> bool {
    draft.items.len() + items <= 1024
}

fn any_item(random: &mut Random, draft: &Draft) -> Option<usize> {
    (!draft.items.is_empty()).then(|| random.index(draft.items.len()))
}

fn unknown_kind(random: &mut Random, draft: &mut Draft) -> bool {
    let Some(at) = any_item(random, draft) else { return false };
    let kind = random.pick(&[0, 20, 21, 255, 128]);
    draft.items[at].0 = draft.items[at].0 / 256 * 256 + kind;
    true
}

fn wide_argument(random: &mut Random, draft: &mut Draft) -> bool {
    let Some(at) = any_item(random, draft) else { return false };
    let item = &mut draft.items[at];
    let wide_scope = scope(0, TOP + 1 + random.below(1000));
    let bad = match kind_of(*item) {
        2 | 3 => random.pick(&[wide_scope, scope(19, 5), scope(31, 5)]),
        1 | 4..=7 => random.pick(&[wide_scope, scope(1, 5), scope(31, TOP)]),
        10 | 12 | 13 => 65_536,
        11 => 8,
        16 => 2,
        17 => 128,
        _ => 1,
    };
    let much = (1 << 56) - 1;
    item.0 = kind_of(*item) + 256 * random.pick(&[bad, bad, much]);
    true
}

fn backward_item(random: &mut Random, draft: &mut Draft) -> bool {
    let Some(at) = any_item(random, draft) else { return false };
    let item = &mut draft.items[at];
    let end = end_of(*item);
    item.1 = (end + 1).min(TOP) + (end.min(TOP - 1) << 32);
    true
}

fn stray_span(random: &mut Random, draft: &mut Draft) -> bool {
    let Some(at) = any_of(random, draft, &[1, 3, 7, 8, 19]) else { return false };
    draft.items[at].1 = random.pick(&[1 << 32, 5 + (9 << 32), u64::MAX, 1]);
    true
}

/// 65 openers before the item at `at`, some with their closers.
fn deepen(random: &mut Random, draft: &mut Draft, at: usize) -> bool {
    // Down here closers may already outnumber openers in a spoilt draft.
    let surplus: i64 = draft.items[..at]
        .iter()
        .map(|line| match kind_of(*line) {
            1..=5 => 1,
            8 | 9 => -1,
            _ => 0,
        })
        .sum();
    let openers = (65 - surplus).max(0) as usize;
    let closers = random.pick(&[0, openers, openers]);
    if !has_room(draft, openers + closers) {
        return false;
    }
    let kind = random.pick(&[1, 2, 4, 5]);
    let mut pile = vec![line(kind, scope(0, TOP), 0, 0); openers];
    pile.resize(openers + closers, line(8, 0, 0, 0));
    draft.items.splice(at..at, pile);
    true
}

/// Whether one more opener leaves the draft within the depth limit.
fn is_shallow(draft: &Draft) -> bool {
    draft.depth() < 64
}

fn remove(random: &mut Random, draft: &mut Draft, kinds: &[u64]) -> bool {
    match any_of(random, draft, kinds) {
        Some(at) if is_shallow(draft) => {
            draft.items.remove(at);
            true
        }
        _ => false,
    }
}

fn insert(draft: &mut Draft, at: usize, items: &[Line]) -> bool {
    let fits = has_room(draft, items.len()) && is_shallow(draft);
    if fits {
        draft.items.splice(at..at, items.iter().copied());
    }
    fits
}

fn insert_anywhere(random: &mut Random, draft: &mut Draft, item: Line) -> bool {
    let at = random.index(draft.items.len() + 1);
    insert(draft, at, &[item])
}

fn wrong_closer(random: &mut Random, draft: &mut Draft) -> bool {
    let Some(at) = any_of(random, draft, &[8, 9]) else { return false };
    let other = 17 - kind_of(draft.items[at]);
    draft.items[at] = line(other, 0, 0, 0);
    true
}

/// An arm at the outermost level, or as the first item of another body.
fn arm_outside(random: &mut Random, draft: &mut Draft) -> bool {
    let at = match any_of(random, draft, &[1, 2, 3, 4]) {
        Some(opener) if random.percent(50) => opener + 1,
        _ => random.pick(&[0, draft.items.len()]),
    };
    let kind = random.pick(&[6, 7]);
    insert(draft, at, &[line(kind, scope(0, 9), 0, 0)])
}

fn arm_after_else(random: &mut Random, draft: &mut Draft) -> bool {
    let kind = random.pick(&[6, 7]);
    let arm = line(kind, scope(0, 9), 0, 0);
    if let Some(at) = any_of(random, draft, &[7]) {
        return insert(draft, at + 1, &[arm]);
    }
    let at = random.pick(&[0, draft.items.len()]);
    let before = [line(5, scope(0, 9), 0, 0), line(7, scope(0, 9), 0, 0)];
    insert(draft, at, &[before[0], before[1], arm, line(8, 0, 0, 0)])
}

fn local_without_name(random: &mut Random, draft: &mut Draft) -> bool {
    if let (Some(at), true) = (any_of(random, draft, &[10]), random.percent(50)) {
        return insert(draft, at + 1, &[line(19, 0, 0, 0)]);
    }
    let at = random.pick(&[0, draft.items.len()]);
    let follows_name = draft.items.get(at).is_some_and(|line| kind_of(*line) == 11);
    !follows_name && insert(draft, at, &[line(10, 0, 0, 9)])
}

fn name_without_local(random: &mut Random, draft: &mut Draft) -> bool {
    let at = random.index(draft.items.len() + 1);
    let follows_local = at > 0 && matches!(kind_of(draft.items[at - 1]), 10 | 11);
    !follows_local && insert(draft, at, &[line(11, 2, 3, 4)])
}

fn early_end(random: &mut Random, draft: &mut Draft) -> bool {
    let at = random.index(draft.items.len() + 1);
    let end = line(random.pick(&[15, 16]), 0, 0, 0);
    let next = random.pick(&[line(19, 0, 0, 0), line(12, 0, 0, 0), line(18, 0, 0, 0), end]);
    insert(draft, at, &[end, next])
}

fn codes(draft: &Draft) -> Vec<usize> {
    (0..draft.items.len()).filter(|at| is_code(draft.items[*at])).collect()
}

fn overlap(random: &mut Random, draft: &mut Draft) -> bool {
    let codes = codes(draft);
    let ends_late = |pair: &&[usize]| end_of(draft.items[pair[0]]) > 0;
    let pairs: Vec<&[usize]> = codes.windows(2).filter(ends_late).collect();
    if pairs.is_empty() {
        return false;
    }
    let pair = random.pick(&pairs);
    let start = end_of(draft.items[pair[0]]) - 1;
    let item = &mut draft.items[pair[1]];
    item.1 = start + (item.1 >> 32 << 32);
    start <= end_of(*item)
}

/// Ends a block one offset before some code in it ends.
fn tighten(random: &mut Random, draft: &mut Draft, kinds: &[u64]) -> bool {
    let Some(opener) = any_of(random, draft, kinds) else { return false };
    let mut depth = 0;
    let mut inside = Vec::new();
    for (at, item) in draft.items.iter().enumerate().skip(opener + 1) {
        match kind_of(*item) {
            6..=9 if depth == 0 => break,
            1..=5 => depth += 1,
            8 | 9 => depth -= 1,
            _ => {}
        }
        if is_code(*item) && end_of(*item) > 0 {
            inside.push(at);
        }
    }
    if inside.is_empty() {
        return false;
    }
    let end = end_of(draft.items[random.pick(&inside)]) - 1;
    let item = &mut draft.items[opener];
    item.0 = kind_of(*item) + 256 * scope(argument_of(*item) % 32, end);
    true
}

fn past_outer_end(random: &mut Random, draft: &mut Draft) -> bool {
    let late: Vec<u64> = codes(draft).iter().map(|at| end_of(draft.items[*at])).collect();
    let late: Vec<u64> = late.into_iter().filter(|end| *end > 0).collect();
    if late.is_empty() {
        return false;
    }
    draft.outer_end = random.pick(&late) - 1;
    true
}

fn repeat_differs(random: &mut Random, draft: &mut Draft) -> bool {
    let Some(at) = any_of(random, draft, &[3]) else { return false };
    let item = &mut draft.items[at];
    let (condition, end) = (argument_of(*item) % 32, argument_of(*item) / 32);
    let other = if end == 0 || random.percent(50) { end + 1 } else { end - 1 };
    item.0 = 3 + 256 * scope(condition, other.min(TOP));
    other <= TOP
}

/// Changes a NAME, given its LOCAL and the NAME before it. A change that
/// does not come about leaves the span as it was.
fn rename<T>(
    random: &mut Random,
    draft: &mut Draft,
    change: impl Fn(&mut Line, Line, Option<Line>) -> T,
) -> bool {
    let Some(at) = any_of(random, draft, &[11]) else { return false };
    let Some(local) = draft.items[..at].iter().rfind(|line| kind_of(**line) == 10).copied() else {
        return false;
    };
    let before = Some(draft.items[at - 1]).filter(|line| kind_of(*line) == 11);
    let old = draft.items[at];
    change(&mut draft.items[at], local, before);
    draft.items[at] != old
}

fn respoil(random: &mut Random, draft: &mut Draft, change: impl Fn(&mut Line)) -> bool {
    if draft.uses.is_empty() {
        draft.uses.push((0, 0));
    }
    let at = random.index(draft.uses.len());
    change(&mut draft.uses[at]);
    true
}

/// Ways to miscount, on the finished words: of the sheet, then of the uses.
pub fn miscount(random: &mut Random, case: &mut Case, of_sheet: bool) {
    let fixed = if of_sheet { 2 } else { 1 };
    let words = if of_sheet { &mut case.sheet } else { &mut case.uses };
    match random.below(9) {
        0 => words.clear(),
        1 => words.truncate(random.index(words.len())),
        2 => words.push(random.pick(&[0, 1, u64::MAX])),
        3 => words.extend([0, 0]),
        4 => words[0] += 1,
        5 => words[0] = words[0].wrapping_sub(1),
        // Counts whose double wraps round to the length that is there.
        6 => words[0] += 1 << 63,
        7 => {
            words.truncate(fixed);
            words[0] = 1 << 63;
        }
        _ => {
            words.resize(2 * 1025 + fixed, 0);
            words[0] = 1025;
        }
    }
}
