//! Which cases a run draws: admitted ones, and spoilt ones with the number
//! that they were spoilt for.

use crate::answers::Case;
use crate::damage::{WAYS, miscount};
use crate::draft::*;
use crate::random::Random;
use crate::{scope_sheet, shapes};

/// A pair with a scope sheet beside it: none, a good one or a spoilt one.
/// What refuses the pair still does, and else a spoilt one is 9.
pub fn any(random: &mut Random) -> Made {
    if random.percent(10) {
        return shapes::closures(random);
    }
    let made = any_pair(random);
    let kind = random.below(10);
    if kind < 4 {
        return made;
    }
    let draft = Draft::of_case(&made.case).unwrap_or_default();
    let sheet = scope_sheet::good(random, draft.names() as usize, draft.uses.len());
    if kind < 8 {
        // Where a captured local is there, findings hang on the crossing.
        let is_captured = |line: &Line| kind_of(*line) == 11 && argument_of(*line) & 4 != 0;
        let findings = made.findings.filter(|_| !draft.items.iter().any(is_captured));
        return Made { case: Case { scopes: sheet.words(), ..made.case }, findings, ..made };
    }
    let (what, scopes) = scope_sheet::spoilt(random, &sheet);
    let (case, spoilt_scopes) = (Case { scopes, ..made.case }, Some(what));
    match made.judge {
        0 => Made { what, case, judge: 9, spoilt_scopes, ..made },
        _ => Made { case, spoilt_scopes, ..made },
    }
}

/// A sheet and a use sheet alone.
pub fn any_pair(random: &mut Random) -> Made {
    let made = shapes::any(random);
    match random.below(10) {
        0..=4 => made,
        5..=6 => spoilt_once(random, made),
        7 => spoilt_twice(random, made),
        8 => miscounted(random, made),
        _ => frayed(random, made),
    }
}

/// Spoils for a random number within the bounds, by the ways for it in turn
/// from a random one on, until one finds its occasion.
fn spoil(
    random: &mut Random,
    draft: &mut Draft,
    least: u64,
    most: u64,
) -> Option<(u64, &'static str)> {
    let number = random.between(least, most);
    let ways: Vec<_> = WAYS.iter().filter(|way| way.0 == number).collect();
    let from = random.index(ways.len());
    (0..ways.len()).map(|step| ways[(from + step) % ways.len()]).find_map(|(_, what, way)| {
        let mut tried = draft.clone();
        way(random, &mut tried).then(|| {
            *draft = tried;
            (number, *what)
        })
    })
}

/// What a number of the pair is for a call that takes the sheet alone.
pub fn of_sheet(number: u64) -> u64 {
    if number == 8 { 0 } else { number }
}

fn spoilt_once(random: &mut Random, made: Made) -> Made {
    let mut draft = Draft::of_case(&made.case).expect("an admitted case");
    match spoil(random, &mut draft, 3, 8) {
        Some((number, what)) => Made::refused(what, draft.case(), of_sheet(number), number),
        None => made,
    }
}

/// The higher number first, so that the lower one is surely there at the end.
fn spoilt_twice(random: &mut Random, made: Made) -> Made {
    let what = "spoilt twice";
    let mut draft = Draft::of_case(&made.case).expect("an admitted case");
    let miscounts = random.percent(25);
    let Some((higher, _)) = spoil(random, &mut draft, if miscounts { 3 } else { 4 }, 8) else {
        return made;
    };
    if miscounts {
        let mut case = draft.case();
        let on_sheet = random.percent(50);
        miscount(random, &mut case, on_sheet);
        return Made::refused(what, case, if on_sheet { 2 } else { of_sheet(higher) }, 2);
    }
    let lower = spoil(random, &mut draft, 3, higher - 1).map_or(higher, |(number, _)| number);
    Made::refused(what, draft.case(), of_sheet(lower), lower)
}

fn miscounted(random: &mut Random, made: Made) -> Made {
    let mut case = made.case;
    let on_sheet = random.percent(50);
    miscount(random, &mut case, on_sheet);
    Made::refused("miscount", case, if on_sheet { 2 } else { 0 }, 2)
}

/// Lost or spare bytes, which only `flowlist` meets.
fn frayed(random: &mut Random, made: Made) -> Made {
    let mut case = made.case;
    if random.percent(50) {
        case.spare = (0..random.between(1, 7)).map(|_| random.below(256) as u8).collect();
        return Made { what: "spare bytes", case, ..made };
    }
    let last = case.uses.pop().expect("a use sheet has a word");
    case.spare = last.to_le_bytes()[..random.index(8)].to_vec();
    Made { counts: made.counts, ..Made::refused("lost bytes", case, 0, 2) }
}
