//! C-11, the scope sheet: its refusal, and which uses cross a function
//! boundary by it.

use super::{Slip, items_of};

const LIMIT: u64 = 512;
const MODULE: u64 = 0;
const FUNCTION: u64 = 1;

/// "A count up to 512, then two parallel arrays: kind and parent plus 1, or 0
/// for none. After them stands one scope number a word, first for each name,
/// then for each use."
struct Scopes<'words> {
    kinds: &'words [u64],
    parents: &'words [u64],
    of_names: &'words [u64],
    of_uses: &'words [u64],
}

/// None where the count or the length is wrong.
fn parts(words: &[u64], names: usize, uses: usize, slip: Slip) -> Option<Scopes<'_>> {
    let count = *words.first()?;
    // Asked before any product, which a large count would make wrap.
    if count > if slip == Slip::Count513Taken { LIMIT + 1 } else { LIMIT } {
        return None;
    }
    if words.len() != 1 + 2 * count as usize + names + uses {
        return None;
    }
    let (kinds, rest) = words[1..].split_at(count as usize);
    let (parents, rest) = rest.split_at(count as usize);
    let (of_names, of_uses) = match slip {
        Slip::UseScopesBeforeNameScopes => {
            let (of_uses, of_names) = rest.split_at(uses);
            (of_names, of_uses)
        }
        _ => rest.split_at(names),
    };
    Some(Scopes { kinds, parents, of_names, of_uses })
}

fn names_of(sheet: &[u64]) -> usize {
    items_of(sheet).iter().filter(|item| item.kind == 11).count()
}

/// "9, when the scope sheet's count, length or a kind is wrong, a parent
/// isn't a lower number, or a use or name gives a scope not in it." Asked of
/// sheets whose counts fit. 0 words are no scope sheet.
pub fn is_refused(sheet: &[u64], uses: &[u64], words: &[u64], slip: Slip) -> bool {
    if words.is_empty() || (slip == Slip::CountZeroTakenForNone && words == [0]) {
        return false;
    }
    let Some(scopes) = parts(words, names_of(sheet), uses[0] as usize, slip) else {
        return true;
    };
    let count = scopes.kinds.len() as u64;
    let is_lower = |(scope, word): (u64, &u64)| match slip {
        Slip::OwnParentTaken => *word <= scope + 1,
        Slip::ParentMaxTakenForNone => *word <= scope || *word == u64::MAX,
        _ => *word <= scope,
    };
    let kinds_fit = scopes.kinds.iter().all(|kind| *kind <= 3);
    let parents_fit = (0..).zip(scopes.parents).all(is_lower);
    let in_it = scopes.of_names.iter().chain(scopes.of_uses).all(|scope| *scope < count);
    !(kinds_fit && parents_fit && in_it)
}

/// The scopes from `scope` on, each followed by its parent. A parent is a
/// lower number, so this ends.
fn chain(parents: &[u64], scope: u64) -> Vec<u64> {
    let mut chain = vec![scope];
    let mut last = scope;
    while let Some(parent) = parents[last as usize].checked_sub(1).filter(|parent| *parent < last) {
        chain.push(parent);
        last = parent;
    }
    chain
}

/// "The chain of parents is followed from the use's own scope on: reaching
/// the name's scope first means no, meeting a Function first means yes,
/// running out means no; a scope that is both counts as the name's."
pub fn crosses(kinds: &[u64], parents: &[u64], of_use: u64, of_name: u64, slip: Slip) -> bool {
    let (from, to) = match slip {
        Slip::ChainFollowedFromName => (of_name, of_use),
        _ => (of_use, of_name),
    };
    let chain = chain(parents, from);
    let skipped = usize::from(slip == Slip::OwnScopeOfUseSkipped);
    let place =
        |wanted: &dyn Fn(u64) -> bool| chain.iter().skip(skipped).position(|scope| wanted(*scope));
    let name_at = place(&|scope| scope == to);
    let function_at = place(&|scope| match kinds[scope as usize] {
        MODULE => slip == Slip::ModuleIsBoundary,
        kind => kind == FUNCTION,
    });
    match (function_at, name_at) {
        (Some(function), Some(name)) if slip == Slip::FunctionAskedFirst => function <= name,
        (Some(function), Some(name)) => function < name,
        (Some(_), None) => true,
        (None, Some(_)) => false,
        (None, None) => slip == Slip::RunningOutCrosses,
    }
}

/// The use sheet with each crossing bit replaced, where a scope sheet comes.
/// Asked of what nothing refuses.
pub fn crossed(sheet: &[u64], uses: &[u64], words: &[u64], slip: Slip) -> Vec<u64> {
    let mut crossed = uses.to_vec();
    let count = uses[0] as usize;
    let Some(scopes) = parts(words, names_of(sheet), count, slip) else {
        return crossed;
    };
    for (word, of_use) in crossed[1..=count].iter_mut().zip(scopes.of_uses) {
        let local = *word % 65_536;
        let (kind, supplied) = (*word / 65_536 % 4, *word / 65_536 / 4);
        let of_name = scopes.of_names[local as usize];
        let crosses = u64::from(crosses(scopes.kinds, scopes.parents, *of_use, of_name, slip));
        let bit = match slip {
            Slip::SuppliedBitKept => supplied,
            Slip::SuppliedBitOnlyRaised => supplied.max(crosses),
            _ => crosses,
        };
        *word = local + 65_536 * (kind + 4 * bit);
    }
    crossed
}
