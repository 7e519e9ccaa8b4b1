//! Scope sheets: their layout, good ones at random, and ways to spoil one for 9.

use crate::random::Random;

pub const MOST: u64 = 512;

/// A scope's kind, and its parent plus 1 or 0.
pub type Scope = (u64, u64);

#[derive(Debug, Clone, Default, PartialEq, Eq)]
pub struct ScopeSheet {
    pub scopes: Vec<Scope>,
    pub of_names: Vec<u64>,
    pub of_uses: Vec<u64>,
}

impl ScopeSheet {
    pub fn words(&self) -> Vec<u64> {
        let mut words = vec![self.scopes.len() as u64];
        words.extend(self.scopes.iter().map(|scope| scope.0));
        words.extend(self.scopes.iter().map(|scope| scope.1));
        words.extend(self.of_names.iter().chain(&self.of_uses));
        words
    }

    /// One scope fewer: what gave it gives its parent, or the first scope.
    pub fn without(&self, scope: usize) -> Self {
        let scope = scope as u64;
        let parent = self.scopes[scope as usize].1;
        let word = |word: u64| match word {
            word if word <= scope => word,
            word if word == scope + 1 => parent,
            word => word - 1,
        };
        let number = |number: &u64| word(number.saturating_add(1)).saturating_sub(1);
        let mut scopes: Vec<Scope> =
            self.scopes.iter().map(|(kind, parent)| (*kind, word(*parent))).collect();
        scopes.remove(scope as usize);
        let of_names = self.of_names.iter().map(number).collect();
        Self { scopes, of_names, of_uses: self.of_uses.iter().map(number).collect() }
    }

    /// The sheet of words whose length fits their count.
    pub fn of_words(words: &[u64], names: usize, uses: usize) -> Option<Self> {
        let scopes = words.len().checked_sub(1 + names + uses)?;
        let count = scopes / 2;
        if scopes % 2 != 0 || words[0] != count as u64 {
            return None;
        }
        let (kinds, rest) = words[1..].split_at(count);
        let (parents, rest) = rest.split_at(count);
        let (of_names, of_uses) = rest.split_at(names);
        let scopes = kinds.iter().copied().zip(parents.iter().copied()).collect();
        Some(Self { scopes, of_names: of_names.to_vec(), of_uses: of_uses.to_vec() })
    }
}

/// What stands beside a pair: a scope sheet taken apart, or words that make
/// none, as 0 words do.
#[derive(Debug, Clone)]
pub enum Beside {
    Words(Vec<u64>),
    Sheet(ScopeSheet),
}

impl Beside {
    pub fn of_words(words: &[u64], names: usize, uses: usize) -> Self {
        let sheet = ScopeSheet::of_words(words, names, uses);
        sheet.map_or_else(|| Self::Words(words.to_vec()), Self::Sheet)
    }

    pub fn words(&self) -> Vec<u64> {
        match self {
            Self::Words(words) => words.clone(),
            Self::Sheet(sheet) => sheet.words(),
        }
    }
}

impl Default for Beside {
    fn default() -> Self {
        Self::Words(Vec::new())
    }
}

/// Kinds and parents of `count` scopes: chains and bushes, one root or
/// several, with many Functions, few or none.
pub fn tree(random: &mut Random, count: u64) -> Vec<Scope> {
    let [roots, steps] = [random.pick(&[0, 3, 30]), random.pick(&[1, 1, 3, MOST])];
    let kinds: &[u64] =
        random.pick(&[&[0, 1, 2, 3][..], &[1, 2, 3, 2, 3, 2, 3, 2, 3, 2], &[2, 3, 0], &[1]]);
    let scope = |scope: u64| {
        let is_root = scope == 0 || random.percent(roots);
        let parent = if is_root { 0 } else { scope - random.below(scope.min(steps)) };
        (random.pick(kinds), parent)
    };
    (0..count).map(scope).collect()
}

/// A sheet that 02 admits with so many names and uses.
pub fn good(random: &mut Random, names: usize, uses: usize) -> ScopeSheet {
    let least = u64::from(names + uses > 0);
    let count = match random.below(40) {
        0 => MOST,
        1 => MOST - 1,
        2 => least,
        3..=9 => random.between(least, 60),
        _ => random.between(least, 6),
    };
    let scopes = tree(random, count);
    // Names near the roots are those that a use below can see.
    let highest = random.pick(&[1, 3, MOST]).min(count);
    let of_names = (0..names).map(|_| random.below(highest)).collect();
    let of_uses = (0..uses).map(|_| random.below(count)).collect();
    ScopeSheet { scopes, of_names, of_uses }
}

/// A way to spoil a good sheet's words. It says no where the sheet gives no
/// occasion.
type Way = fn(&mut Random, &ScopeSheet) -> Option<Vec<u64>>;

pub const WAYS: &[(&str, Way)] = &[
    ("count 513", |random, sheet| {
        let scopes = tree(random, MOST + 1);
        Some(ScopeSheet { scopes, ..sheet.clone() }.words())
    }),
    // The length is the one that a wrapped product would ask for.
    ("count 2^63", |_, sheet| {
        let none = ScopeSheet { scopes: Vec::new(), ..sheet.clone() };
        Some(counted(none.words(), 1 << 63))
    }),
    ("count 2^64 - 1", |_, sheet| {
        let none = ScopeSheet { scopes: Vec::new(), ..sheet.clone() };
        let mut words = none.words();
        words.truncate((words.len() - 1).max(2) - 1);
        Some(counted(words, u64::MAX))
    }),
    ("count too high", |_, sheet| Some(counted(sheet.words(), sheet.scopes.len() as u64 + 1))),
    ("count too low", |_, sheet| {
        (sheet.scopes.len() as u64).checked_sub(1).map(|count| counted(sheet.words(), count))
    }),
    // A word 0 is a sheet without scopes, not no sheet.
    ("count 0 alone", |_, sheet| {
        let is_asked = !sheet.of_names.is_empty() || !sheet.of_uses.is_empty();
        is_asked.then(|| vec![0])
    }),
    // Nothing left would be no scope sheet.
    ("one word too short", |_, sheet| {
        let mut words = sheet.words();
        words.pop();
        (!words.is_empty()).then_some(words)
    }),
    ("one word too long", |random, sheet| {
        let mut words = sheet.words();
        words.push(random.pick(&[0, 1, u64::MAX]));
        Some(words)
    }),
    ("kind 4", |random, sheet| rescope(random, sheet, 0, |scope, _| scope.0 = 4)),
    ("kind far above", |random, sheet| {
        let kind = random.pick(&[5, 257, 1 << 32, u64::MAX]);
        rescope(random, sheet, 0, |scope, _| scope.0 = kind)
    }),
    ("own parent", |random, sheet| rescope(random, sheet, 0, |scope, own| scope.1 = own + 1)),
    ("higher parent", |random, sheet| rescope(random, sheet, 1, |scope, own| scope.1 = own + 2)),
    ("parent not in it", |random, sheet| {
        let parent = sheet.scopes.len() as u64 + 1;
        rescope(random, sheet, 0, |scope, _| scope.1 = parent)
    }),
    ("parent word 2^64 - 1", |random, sheet| {
        rescope(random, sheet, 0, |scope, _| scope.1 = u64::MAX)
    }),
    ("parent word past 32 bits", |random, sheet| {
        rescope(random, sheet, 0, |scope, _| scope.1 += 1 << 32)
    }),
    ("parent word past 2^63", |random, sheet| {
        rescope(random, sheet, 0, |scope, _| scope.1 += 1 << 63)
    }),
    ("name's scope not in it", |random, sheet| {
        let mut spoilt = sheet.clone();
        move_out(random, &mut spoilt.of_names, sheet.scopes.len()).then(|| spoilt.words())
    }),
    ("use's scope not in it", |random, sheet| {
        let mut spoilt = sheet.clone();
        move_out(random, &mut spoilt.of_uses, sheet.scopes.len()).then(|| spoilt.words())
    }),
];

fn counted(mut words: Vec<u64>, count: u64) -> Vec<u64> {
    words[0] = count;
    words
}

/// Changes one scope that has so many behind it, given its number.
fn rescope(
    random: &mut Random,
    sheet: &ScopeSheet,
    behind: usize,
    change: impl Fn(&mut Scope, u64),
) -> Option<Vec<u64>> {
    let choices = sheet.scopes.len().checked_sub(behind).filter(|choices| *choices > 0)?;
    let own = random.index(choices);
    let mut spoilt = sheet.clone();
    change(&mut spoilt.scopes[own], own as u64);
    Some(spoilt.words())
}

fn move_out(random: &mut Random, numbers: &mut [u64], count: usize) -> bool {
    if numbers.is_empty() {
        return false;
    }
    let at = random.index(numbers.len());
    numbers[at] =
        random.pick(&[count as u64, count as u64 + 1, MOST, (1 << 32) + numbers[at], u64::MAX]);
    numbers[at] >= count as u64
}

/// Spoils by the ways in turn from a random one on, until one finds its
/// occasion. The first one always does.
pub fn spoilt(random: &mut Random, sheet: &ScopeSheet) -> (&'static str, Vec<u64>) {
    let from = random.index(WAYS.len());
    let ways = WAYS[from..].iter().chain(WAYS);
    let found = ways.into_iter().find_map(|(what, way)| Some((*what, way(random, sheet)?)));
    found.expect("a way that always finds its occasion")
}
