//! Chains of scopes: the reading's answer and luck's own, for each use's
//! scope with each name's scope of a tree. Small scope sheets, through every
//! side.

use crate::answers::Side;
use crate::draft::{Draft, Made};
use crate::limits::one_use;
use crate::random::Random;
use crate::reading::Slip;
use crate::reading::scopes::crosses;
use crate::run;
use crate::scope_sheet::{self, Beside};

#[derive(Default)]
struct Tally {
    trees: u64,
    pairs: u64,
    crossing: u64,
    /// The name's scope comes first, and there is a Function on the chain.
    name_before_function: u64,
    name_alone: u64,
    ran_out: u64,
    /// The name's scope is a Function and answers no.
    both: u64,
    deepest: usize,
}

impl Tally {
    /// By 02's sentence once more, read from luck's answer.
    fn count(&mut self, kinds: &[u64], parents: &[u64], of_use: u64, of_name: u64, crosses: bool) {
        let mut chain = vec![of_use];
        while let Some(parent) = parents[chain[chain.len() - 1] as usize].checked_sub(1) {
            chain.push(parent);
        }
        let has_function = chain.iter().any(|scope| kinds[*scope as usize] == 1);
        self.pairs += 1;
        self.deepest = self.deepest.max(chain.len());
        if crosses {
            self.crossing += 1;
        } else if !chain.contains(&of_name) {
            self.ran_out += 1;
        } else if has_function {
            self.name_before_function += 1;
            self.both += u64::from(kinds[of_name as usize] == 1);
        } else {
            self.name_alone += 1;
        }
    }

    fn tell(&self, what: &str) -> Result<(), String> {
        println!("{what}: {} trees, {} pairs of scopes, as luck", self.trees, self.pairs);
        println!(
            "  crossing {}; not: {} by the name's scope before a Function ({} times itself one), \
             {} by the name's scope without one, {} by running out; longest chain {}",
            self.crossing,
            self.name_before_function,
            self.both,
            self.name_alone,
            self.ran_out,
            self.deepest
        );
        let counts = [self.crossing, self.name_before_function, self.both, self.ran_out];
        if counts.contains(&0) {
            return Err(format!("{what}: an outcome never occurred"));
        }
        Ok(())
    }
}

fn compare(
    kinds: &[u64],
    parents: &[u64],
    pairs: impl Iterator<Item = (u64, u64)>,
    tally: &mut Tally,
) -> Result<(), String> {
    let chains = luck::Chains::new(kinds, parents);
    tally.trees += 1;
    for (of_use, of_name) in pairs {
        let have = chains.crosses(of_use, of_name);
        if crosses(kinds, parents, of_use, of_name, Slip::None) != have {
            return Err(format!(
                "luck says {have} from scope {of_use} to {of_name}: kinds {kinds:?}, parents {parents:?}"
            ));
        }
        tally.count(kinds, parents, of_use, of_name, have);
    }
    Ok(())
}

/// The next tree of as many scopes, if there is one: each scope counts
/// through its kinds and its parents, the first scope fastest.
fn step(kinds: &mut [u64], parents: &mut [u64]) -> bool {
    for scope in 0..kinds.len() {
        if kinds[scope] < 3 {
            kinds[scope] += 1;
            return true;
        }
        kinds[scope] = 0;
        if parents[scope] < scope as u64 {
            parents[scope] += 1;
            return true;
        }
        parents[scope] = 0;
    }
    false
}

/// Every tree of up to `most` scopes, with every pair of its scopes.
fn every_tree(most: u64) -> Result<(), String> {
    let mut tally = Tally::default();
    for count in 1..=most {
        let (mut kinds, mut parents) = (vec![0; count as usize], vec![0; count as usize]);
        loop {
            let pairs = (0..count * count).map(|pair| (pair / count, pair % count));
            compare(&kinds, &parents, pairs, &mut tally)?;
            if !step(&mut kinds, &mut parents) {
                break;
            }
        }
    }
    tally.tell(&format!("every tree of up to {most} scopes"))
}

pub fn check(most: u64, sheets: u64, seed: u64) -> Result<(), String> {
    every_tree(most)?;
    let mut random = Random::new(seed);
    let mut tally = Tally::default();
    for _ in 0..sheets {
        let (kinds, parents): (Vec<u64>, Vec<u64>) =
            scope_sheet::tree(&mut random, 512).into_iter().unzip();
        let pairs: Vec<(u64, u64)> =
            (0..1024).map(|_| (random.below(512), random.below(512))).collect();
        // Pairs at random seldom share a chain, so some are a scope and one above it.
        let above = pairs.iter().map(|&(scope, steps)| (scope, above(&parents, scope, steps % 40)));
        compare(&kinds, &parents, pairs.iter().copied().chain(above), &mut tally)?;
    }
    tally.tell(&format!("random trees of 512 scopes, seed {seed}"))
}

/// Every scope sheet of up to `most` scopes for a captured local and one use
/// of it, each word up to one too high. The supplied bit is now set, now not.
pub fn every_sheet(
    most: u64,
    sides: &mut [Box<dyn Side>],
    tally: &mut run::Tally,
) -> Result<(), String> {
    for count in 1..=most {
        let kinds = (0..count).map(|_| 4);
        let parents = (0..count).map(|scope| scope + 1);
        let highest: Vec<u64> = kinds.chain(parents).chain([count, count]).collect();
        let mut words = vec![0; highest.len()];
        loop {
            let is_wrong = words.iter().zip(&highest).any(|(word, highest)| word == highest);
            let scopes = Beside::Words([vec![count], words.clone()].concat());
            let supplied = 4 * (words.iter().sum::<u64>() % 2);
            let draft = Draft { scopes, ..one_use(4, supplied) };
            let made = if is_wrong {
                Made::refused("scope sheet", draft.case(), 0, 9)
            } else {
                Made::admitted("scope sheet", &draft)
            };
            run::check(&made, sides, tally)?;
            let Some(at) = (0..words.len()).find(|at| words[*at] < highest[*at]) else {
                break;
            };
            words[..at].fill(0);
            words[at] += 1;
        }
    }
    Ok(())
}

/// The scope some steps up, or the root.
fn above(parents: &[u64], scope: u64, steps: u64) -> u64 {
    (0..steps).fold(scope, |scope, _| parents[scope as usize].checked_sub(1).unwrap_or(scope))
}
