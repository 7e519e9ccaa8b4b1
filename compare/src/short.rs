//! Every sequence of kinds up to some length. Which ones nest rightly is
//! known from building them up by the grammar, not from checking them.

use std::collections::HashSet;

use crate::draft::*;

type Kinds = Vec<u64>;

/// All well nested sequences of exactly `length` kinds, for each length.
struct Grammar {
    blocks: Vec<Vec<Kinds>>,
}

impl Grammar {
    fn up_to(longest: usize) -> Self {
        let mut grammar = Self { blocks: Vec::new() };
        for length in 0..=longest {
            let made = grammar.blocks_of(length);
            grammar.blocks.push(made);
        }
        grammar
    }

    /// A block is statements, then RETURN or CONTINUE or neither. Shorter
    /// blocks are there already.
    fn blocks_of(&self, length: usize) -> Vec<Kinds> {
        let mut all = match length {
            0 => vec![Kinds::new()],
            1 => vec![vec![15], vec![16]],
            _ => Vec::new(),
        };
        for taken in 1..=length {
            for statement in self.statements_of(taken) {
                for rest in self.shorter_or_empty(length - taken) {
                    all.push([statement.as_slice(), rest].concat());
                }
            }
        }
        all
    }

    fn shorter_or_empty(&self, length: usize) -> impl Iterator<Item = &[u64]> {
        let is_known = length < self.blocks.len();
        let known = if is_known { self.blocks[length].as_slice() } else { &[] };
        let empty = (length == 0 && !is_known).then_some(&[] as &[u64]);
        known.iter().map(Vec::as_slice).chain(empty)
    }

    fn statements_of(&self, length: usize) -> Vec<Kinds> {
        let mut all = Vec::new();
        if length == 1 {
            all.extend([12, 13, 14, 17, 18, 19].map(|kind| vec![kind]));
        }
        if length >= 2 {
            all.push([vec![10], vec![11; length - 1]].concat());
            for body in &self.blocks[length - 2] {
                for (opener, closer) in [(1, 8), (2, 8), (3, 9), (4, 8)] {
                    all.push([&[opener], body.as_slice(), &[closer]].concat());
                }
            }
            for arms in self.arms_of(length - 2) {
                all.push([&[5], arms.as_slice(), &[8]].concat());
            }
        }
        all
    }

    /// A block, then nothing, or ELSE and a block, or ELSEIF and more arms.
    fn arms_of(&self, length: usize) -> Vec<Kinds> {
        let mut all = self.blocks[length].clone();
        for first in 0..length {
            let rest = length - first - 1;
            for block in &self.blocks[first] {
                for other in &self.blocks[rest] {
                    all.push([block.as_slice(), &[7], other.as_slice()].concat());
                }
                for arms in self.arms_of(rest) {
                    all.push([block.as_slice(), &[6], arms.as_slice()].concat());
                }
            }
        }
        all
    }
}

/// Gives each sequence of `length` kinds with a filling that breaks no other
/// rule, so that only its nesting can be refused.
pub fn each(length: usize, mut take: impl FnMut(Made)) {
    let nested: HashSet<Kinds> =
        Grammar::up_to(length).blocks.pop().expect("a length").into_iter().collect();
    let mut kinds = vec![1; length];
    for turn in 0.. {
        let draft = filled(&kinds, turn);
        if nested.contains(&kinds) {
            take(Made::admitted("short", &draft));
        } else {
            take(Made::refused("short", draft.case(), 5, 5));
        }
        let Some(place) = kinds.iter().rposition(|kind| *kind < 19) else {
            return;
        };
        kinds[place] += 1;
        kinds[place + 1..].fill(1);
    }
}

/// Gives each well nested sequence of `length` kinds behind a local, with
/// every choice of `uses` uses: any of its code, and any kind of use.
pub fn each_with_uses(length: usize, uses: u32, mut take: impl FnMut(Made)) {
    let blocks = Grammar::up_to(length).blocks.pop().expect("a length");
    for (turn, block) in (0..).zip(&blocks) {
        let mut draft = filled(&[&[10, 11], block.as_slice()].concat(), turn);
        // The value is there or not by turns, and the name is one that counts.
        draft.items[0].0 = 10 + 256 * (turn % 2);
        draft.items[1].0 = 11 + 256 * 2;
        let codes: Vec<Line> = draft.items.iter().copied().filter(|line| is_code(*line)).collect();
        let choices = 3 * codes.len() as u64;
        for choice in 0..choices.pow(uses) {
            draft.uses = (0..uses)
                .map(|place| choice / choices.pow(place) % choices)
                .map(|one| (65_536 * (one % 3), codes[(one / 3) as usize].1))
                .collect();
            take(Made::admitted("short with uses", &draft));
        }
    }
}

fn filled(kinds: &[u64], turn: u64) -> Draft {
    let mut draft = Draft { outer_end: 100, ..Draft::default() };
    let mut open = Vec::new();
    for (place, &kind) in kinds.iter().enumerate() {
        let at = 10 * place as u64;
        let condition = (turn / 7 + place as u64) % 19;
        draft.items.push(match kind {
            1 | 7 => line(kind, scope(0, 90), 0, 0),
            3 => line(3, scope(condition, 90), 0, 0),
            2 => line(2, scope(condition, 90), at, at + 5),
            4..=6 => line(kind, scope(0, 90), at, at + 5),
            8 | 19 => line(kind, 0, 0, 0),
            10 => {
                let names = kinds[place + 1..].iter().take_while(|next| **next == 11).count();
                line(10, turn % 3, at, at + 10 * names as u64 + 5)
            }
            11 => line(11, [2, 2, 0, 4, 6, 3][(turn % 6) as usize], at, at + 3),
            12 | 13 => line(kind, 1 + turn % 2, at, at + 5),
            16 => line(16, turn % 2, at, at + 5),
            17 => line(17, [6, 0, 7][(turn % 3) as usize], at, at + 5),
            _ => line(kind, 0, at, at + 5),
        });
        if matches!(kind, 1..=5) {
            open.push(place);
        }
        if matches!(kind, 8 | 9)
            && let Some(opener) = open.pop()
            && (kinds[opener], kind) == (3, 9)
        {
            let condition = argument_of(draft.items[opener]) % 32;
            draft.items[opener] = line(3, scope(condition, at + 5), 0, 0);
        }
    }
    let codes = draft.items.iter().copied().filter(|line| is_code(*line));
    let kind_of_use = |number: u64| [1, 0, 2, 1][((turn + number) % 4) as usize];
    let uses = (0..).zip(codes).map(|(number, code)| (65_536 * kind_of_use(number), code.1));
    draft.uses = if draft.names() > 0 { uses.collect() } else { Vec::new() };
    draft
}
