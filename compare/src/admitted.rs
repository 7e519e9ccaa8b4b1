//! Random sheets that 01 admits, of many shapes.

use crate::draft::*;
use crate::random::Random;

/// How a sheet is to look. Chances are in percent.
#[derive(Clone, Copy)]
pub struct Shape {
    pub items: usize,
    pub depth: usize,
    pub blocks: u64,
    pub labels: u64,
    pub gotos: u64,
    pub locals: u64,
    pub uses: usize,
    pub label_names: u64,
}

pub struct Maker<'r> {
    random: &'r mut Random,
    shape: Shape,
    draft: Draft,
    at: u64,
    last_code_end: u64,
    visible: Vec<Vec<u64>>,
    labels_fit: bool,
}

/// Where a code item starts and ends, for placing uses.
type Place = (u64, u64);

pub fn admitted(random: &mut Random, shape: Shape) -> Made {
    let at = match random.below(8) {
        0 => TOP - 300_000,
        1 => random.below(1 << 20),
        _ => random.below(3),
    };
    let draft = Draft::default();
    let (visible, labels_fit) = (Vec::new(), true);
    let mut maker = Maker { random, shape, draft, at, last_code_end: 0, visible, labels_fit };
    maker.block(shape.items, shape.depth);
    maker.draft.outer_end = maker.scope_end(0);
    maker.uses();
    let labels = Some(maker.labels_fit);
    Made { labels, ..Made::admitted("random", &maker.draft) }
}

impl Maker<'_> {
    fn push(&mut self, kind: u64, argument: u64, start: u64, end: u64) -> usize {
        let line = line(kind, argument, start, end);
        if is_code(line) {
            self.last_code_end = end;
        }
        self.draft.items.push(line);
        self.draft.items.len() - 1
    }

    /// The next span, of at least the given length.
    fn step(&mut self, least: u64) -> Place {
        let gap = self.random.pick(&[0, 0, 1, 1, 2, 5]);
        let extra = self.random.pick(&[0, 1, 1, 2, 3, 8]);
        let start = self.at + gap;
        self.at = start + least + extra;
        (start, self.at)
    }

    fn code(&mut self, kind: u64, argument: u64) -> usize {
        let (start, end) = self.step(0);
        self.push(kind, argument, start, end)
    }

    /// A scope end for a block whose items begin at `from`: not before any
    /// code inside, else as it comes.
    fn scope_end(&mut self, from: usize) -> u64 {
        let holds_code = self.draft.items[from..].iter().any(|line| is_code(*line));
        let least = if holds_code { self.last_code_end } else { 0 };
        match self.random.below(10) {
            0 => least,
            1 => TOP,
            2 => self.random.between(least, TOP),
            3 => self.random.between(least, (self.at + 40).min(TOP)),
            _ => self.at,
        }
    }

    /// Puts the scope end into an opener whose items begin behind it.
    fn close_scope(&mut self, opener: usize, condition: u64) {
        let end = self.scope_end(opener + 1);
        self.draft.items[opener].0 += 256 * scope(condition, end);
    }

    fn block(&mut self, room: usize, depth: usize) {
        let mut room = room;
        let mut planned = Vec::new();
        while room > 0 && self.random.percent(self.shape.labels) {
            let name = self.random.between(1, self.shape.label_names);
            self.labels_fit &= !planned.contains(&name);
            planned.push(name);
            room -= 1;
        }
        self.visible.push(planned.clone());
        while room > 0 && !self.random.percent(4) {
            if !planned.is_empty() && self.random.percent(30) {
                let name = planned.pop().expect("a label is left");
                self.code(12, name);
            } else {
                room -= self.statement(room, depth);
            }
        }
        while let Some(name) = planned.pop() {
            self.code(12, name);
        }
        if room > 0 && self.random.percent(12) {
            let (kind, argument) = self.random.pick(&[(15, 0), (16, 0), (16, 1)]);
            self.code(kind, argument);
        }
        self.visible.pop();
    }

    /// One statement of at most `room` items. Gives how many it took.
    fn statement(&mut self, room: usize, depth: usize) -> usize {
        let before = self.draft.items.len();
        if room >= 2 && depth > 0 && self.random.percent(self.shape.blocks) {
            self.compound(room, depth);
        } else if room >= 2 && self.random.percent(self.shape.locals) {
            self.local(room);
        } else if self.random.percent(self.shape.gotos) {
            self.goto();
        } else {
            self.simple();
        }
        self.draft.items.len() - before
    }

    fn simple(&mut self) {
        match self.random.below(20) {
            0 => {
                self.push(19, 0, 0, 0);
            }
            1 => {
                let start = self.random.below(TOP);
                let end = self.random.between(start, TOP);
                self.push(12, 0, start, end);
            }
            2 => {
                self.code(14, 0);
            }
            3 | 4 => {
                self.code(17, 6);
            }
            5 | 6 => {
                let argument = self.random.below(128);
                self.code(17, argument);
            }
            7..=9 => {
                self.code(17, 4);
            }
            _ => {
                self.code(18, 0);
            }
        }
    }

    fn goto(&mut self) {
        let seen: Vec<u64> = self.visible.concat();
        let name = match self.random.below(12) {
            0 => self.random.pick(&[0, 65_535]),
            1 => self.random.between(1, self.shape.label_names),
            _ if seen.is_empty() => return self.simple(),
            _ => self.random.pick(&seen),
        };
        self.labels_fit &= seen.contains(&name);
        self.code(13, name);
    }

    fn local(&mut self, room: usize) {
        let most = if self.random.percent(3) { room - 1 } else { (room - 1).min(3) };
        let names = self.random.between(1, most as u64);
        let values = match self.random.below(8) {
            0 => 65_535,
            1 => self.random.below(65_536),
            2..=4 => 0,
            _ => self.random.between(0, names + 1),
        };
        let (start, end) = self.step(names);
        self.push(10, values, start, end);
        let mut from = start;
        for left in (0..names).rev() {
            let begin = self.random.between(from, (from + 2).min(end - left - 1));
            from = self.random.between(begin + 1, (begin + 3).min(end - left));
            let flags = self.random.pick(&[2, 2, 2, 2, 0, 6, 4, 3, 1, 7]);
            self.push(11, flags, begin, from);
        }
    }

    fn compound(&mut self, room: usize, depth: usize) {
        let inside = self.random.index(room - 1);
        match self.random.below(8) {
            0 => {
                let opener = self.push(1, 0, 0, 0);
                self.body(opener, 0, inside, depth);
            }
            1 | 2 => {
                let condition = self.condition();
                let opener = self.code(2, 0);
                self.body(opener, condition, inside, depth);
            }
            3 | 4 => {
                let condition = self.condition();
                let opener = self.push(3, 0, 0, 0);
                self.block(inside, depth - 1);
                let (start, end) = self.step(0);
                self.push(9, 0, start, end);
                self.draft.items[opener].0 += 256 * scope(condition, end);
            }
            5 => {
                let opener = self.code(4, 0);
                self.body(opener, 0, inside, depth);
            }
            _ => self.if_statement(inside, depth),
        }
    }

    fn body(&mut self, opener: usize, condition: u64, inside: usize, depth: usize) {
        self.block(inside, depth - 1);
        self.close_scope(opener, condition);
        self.push(8, 0, 0, 0);
    }

    fn if_statement(&mut self, inside: usize, depth: usize) {
        let mut left = inside;
        let mut arm = self.code(5, 0);
        loop {
            let share = self.random.index(left + 1);
            let before = self.draft.items.len();
            self.block(share, depth - 1);
            left -= self.draft.items.len() - before;
            self.close_scope(arm, 0);
            if left == 0 || self.random.percent(35) {
                break;
            }
            left -= 1;
            if self.random.percent(50) {
                arm = self.code(6, 0);
            } else {
                arm = self.push(7, 0, 0, 0);
                self.block(left, depth - 1);
                self.close_scope(arm, 0);
                break;
            }
        }
        self.push(8, 0, 0, 0);
    }

    fn condition(&mut self) -> u64 {
        if self.random.percent(60) { 10 } else { self.random.below(19) }
    }

    fn uses(&mut self) {
        let names = self.draft.names();
        if names == 0 {
            return;
        }
        let codes: Vec<Place> = self
            .draft
            .items
            .iter()
            .filter(|line| is_code(**line))
            .map(|line| (start_of(*line), end_of(*line)))
            .collect();
        let count = self.random.index(self.shape.uses + 1);
        let favourites: Vec<u64> =
            (0..self.random.between(1, 4)).map(|_| self.random.below(names)).collect();
        let strays = self.random.percent(25);
        for _ in 0..count {
            let local = if self.random.percent(70) {
                self.random.pick(&favourites)
            } else {
                self.random.below(names)
            };
            let high =
                self.random.pick(&[0, 0, 0, 1, 1, 1, 1, 2]) + self.random.pick(&[0, 0, 0, 4]);
            let start = self.use_start(&codes, strays);
            let length = self.random.pick(&[0, 1, 1, 2, TOP]);
            let end = (start + length).min(TOP);
            self.draft.uses.push((local + 65_536 * high, start + (end << 32)));
        }
        if self.random.percent(60) {
            self.draft.uses.sort_by_key(|line| start_of(*line));
        }
    }

    fn use_start(&mut self, codes: &[Place], strays: bool) -> u64 {
        let (start, end) = self.random.pick(codes);
        match self.random.below(20) {
            0 if strays => self.random.below(TOP + 1),
            1 if strays => self.last_code_end,
            2 => end.min(self.last_code_end.saturating_sub(1)),
            3 => start.saturating_sub(1),
            _ if start < end => self.random.between(start, end - 1),
            _ => start.min(self.last_code_end.saturating_sub(1)),
        }
    }
}
