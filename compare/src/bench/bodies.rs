//! Sheets like the function bodies of scripts, of a wanted size: uses stand
//! where code reads and writes, and a name that is written counts as modified.

use crate::draft::*;
use crate::random::Random;

/// How a body is to look. Chances are in percent.
#[derive(Clone, Copy)]
pub struct Plan {
    pub items: usize,
    pub locals: usize,
    pub uses: usize,
    pub depth: usize,
    pub blocks: u64,
    pub gotos: u64,
}

/// A body with as many items as planned. Locals and uses come close.
pub fn body(random: &mut Random, plan: Plan) -> Made {
    let mut maker = Maker::new(random, plan);
    maker.block(plan.items, plan.depth, false);
    maker.made("body")
}

/// A body of that many blocks, one in the other, with code at each level.
pub fn nest(random: &mut Random, levels: usize) -> Made {
    let plan =
        Plan { items: 6 * levels, locals: levels, uses: 5 * levels, depth: 0, blocks: 0, gotos: 0 };
    let mut maker = Maker::new(random, plan);
    maker.levels(levels);
    maker.made("nest")
}

struct Name {
    item: usize,
    may_change: bool,
    is_captured: bool,
    is_written: bool,
}

struct Used {
    code: u64,
    local: usize,
    high: u64,
    span: u64,
}

struct Maker<'r> {
    random: &'r mut Random,
    plan: Plan,
    draft: Draft,
    at: u64,
    codes: u64,
    names: Vec<Name>,
    uses: Vec<Used>,
    visible: Vec<usize>,
    labels: Vec<u64>,
    label_count: u64,
    /// Closers and labels that open blocks still need.
    owed: usize,
    loops: usize,
}

impl<'r> Maker<'r> {
    fn new(random: &'r mut Random, plan: Plan) -> Self {
        Self {
            random,
            plan,
            draft: Draft::default(),
            at: 0,
            codes: 0,
            names: Vec::new(),
            uses: Vec::new(),
            visible: Vec::new(),
            labels: Vec::new(),
            label_count: 0,
            owed: 0,
            loops: 0,
        }
    }

    fn made(mut self, what: &'static str) -> Made {
        self.draft.outer_end = self.at;
        for name in &self.names {
            let flags = 2 * u64::from(name.is_written) + 4 * u64::from(name.is_captured);
            self.draft.items[name.item].0 += 256 * flags;
        }
        self.repeat_reads();
        // A statement reads before it writes.
        self.uses.sort_by_key(|used| (used.code, used.high % 4 == 1));
        self.draft.uses = (self.uses.iter())
            .map(|used| (used.local as u64 + 65_536 * used.high, used.span))
            .collect();
        Made::admitted(what, &self.draft)
    }

    /// Uses that are still missing read again what their code uses already.
    fn repeat_reads(&mut self) {
        while !self.uses.is_empty() && self.uses.len() < self.plan.uses {
            let Used { code, local, span, .. } = self.uses[self.random.index(self.uses.len())];
            self.uses.push(Used { code, local, high: 0, span });
        }
    }

    fn left(&self) -> usize {
        self.plan.items.saturating_sub(self.draft.items.len() + self.owed)
    }

    fn push(&mut self, kind: u64, argument: u64, start: u64, end: u64) -> usize {
        self.draft.items.push(line(kind, argument, start, end));
        self.draft.items.len() - 1
    }

    fn span(&mut self) -> (u64, u64) {
        let start = self.at + self.random.between(1, 8);
        self.at = start + self.random.between(24, 60);
        (start, self.at)
    }

    fn code(&mut self, kind: u64, argument: u64) -> usize {
        let (start, end) = self.span();
        let item = self.push(kind, argument, start, end);
        self.use_locals(kind, start);
        self.codes += 1;
        item
    }

    fn use_locals(&mut self, kind: u64, start: u64) {
        if self.visible.is_empty() || matches!(kind, 12..=15) {
            return;
        }
        // Spread over the code that is to come, most of which is code.
        let missing = self.plan.uses.saturating_sub(self.uses.len()) as u64;
        let mean = 125 * missing / (self.left() as u64 + 1);
        let count = self.random.below(2 * mean + 1) / 100 + u64::from(self.random.percent(50));
        for place in 0..count.min(missing) {
            let writes = kind == 18 && place == 0 && self.random.percent(90);
            let local = self.pick(writes);
            let name = &mut self.names[local];
            let writes = writes && name.may_change;
            name.is_written |= writes;
            let crosses = name.is_captured && self.random.percent(50);
            let access = if !writes { 0 } else { self.random.pick(&[1, 1, 1, 1, 2]) };
            let begin = start + 3 * (place % 8);
            self.uses.push(Used {
                code: self.codes,
                local,
                high: access + 4 * u64::from(crosses),
                span: begin + ((begin + 2) << 32),
            });
        }
    }

    /// A visible local, rather one of the last few. For a write, one that
    /// changes if some tries find one.
    fn pick(&mut self, writes: bool) -> usize {
        let mut local = 0;
        for _ in 0..6 {
            let few = self.visible.len().min(4);
            let from = if self.random.percent(60) { self.visible.len() - few } else { 0 };
            local = self.visible[from + self.random.index(self.visible.len() - from)];
            if !writes || self.names[local].may_change {
                break;
            }
        }
        local
    }

    fn block(&mut self, room: usize, depth: usize, is_arm: bool) {
        let outer = (self.visible.len(), self.labels.len());
        let labels = if self.plan.gotos > 0 { room / 10 } else { 0 };
        let mut waiting: Vec<u64> =
            (0..labels as u64).map(|label| self.label_count + label + 1).collect();
        self.label_count += labels as u64;
        self.labels.extend(&waiting);
        self.owed += labels;
        let mut room = room - labels;
        while room + waiting.len() > 0 {
            if self.random.index(room + waiting.len()) < waiting.len() {
                self.owed -= 1;
                let label = waiting.pop().expect("a label waits");
                self.code(12, label);
            } else if room == 1 && waiting.is_empty() {
                self.last(is_arm, depth == self.plan.depth);
                room = 0;
            } else {
                room -= self.statement(room, depth);
            }
        }
        self.visible.truncate(outer.0);
        self.labels.truncate(outer.1);
    }

    fn last(&mut self, is_arm: bool, is_outermost: bool) {
        match self.random.below(20) {
            0..=2 if is_arm && self.loops > 0 => self.code(14, 0),
            3 if is_arm && self.loops > 0 => self.code(15, 0),
            4..=6 if is_arm => self.code(16, 1),
            7 if is_arm => self.code(17, 6),
            0..=9 if is_outermost => self.code(16, 1),
            _ => return self.simple(),
        };
    }

    fn simple(&mut self) {
        let (kind, argument) = self.random.pick(&[(18, 0), (18, 0), (18, 0), (17, 4), (17, 4)]);
        self.code(kind, argument);
    }

    /// One statement of at most `room` items. Gives how many it took.
    fn statement(&mut self, room: usize, depth: usize) -> usize {
        let before = self.draft.items.len();
        let names = self.plan.locals.saturating_sub(self.names.len());
        let others = self.left().saturating_sub(names).max(1);
        if room >= 2 && (self.random.index(others) < names || (before == 0 && names > 0)) {
            self.local();
        } else if room >= 3 && depth > 0 && self.random.percent(self.plan.blocks) {
            self.compound(room, depth);
        } else if room >= 3 && !self.labels.is_empty() && self.random.percent(self.plan.gotos) {
            self.guarded_goto();
        } else {
            self.simple();
        }
        self.draft.items.len() - before
    }

    /// `local x`, `local x = ..` or `local x = f()`.
    fn local(&mut self) {
        let values = self.random.pick(&[0, 1, 1, 1, 65_535]);
        let item = self.code(10, values);
        let start = start_of(self.draft.items[item]);
        let item = self.push(11, 0, start + 6, start + 9);
        let is_only = self.plan.locals == 1;
        let changes = if values == 0 { 90 } else { 45 };
        self.visible.push(self.names.len());
        self.names.push(Name {
            item,
            may_change: is_only || self.random.percent(changes),
            is_captured: !is_only && self.random.percent(10),
            is_written: false,
        });
    }

    fn guarded_goto(&mut self) {
        let label = self.random.pick(&self.labels);
        let test = self.code(5, 0);
        self.code(13, label);
        self.close(test, 0);
        self.end();
    }

    fn compound(&mut self, room: usize, depth: usize) {
        let most = (room - 2).min((room / 3).max(5));
        let inside = self.random.between(1, most as u64) as usize;
        self.owed += 1;
        match self.random.below(10) {
            0..=5 => self.if_statement(inside, depth),
            kind => {
                let kind = [4, 4, 2, 3][kind as usize - 6];
                self.within(kind, |maker| maker.block(inside, depth - 1, false));
            }
        }
        self.owed -= 1;
    }

    fn if_statement(&mut self, inside: usize, depth: usize) {
        let mut left = inside;
        let mut arm = self.code(5, 0);
        while left > 3 && self.random.percent(40) {
            let share = self.random.between(1, left as u64 - 2) as usize;
            self.arm(arm, share, depth);
            left -= share + 1;
            if self.random.percent(35) {
                arm = self.code(6, 0);
            } else {
                arm = self.push(7, 0, 0, 0);
                break;
            }
        }
        self.arm(arm, left, depth);
        self.end();
    }

    fn arm(&mut self, arm: usize, inside: usize, depth: usize) {
        self.block(inside, depth - 1, true);
        self.close(arm, 0);
    }

    /// A block of a kind with one body. UNTIL still sees the body's locals.
    fn within(&mut self, kind: u64, fill: impl FnOnce(&mut Self)) {
        let outer = self.visible.len();
        let condition = match kind {
            2 => self.random.pick(&[10, 13, 13, 11, 14, 2]),
            3 => self.random.pick(&[10, 13, 11]),
            _ => 0,
        };
        let is_loop = matches!(kind, 2..=4);
        let opener = match kind {
            1 | 3 => self.push(kind, 0, 0, 0),
            _ => self.code(kind, 0),
        };
        self.loops += usize::from(is_loop);
        fill(self);
        self.loops -= usize::from(is_loop);
        if kind == 3 {
            self.code(9, 0);
        }
        self.close(opener, condition);
        if kind != 3 {
            self.end();
        }
        self.visible.truncate(outer);
    }

    fn close(&mut self, opener: usize, condition: u64) {
        self.draft.items[opener].0 += 256 * scope(condition, self.at);
    }

    fn end(&mut self) {
        self.push(8, 0, 0, 0);
        self.at += 4;
    }

    fn levels(&mut self, levels: usize) {
        if self.random.percent(50) || self.names.is_empty() {
            self.local();
        }
        self.simple();
        if levels > 0 {
            let kind = self.random.pick(&[1, 2, 3, 4, 4, 5, 5, 5]);
            self.within(kind, |maker| maker.levels(levels - 1));
            self.simple();
        }
    }
}
