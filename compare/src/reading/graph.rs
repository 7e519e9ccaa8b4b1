//! "From items to edges", the node of an offset, and the label check.

use super::{Item, Slip, items_of};
use crate::answers::{ABSENT, Chart};

const END: u64 = 0;
const BREAK: u64 = 1;
const RETURN_VALUE: u64 = 2;
const RETURN_EMPTY: u64 = 3;
const ERROR: u64 = 4;
const ENTRY: u64 = 5;

fn truth(condition: u64) -> Option<bool> {
    match condition {
        0 | 1 => Some(false),
        2..=8 => Some(true),
        _ => None,
    }
}

/// What a body's items look up: where BREAK and CONTINUE go, and up to where
/// a name lives.
#[derive(Clone, Copy)]
struct Settings {
    break_target: u64,
    continue_target: u64,
    scope_end: u64,
}

struct Walk<'items> {
    items: &'items [Item],
    at: usize,
    current: Option<u64>,
    labels: Vec<(u64, u64)>,
    chart: Chart,
    slip: Slip,
}

pub fn chart(sheet: &[u64], slip: Slip) -> Chart {
    let items = items_of(sheet);
    let (current, labels, chart) = (Some(ENTRY), Vec::new(), Chart::default());
    let mut walk = Walk { items: &items, at: 0, current, labels, chart, slip };
    for _ in END..=ENTRY {
        walk.new_node();
    }
    walk.block(Settings { break_target: BREAK, continue_target: END, scope_end: sheet[1] });
    walk.jump_to(END);
    let mut chart = walk.chart;
    chart.reachable = reachable(&chart);
    chart
}

impl Walk<'_> {
    fn new_node(&mut self) -> u64 {
        self.chart.first.push(ABSENT);
        self.chart.second.push(ABSENT);
        self.chart.start.push(0);
        self.chart.first.len() as u64 - 1
    }

    fn edge(&mut self, from: u64, to: u64) {
        let from = from as usize;
        if self.chart.first[from] == ABSENT {
            self.chart.first[from] = to;
        } else if self.chart.second[from] == ABSENT {
            self.chart.second[from] = to;
        }
    }

    fn move_to(&mut self, node: u64) {
        self.jump_to(node);
        self.current = Some(node);
    }

    fn jump_to(&mut self, node: u64) {
        if let Some(current) = self.current.take() {
            self.edge(current, node);
        }
    }

    fn record(&mut self, item: &Item, node: u64) {
        self.chart.code_span.push(item.span_word());
        self.chart.code_node.push(node);
    }

    fn code(&mut self, item: &Item) -> u64 {
        let node = self.new_node();
        self.chart.start[node as usize] = item.start;
        self.record(item, node);
        self.move_to(node);
        node
    }

    fn label(&self, name: u64) -> Option<u64> {
        let found = self.labels.iter().rev().find(|(label, _)| *label == name);
        found.filter(|_| name != 0).map(|&(_, node)| node)
    }

    /// From the first item of a block to the item that ends it.
    fn block(&mut self, settings: Settings) {
        let outside = self.labels.len();
        for place in direct_items(self.items, self.at).0 {
            let item = self.items[place];
            if item.kind == 12 && item.argument != 0 {
                let node = self.new_node();
                self.labels.push((item.argument, node));
            }
        }
        while self.at < self.items.len() && !matches!(self.items[self.at].kind, 6..=9) {
            let item = self.items[self.at];
            self.at += 1;
            self.statement(&item, settings);
        }
        self.labels.truncate(outside);
    }

    fn statement(&mut self, item: &Item, settings: Settings) {
        let body = Settings { scope_end: item.scope_end(), ..settings };
        match item.kind {
            1 => {
                self.block(body);
                self.at += 1;
            }
            2 => {
                let head = self.code(item);
                let after = self.new_node();
                if truth(item.condition()) == Some(false) {
                    self.current = None;
                }
                self.block(Settings { break_target: after, continue_target: head, ..body });
                self.at += 1;
                self.jump_to(head);
                if truth(item.condition()) != Some(true) {
                    self.edge(head, after);
                }
                self.current = Some(after);
            }
            3 => {
                let [start, condition, after] = [(); 3].map(|()| self.new_node());
                self.move_to(start);
                self.block(Settings { break_target: after, continue_target: condition, ..body });
                self.jump_to(condition);
                let until = self.items[self.at];
                self.at += 1;
                self.record(&until, condition);
                if truth(item.condition()) != Some(true) {
                    self.edge(condition, start);
                }
                if truth(item.condition()) != Some(false) {
                    self.edge(condition, after);
                }
                self.current = Some(after);
            }
            4 => {
                self.code(item);
                let head = self.new_node();
                self.move_to(head);
                let after = self.new_node();
                self.block(Settings { break_target: after, continue_target: head, ..body });
                self.at += 1;
                self.jump_to(head);
                self.edge(head, after);
                self.current = Some(after);
            }
            5 => self.arms(item, body),
            10 => {
                let node = self.code(item);
                while self.at < self.items.len() && self.items[self.at].kind == 11 {
                    self.chart.name_span.push(self.items[self.at].span_word());
                    self.chart.name_node.push(node);
                    self.chart.name_scope_end.push(settings.scope_end);
                    self.at += 1;
                }
            }
            12 => {
                if let Some(node) = self.label(item.argument) {
                    self.record(item, node);
                    self.move_to(node);
                    if self.slip == Slip::LabelHasCodeStart {
                        self.chart.start[node as usize] = item.start;
                    }
                }
            }
            13 => {
                let target = self.label(item.argument).unwrap_or(BREAK);
                self.code_and_jump(item, target);
            }
            14 => self.code_and_jump(item, settings.break_target),
            15 => self.code_and_jump(item, settings.continue_target),
            16 if item.argument == 1 => self.code_and_jump(item, RETURN_VALUE),
            16 => self.code_and_jump(item, RETURN_EMPTY),
            17 if item.argument == 6 => self.code_and_jump(item, ERROR),
            17 | 18 => {
                self.code(item);
            }
            _ => {}
        }
    }

    fn code_and_jump(&mut self, item: &Item, target: u64) {
        self.code(item);
        self.jump_to(target);
    }

    fn arms(&mut self, item: &Item, body: Settings) {
        let mut test = self.code(item);
        let join = self.new_node();
        self.block(body);
        self.jump_to(join);
        self.current = Some(test);
        while matches!(self.items[self.at].kind, 6 | 7) {
            let arm = self.items[self.at];
            self.at += 1;
            if arm.kind == 6 {
                test = self.code(&arm);
            }
            self.block(Settings { scope_end: arm.scope_end(), ..body });
            self.jump_to(join);
            self.current = if arm.kind == 6 { Some(test) } else { None };
        }
        self.jump_to(join);
        self.at += 1;
        self.current = Some(join);
    }
}

/// The places of the items that stand directly in the block beginning at
/// `at`, and the place where the block ends.
fn direct_items(items: &[Item], at: usize) -> (Vec<usize>, usize) {
    let mut depth = 0;
    let mut direct = Vec::new();
    for (place, item) in items.iter().enumerate().skip(at) {
        match item.kind {
            6..=9 if depth == 0 => return (direct, place),
            8 | 9 => depth -= 1,
            _ if depth == 0 => direct.push(place),
            _ => {}
        }
        if matches!(item.kind, 1..=5) {
            depth += 1;
        }
    }
    (direct, items.len())
}

fn reachable(chart: &Chart) -> Vec<u64> {
    let mut flags = vec![0; chart.first.len()];
    flags[ENTRY as usize] = 1;
    loop {
        let before = flags.clone();
        for node in 0..flags.len() {
            for next in [chart.first[node], chart.second[node]] {
                if flags[node] == 1 && next != ABSENT {
                    flags[next as usize] = 1;
                }
            }
        }
        if before == flags {
            return flags;
        }
    }
}

pub fn node_at(chart: &Chart, offset: u64, slip: Slip) -> Option<u64> {
    let is_past = |span: u64| match slip {
        Slip::EndEqualToOffsetTaken => span >> 32 >= offset,
        _ => span >> 32 > offset,
    };
    let place = chart.code_span.iter().position(|&span| is_past(span))?;
    Some(chart.code_node[place])
}

/// Every block is found from the item that opens it, and each GOTO is looked
/// for in the blocks around it.
pub fn label_check(items: &[Item]) -> bool {
    struct Block {
        places: std::ops::Range<usize>,
        labels: Vec<u64>,
    }
    let is_block_start = |at: &usize| *at == 0 || matches!(items[at - 1].kind, 1..=7);
    let block_at = |at: usize| {
        let (direct, end) = direct_items(items, at);
        let labels = direct.iter().map(|&place| items[place]).filter(|item| item.kind == 12);
        let labels = labels.map(|label| label.argument).filter(|name| *name != 0).collect();
        Block { places: at..end, labels }
    };
    let blocks: Vec<Block> = (0..=items.len()).filter(is_block_start).map(block_at).collect();

    let count = |labels: &[u64], name: u64| labels.iter().filter(|label| **label == name).count();
    let has_repeat =
        blocks.iter().any(|block| block.labels.iter().any(|&name| count(&block.labels, name) > 1));
    let finds_label = |place: usize, name: u64| {
        blocks.iter().any(|block| block.places.contains(&place) && count(&block.labels, name) > 0)
    };
    let all_find = (0..items.len())
        .filter(|&place| items[place].kind == 13)
        .all(|place| finds_label(place, items[place].argument));
    !has_repeat && all_find
}
