//! "From uses to findings", in demand 3's words. A set of path ends is
//! searched afresh for each node that a path may begin after.

use std::collections::{BTreeMap, BTreeSet};

use super::graph::{chart, node_at};
use super::{Slip, Use, items_of, uses_of};
use crate::answers::{ABSENT, Chart, Judgement};

struct Name {
    span: u64,
    node: u64,
    scope_end: u64,
    has_value: bool,
    has_underscore: bool,
    is_modified: bool,
    is_captured: bool,
}

impl Name {
    fn is_tracked(&self) -> bool {
        !self.has_underscore && (!self.has_value || self.takes_overwrites())
    }

    fn takes_overwrites(&self) -> bool {
        self.is_modified && !self.is_captured
    }
}

fn names(sheet: &[u64], chart: &Chart) -> Vec<Name> {
    let mut values = 0;
    let mut before = 0;
    let mut names = Vec::new();
    for item in items_of(sheet) {
        if item.kind == 10 {
            (values, before) = (item.argument, 0);
        }
        if item.kind == 11 {
            names.push(Name {
                span: chart.name_span[names.len()],
                node: chart.name_node[names.len()],
                scope_end: chart.name_scope_end[names.len()],
                has_value: values == 65_535 || before < values,
                has_underscore: item.argument & 1 != 0,
                is_modified: item.argument & 2 != 0,
                is_captured: item.argument & 4 != 0,
            });
            before += 1;
        }
    }
    names
}

/// A use of the local at hand, with its number and its node.
struct Own {
    number: u64,
    node: u64,
    used: Use,
}

struct Paths<'a> {
    chart: &'a Chart,
    name: &'a Name,
    own: &'a [Own],
    /// Each node that holds a use, with the local's first use there.
    first_at: BTreeMap<u64, Use>,
    slip: Slip,
}

impl Paths<'_> {
    fn is_alive(&self, node: u64) -> bool {
        node != self.name.node && self.chart.start[node as usize] < self.name.scope_end
    }

    fn successors(&self, node: u64) -> impl Iterator<Item = u64> {
        let node = node as usize;
        [self.chart.first[node], self.chart.second[node]].into_iter().filter(|next| *next != ABSENT)
    }

    /// Flags the last nodes of the live paths from after `node` that go on
    /// only where `goes_on` lets them.
    fn ends_after(&self, node: u64, goes_on: impl Fn(u64) -> bool) -> Vec<bool> {
        let mut ends = vec![false; self.chart.first.len()];
        let mut next: Vec<u64> = self.successors(node).collect();
        while let Some(node) = next.pop() {
            if self.is_alive(node) && !ends[node as usize] {
                ends[node as usize] = true;
                if goes_on(node) {
                    next.extend(self.successors(node));
                }
            }
        }
        ends
    }

    fn is_overwritten_after(&self, node: u64) -> bool {
        let walks_through = self.slip == Slip::UsedNodeWalkedThrough;
        let ends =
            self.ends_after(node, |node| walks_through || !self.first_at.contains_key(&node));
        let met = || self.first_at.iter().filter(|(node, _)| ends[**node as usize]);
        let meets_write = met().any(|(_, first)| !first.is_read());
        let meets_read = met().any(|(_, first)| first.is_read());
        meets_write && !meets_read
    }

    fn unassigned(&self) -> Option<&Own> {
        let writes = || self.own.iter().filter(|own| own.used.is_write());
        let write_nodes: BTreeSet<u64> = writes().map(|write| write.node).collect();
        let reached: Vec<Vec<bool>> =
            write_nodes.iter().map(|node| self.ends_after(*node, |_| true)).collect();
        let is_earlier = |write: &Own, read: &Own| {
            write.number < read.number
                || self.slip == Slip::ReadWriteMarkedBeforeItsRead && write.number == read.number
        };
        let asks_crossing = self.name.is_captured || self.slip == Slip::CapturedNotAsked;
        self.own.iter().find(|read| {
            read.used.is_read()
                && !(asks_crossing && read.used.crosses())
                && !reached.iter().any(|ends| ends[read.node as usize])
                && !writes().any(|write| is_earlier(write, read) && write.node == read.node)
        })
    }

    fn is_overwritten(&self, place: usize) -> bool {
        let write = &self.own[place];
        match self.own[place + 1..].iter().find(|later| later.node == write.node) {
            Some(next) => !next.used.is_read(),
            None => self.is_overwritten_after(write.node),
        }
    }
}

pub fn judge(sheet: &[u64], uses: &[u64], slip: Slip) -> Judgement {
    let chart = chart(sheet, slip);
    let uses = uses_of(uses);
    let mut unassigned = Vec::new();
    let mut overwritten = Vec::new();
    for (local, name) in names(sheet, &chart).iter().enumerate() {
        let local = local as u64;
        let own_uses = || uses.iter().enumerate().filter(|(_, used)| used.local == local);
        let found: Option<Vec<Own>> = own_uses()
            .map(|(number, &used)| {
                let node = node_at(&chart, used.start, slip)?;
                Some(Own { number: number as u64, node, used })
            })
            .collect();
        let Some(mut own) = found.filter(|_| name.is_tracked()) else {
            continue;
        };
        if slip == Slip::NodeUsesSortedByOffset {
            own.sort_by_key(|own| own.used.start);
        }
        let first_at = own.iter().rev().map(|own| (own.node, own.used)).collect();
        let paths = Paths { chart: &chart, name, own: &own, first_at, slip };
        let entry = |list: u64, own: &Own| {
            let word = list + 2 * local + ((own.number + 1) << 32);
            (word, own.used.start + (own.used.end << 32))
        };
        if !name.has_value {
            unassigned.extend(paths.unassigned().map(|own| entry(0, own)));
        }
        if name.takes_overwrites() {
            if name.has_value && paths.is_overwritten_after(name.node) {
                overwritten.push((1 + 2 * local, name.span));
            }
            let mut writes: Vec<usize> = (0..own.len())
                .filter(|&p| own[p].used.is_write() && paths.is_overwritten(p))
                .collect();
            writes.sort_by_key(|&p| (own[p].node, own[p].number));
            overwritten.extend(writes.iter().map(|&p| entry(1, &own[p])));
        }
    }
    let (finding_word, finding_span) = unassigned.into_iter().chain(overwritten).unzip();
    Judgement { chart, finding_word, finding_span }
}
