//! The static library's calls. This is the only unsafe code: it tests what
//! `include/waldimu.h` asks of a caller before each call, and that the answer
//! fits the columns after it.

use std::fmt;
use std::ops::Range;

unsafe extern "C" {
    fn waldimu_chart(
        sheet: *const u64,
        sheet_words: usize,
        first: *mut u64,
        first_cells: usize,
        second: *mut u64,
        second_cells: usize,
        start: *mut u64,
        start_cells: usize,
        reachable: *mut u64,
        reachable_cells: usize,
        code_span: *mut u64,
        code_span_cells: usize,
        code_node: *mut u64,
        code_node_cells: usize,
        name_span: *mut u64,
        name_span_cells: usize,
        name_node: *mut u64,
        name_node_cells: usize,
        name_end: *mut u64,
        name_end_cells: usize,
    ) -> u64;
    fn waldimu_judge(
        sheet: *const u64,
        sheet_words: usize,
        uses: *const u64,
        use_words: usize,
        scopes: *const u64,
        scope_words: usize,
        first: *mut u64,
        first_cells: usize,
        second: *mut u64,
        second_cells: usize,
        start: *mut u64,
        start_cells: usize,
        reachable: *mut u64,
        reachable_cells: usize,
        code_span: *mut u64,
        code_span_cells: usize,
        code_node: *mut u64,
        code_node_cells: usize,
        name_span: *mut u64,
        name_span_cells: usize,
        name_node: *mut u64,
        name_node_cells: usize,
        name_end: *mut u64,
        name_end_cells: usize,
        finding_word: *mut u64,
        finding_word_cells: usize,
        finding_span: *mut u64,
        finding_span_cells: usize,
        mark: *mut u64,
        mark_cells: usize,
    ) -> u64;
    fn waldimu_run(sheet: *const u64, sheet_words: usize, offset: u32) -> u64;
    fn waldimu_label_check(sheet: *const u64, sheet_words: usize) -> u64;
}

pub const ABSENT: u64 = 4_294_967_295;

const NODES: usize = 1_600;
const CODES: usize = 1_024;
const LOCALS: usize = 1_024;
const FINDINGS: usize = 3_072;

/// A refusal's number of 01's table, 1 to 15.
#[derive(Debug, Clone, Copy, PartialEq, Eq)]
pub struct Refusal(pub u8);

impl fmt::Display for Refusal {
    fn fmt(&self, f: &mut fmt::Formatter<'_>) -> fmt::Result {
        let word = match self.0 {
            1 => "bench too small",
            2 => "miscount",
            3 => "bad item",
            4 => "too deep",
            5 => "bad nesting",
            6 => "off the line",
            7 => "bad name",
            8 => "bad use",
            9 => "bad scope",
            _ => "a number that this program does not know",
        };
        write!(f, "refused {}: {word}", self.0)
    }
}

/// What a finding is about: the use with this number, or the value that the LOCAL gives.
#[derive(Debug, Clone, Copy, PartialEq, Eq)]
pub enum Finding {
    Unassigned { local: usize, use_number: usize },
    OverwrittenWrite { local: usize, use_number: usize },
    OverwrittenInitial { local: usize },
}

/// One node of a graph.
#[derive(Debug, Clone, Copy, PartialEq, Eq)]
pub struct Node {
    /// The two edges, the first before the second; a number from the node count on is none.
    pub successors: [u64; 2],
    pub is_reachable: bool,
}

/// A graph, as far as a picture needs it.
#[derive(Debug, Clone, PartialEq, Eq)]
pub struct Graph {
    pub nodes: Vec<Node>,
    /// Each code's node.
    pub code_nodes: Vec<usize>,
}

/// Where an offset belongs, and whether the code there can run.
#[derive(Debug, Clone, Copy, PartialEq, Eq)]
pub struct Place {
    pub node: Option<u32>,
    pub can_run: bool,
}

/// The columns that are lent to the calls. One is enough for any number of calls.
pub struct Unit {
    columns: Box<Columns>,
}

struct Columns {
    first: [u64; NODES],
    second: [u64; NODES],
    start: [u64; NODES],
    reachable: [u64; NODES],
    code_span: [u64; CODES],
    code_node: [u64; CODES],
    name_span: [u64; LOCALS],
    name_node: [u64; LOCALS],
    name_end: [u64; LOCALS],
    finding_word: [u64; FINDINGS],
    finding_span: [u64; FINDINGS],
    mark: [u64; LOCALS],
}

impl Default for Unit {
    fn default() -> Self {
        let columns = Columns {
            first: [0; NODES],
            second: [0; NODES],
            start: [0; NODES],
            reachable: [0; NODES],
            code_span: [0; CODES],
            code_node: [0; CODES],
            name_span: [0; LOCALS],
            name_node: [0; LOCALS],
            name_end: [0; LOCALS],
            finding_word: [0; FINDINGS],
            finding_span: [0; FINDINGS],
            mark: [0; LOCALS],
        };
        Self { columns: Box::new(columns) }
    }
}

impl Unit {
    /// The uses say themselves which of them cross, so no scope sheet comes.
    ///
    /// # Errors
    ///
    /// The number with which the library refuses.
    pub fn judge(&mut self, sheet: &[u64], uses: &[u64]) -> Result<Vec<Finding>, Refusal> {
        let scopes: &[u64] = &[];
        let c = &mut *self.columns;
        test_owed(&[sheet, uses, scopes], &c.lent());
        // Safe: each pointer and count are those of a slice, and `test_owed` has looked at all of them.
        #[rustfmt::skip]
        let result = unsafe {
            waldimu_judge(
                sheet.as_ptr(), sheet.len(), uses.as_ptr(), uses.len(), scopes.as_ptr(), scopes.len(),
                c.first.as_mut_ptr(), NODES, c.second.as_mut_ptr(), NODES,
                c.start.as_mut_ptr(), NODES, c.reachable.as_mut_ptr(), NODES,
                c.code_span.as_mut_ptr(), CODES, c.code_node.as_mut_ptr(), CODES,
                c.name_span.as_mut_ptr(), LOCALS, c.name_node.as_mut_ptr(), LOCALS,
                c.name_end.as_mut_ptr(), LOCALS, c.finding_word.as_mut_ptr(), FINDINGS,
                c.finding_span.as_mut_ptr(), FINDINGS, c.mark.as_mut_ptr(), LOCALS,
            )
        };
        let counts = counts(result)?;
        Ok(c.finding_word[..counts.findings].iter().map(|word| finding(*word)).collect())
    }

    /// # Errors
    ///
    /// The number with which the library refuses.
    pub fn chart(&mut self, sheet: &[u64]) -> Result<Graph, Refusal> {
        let c = &mut *self.columns;
        test_owed(&[sheet], &c.lent());
        // Safe: as in `judge`.
        #[rustfmt::skip]
        let result = unsafe {
            waldimu_chart(
                sheet.as_ptr(), sheet.len(),
                c.first.as_mut_ptr(), NODES, c.second.as_mut_ptr(), NODES,
                c.start.as_mut_ptr(), NODES, c.reachable.as_mut_ptr(), NODES,
                c.code_span.as_mut_ptr(), CODES, c.code_node.as_mut_ptr(), CODES,
                c.name_span.as_mut_ptr(), LOCALS, c.name_node.as_mut_ptr(), LOCALS,
                c.name_end.as_mut_ptr(), LOCALS,
            )
        };
        let counts = counts(result)?;
        let nodes = (0..counts.nodes)
            .map(|node| Node {
                successors: [c.first[node], c.second[node]],
                is_reachable: c.reachable[node] == 1,
            })
            .collect();
        let code_nodes = c.code_node[..counts.codes].iter().map(|node| *node as usize).collect();
        Ok(Graph { nodes, code_nodes })
    }
}

/// # Errors
///
/// The number with which the library refuses.
pub fn run(sheet: &[u64], offset: u32) -> Result<Place, Refusal> {
    test_owed(&[sheet], &[]);
    // Safe: the pointer and the count are those of a slice.
    let result = accepted(unsafe { waldimu_run(sheet.as_ptr(), sheet.len(), offset) })?;
    let node = ((result >> 32) as u32).checked_sub(1);
    Ok(Place { node, can_run: result >> 4 & 1 == 1 })
}

/// # Errors
///
/// The number with which the library refuses.
pub fn label_check(sheet: &[u64]) -> Result<bool, Refusal> {
    test_owed(&[sheet], &[]);
    // Safe: the pointer and the count are those of a slice.
    let result = accepted(unsafe { waldimu_label_check(sheet.as_ptr(), sheet.len()) })?;
    Ok(result >> 4 & 1 == 1)
}

impl Columns {
    fn lent(&self) -> [&[u64]; 12] {
        [
            &self.first,
            &self.second,
            &self.start,
            &self.reachable,
            &self.code_span,
            &self.code_node,
            &self.name_span,
            &self.name_node,
            &self.name_end,
            &self.finding_word,
            &self.finding_span,
            &self.mark,
        ]
    }
}

/// What the header asks: no null pointer, 8 bytes' alignment, and no column
/// that overlaps another one or what is read.
fn test_owed(read: &[&[u64]], columns: &[&[u64]]) {
    for words in read.iter().chain(columns) {
        let pointer = words.as_ptr();
        assert!(!pointer.is_null() && pointer.addr() % 8 == 0, "a pointer for the library is bad");
    }
    for (place, column) in columns.iter().enumerate() {
        let others = read.iter().chain(&columns[place + 1..]);
        for other in others {
            let is_apart = are_apart(&column.as_ptr_range(), &other.as_ptr_range());
            assert!(is_apart, "columns for the library overlap");
        }
    }
}

fn are_apart(one: &Range<*const u64>, other: &Range<*const u64>) -> bool {
    one.end <= other.start || other.end <= one.start
}

fn accepted(result: u64) -> Result<u64, Refusal> {
    match (result & 15) as u8 {
        0 => Ok(result),
        number => Err(Refusal(number)),
    }
}

struct Counts {
    nodes: usize,
    codes: usize,
    findings: usize,
}

fn counts(result: u64) -> Result<Counts, Refusal> {
    let result = accepted(result)? as usize;
    let counts =
        Counts { nodes: result >> 4 & 0xfff, codes: result >> 16 & 0xffff, findings: result >> 48 };
    let fit = counts.nodes <= NODES && counts.codes <= CODES && counts.findings <= FINDINGS;
    assert!(fit, "the library gives counts beyond its columns");
    Ok(counts)
}

fn finding(word: u64) -> Finding {
    let local = word as u32 as usize / 2;
    match ((word >> 32) as usize, word & 1) {
        (0, _) => Finding::OverwrittenInitial { local },
        (after, 0) => Finding::Unassigned { local, use_number: after - 1 },
        (after, _) => Finding::OverwrittenWrite { local, use_number: after - 1 },
    }
}

#[cfg(test)]
mod tests {
    use super::*;

    /// 01's printed sheet: `local x=1 x=2 print(x)`.
    const PRINTED: [u64; 10] = [
        4,
        22,
        10 + 256,
        11 + 512,
        18,
        17,
        9 << 32,
        6 + (7 << 32),
        10 + (13 << 32),
        14 + (22 << 32),
    ];
    const PRINTED_USES: [u64; 5] = [2, 65_536, 0, 10 + (11 << 32), 20 + (21 << 32)];

    #[test]
    fn printed_sheet() {
        let mut unit = Unit::default();
        let found = unit.judge(&PRINTED, &PRINTED_USES);
        assert_eq!(found, Ok(vec![Finding::OverwrittenInitial { local: 0 }]));
        assert_eq!(run(&PRINTED, 8), Ok(Place { node: Some(6), can_run: true }));
        assert_eq!(run(&PRINTED, 22), Ok(Place { node: None, can_run: true }));
        assert_eq!(label_check(&PRINTED), Ok(true));
        let graph = unit.chart(&PRINTED).expect("an admitted sheet");
        assert_eq!((graph.nodes.len(), graph.code_nodes), (9, vec![6, 7, 8]));
        assert_eq!(graph.nodes[8].successors, [0, ABSENT]);
    }

    #[test]
    fn refusals_come_back() {
        let mut unit = Unit::default();
        assert_eq!(unit.judge(&PRINTED[..9], &PRINTED_USES), Err(Refusal(2)));
        assert_eq!(unit.judge(&PRINTED, &[]), Err(Refusal(2)));
        assert_eq!(unit.chart(&[1, 0, 8, 0]), Err(Refusal(5)));
        assert_eq!(run(&[1, 0, 99, 0], 0), Err(Refusal(3)));
        assert_eq!(label_check(&[]), Err(Refusal(2)));
    }

    #[test]
    fn a_caller_that_lends_a_column_twice_is_stopped() {
        let column = [0; 4];
        let stopped = std::panic::catch_unwind(|| test_owed(&[&[1]], &[&column, &column[3..]]));
        assert!(stopped.is_err());
        let stopped = std::panic::catch_unwind(|| test_owed(&[&column[..2]], &[&column]));
        assert!(stopped.is_err());
        test_owed(&[&column, &column], &[]);
    }
}
