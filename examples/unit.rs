//! A unit's Rust code over the static library: judges 01's printed sheet and some more, and prints the answers in words.
//! `include/waldimu.h` says what the calls take, give and write.

unsafe extern "C" {
    fn waldimu_judge(
        sheet: *const u64,
        sheet_words: usize,
        uses: *const u64,
        use_words: usize,
        scopes: *const u64,
        scope_words: usize,
        first: *mut u64,
        first_cells: usize,
        second: *mut u64,
        second_cells: usize,
        start: *mut u64,
        start_cells: usize,
        reachable: *mut u64,
        reachable_cells: usize,
        code_span: *mut u64,
        code_span_cells: usize,
        code_node: *mut u64,
        code_node_cells: usize,
        name_span: *mut u64,
        name_span_cells: usize,
        name_node: *mut u64,
        name_node_cells: usize,
        name_end: *mut u64,
        name_end_cells: usize,
        finding_word: *mut u64,
        finding_word_cells: usize,
        finding_span: *mut u64,
        finding_span_cells: usize,
        mark: *mut u64,
        mark_cells: usize,
    ) -> u64;
    fn waldimu_run(sheet: *const u64, sheet_words: usize, offset: u32) -> u64;
    fn waldimu_label_check(sheet: *const u64, sheet_words: usize) -> u64;
}

const NODES: usize = 1600;
const CODES: usize = 1024;
const LOCALS: usize = 1024;
const FINDINGS: usize = 3072;
const ABSENT: u64 = 4_294_967_295;

const LOCAL: u64 = 10;
const NAME: u64 = 11;
const CALL: u64 = 17;
const PLAIN: u64 = 18;

const READ: u64 = 0;
const WRITE: u64 = 1;
const READ_WRITE: u64 = 2;

const MODULE: u64 = 0;
const FUNCTION: u64 = 1;

/// What comes where no scope sheet does. The pointer of an empty slice is not null.
const NO_SCOPES: &[u64] = &[];

const REFUSALS: [&str; 9] = [
    "bench too small",
    "miscount",
    "bad item",
    "too deep",
    "bad nesting",
    "off the line",
    "bad name",
    "bad use",
    "bad scope",
];

const fn item(kind: u64, argument: u64) -> u64 {
    kind + 256 * argument
}

const fn span(start: u64, end: u64) -> u64 {
    start + (end << 32)
}

const fn usage(local: u64, kind: u64, crossing: u64) -> u64 {
    local + 65_536 * (kind + 4 * crossing)
}

/// The columns that judge writes to.
struct Columns {
    first: [u64; NODES],
    second: [u64; NODES],
    start: [u64; NODES],
    reachable: [u64; NODES],
    code_span: [u64; CODES],
    code_node: [u64; CODES],
    name_span: [u64; LOCALS],
    name_node: [u64; LOCALS],
    name_end: [u64; LOCALS],
    finding_word: [u64; FINDINGS],
    finding_span: [u64; FINDINGS],
    mark: [u64; LOCALS],
}

impl Columns {
    fn new() -> Self {
        Self {
            first: [0; NODES],
            second: [0; NODES],
            start: [0; NODES],
            reachable: [0; NODES],
            code_span: [0; CODES],
            code_node: [0; CODES],
            name_span: [0; LOCALS],
            name_node: [0; LOCALS],
            name_end: [0; LOCALS],
            finding_word: [0; FINDINGS],
            finding_span: [0; FINDINGS],
            mark: [0; LOCALS],
        }
    }

    fn judge(&mut self, sheet: &[u64], uses: &[u64], scopes: &[u64]) -> u64 {
        // Safe: each pointer and count are those of a slice, and no two overlap.
        unsafe {
            waldimu_judge(
                sheet.as_ptr(),
                sheet.len(),
                uses.as_ptr(),
                uses.len(),
                scopes.as_ptr(),
                scopes.len(),
                self.first.as_mut_ptr(),
                self.first.len(),
                self.second.as_mut_ptr(),
                self.second.len(),
                self.start.as_mut_ptr(),
                self.start.len(),
                self.reachable.as_mut_ptr(),
                self.reachable.len(),
                self.code_span.as_mut_ptr(),
                self.code_span.len(),
                self.code_node.as_mut_ptr(),
                self.code_node.len(),
                self.name_span.as_mut_ptr(),
                self.name_span.len(),
                self.name_node.as_mut_ptr(),
                self.name_node.len(),
                self.name_end.as_mut_ptr(),
                self.name_end.len(),
                self.finding_word.as_mut_ptr(),
                self.finding_word.len(),
                self.finding_span.as_mut_ptr(),
                self.finding_span.len(),
                self.mark.as_mut_ptr(),
                self.mark.len(),
            )
        }
    }

    fn print_judged(&self, result: u64) {
        let refusal = result as usize & 15;
        if refusal > 0 {
            println!("refused {refusal}: {}", REFUSALS[refusal - 1]);
            return;
        }
        let nodes = result as usize >> 4 & 0xfff;
        let codes = result >> 16 & 0xffff;
        let names = result >> 32 & 0xffff;
        let findings = result as usize >> 48;
        println!("nodes {nodes}, codes {codes}, names {names}, findings {findings}");
        for node in 0..nodes {
            self.print_node(node);
        }
        for (word, span) in self.finding_word.iter().zip(&self.finding_span).take(findings) {
            print_finding(*word, *span);
        }
    }

    fn print_node(&self, node: usize) {
        let first = successor(self.first[node]);
        let second = successor(self.second[node]);
        let reachable = if self.reachable[node] == 1 { "reachable" } else { "unreachable" };
        let start = self.start[node];
        println!("node {node}: to {first} and {second}, code start {start}, {reachable}");
    }
}

fn successor(node: u64) -> String {
    if node == ABSENT { String::from("none") } else { node.to_string() }
}

fn print_finding(word: u64, span: u64) {
    let list = if word % 2 == 0 { "unassigned" } else { "overwritten" };
    let local = word as u32 / 2;
    let what = match word >> 32 {
        0 => String::from("its initial value"),
        after => format!("use {}", after - 1),
    };
    println!("{list}: local {local}, {what}, bytes {} to {}", span as u32, span >> 32);
}

/// The sheets here are admitted, so run and the label check need no look at a refusal.
fn print_offset(sheet: &[u64], offset: u32) {
    // Safe: the pointer and the count are those of a slice.
    let result = unsafe { waldimu_run(sheet.as_ptr(), sheet.len(), offset) };
    let place = match result >> 32 {
        0 => String::from("past all code"),
        after => format!("node {}", after - 1),
    };
    let can = if result >> 4 & 1 == 1 { "can run" } else { "cannot run" };
    println!("offset {offset}: {place}, {can}");
}

fn print_labels(sheet: &[u64]) {
    // Safe: the pointer and the count are those of a slice.
    let result = unsafe { waldimu_label_check(sheet.as_ptr(), sheet.len()) };
    println!("{}", if result >> 4 & 1 == 1 { "labels fit" } else { "labels do not fit" });
}

/// A local without a value whose one read stands in a Function.
fn print_read_in_function(columns: &mut Columns, flags: u64, scopes: &[u64]) {
    let sheet =
        [3, 13, item(LOCAL, 0), item(NAME, flags), PLAIN, span(0, 9), span(6, 7), span(10, 13)];
    let uses = [1, usage(0, READ, 0), span(10, 11)];
    let result = columns.judge(&sheet, &uses, scopes);
    columns.print_judged(result);
}

fn main() {
    let mut columns = Columns::new();

    let printed = [
        [4, 22, item(LOCAL, 1), item(NAME, 2), PLAIN, CALL].as_slice(),
        &[span(0, 9), span(6, 7), span(10, 13), span(14, 22)],
    ]
    .concat();
    let printed_uses = [2, usage(0, WRITE, 0), usage(0, READ, 0), span(10, 11), span(20, 21)];
    println!("local x=1 x=2 print(x)");
    let result = columns.judge(&printed, &printed_uses, NO_SCOPES);
    columns.print_judged(result);
    for offset in [8, 9, 22] {
        print_offset(&printed, offset);
    }
    print_labels(&printed);

    let added = [3, 12, item(LOCAL, 0), item(NAME, 2), PLAIN, span(0, 7), span(6, 7), span(8, 12)];
    let added_uses = [1, usage(0, READ_WRITE, 0), span(8, 9)];
    println!("\nlocal x x+=1");
    let result = columns.judge(&added, &added_uses, NO_SCOPES);
    columns.print_judged(result);

    println!("\nthe printed sheet without its last word");
    let result = columns.judge(&printed[..printed.len() - 1], &printed_uses, NO_SCOPES);
    columns.print_judged(result);

    // Kinds, parents (the Function's is scope 0), the NAME's scope, the use's.
    let scopes = [2, MODULE, FUNCTION, 0, 0 + 1, 0, 1];
    println!("\na captured local of a Module, read in a Function");
    print_read_in_function(&mut columns, 4, &scopes);
    println!("\nthe same, not marked as captured");
    print_read_in_function(&mut columns, 0, &scopes);
    println!("\nthe same, captured, without the scope sheet");
    print_read_in_function(&mut columns, 4, NO_SCOPES);
    println!("\nthe same, captured, without the scope sheet's last word");
    print_read_in_function(&mut columns, 4, &scopes[..scopes.len() - 1]);
}
