//! A case, what a side answers to it, and where two answers differ.

pub const ABSENT: u64 = 4_294_967_295;

/// A sheet and a use sheet as words, and bytes left over behind them. A
/// scope sheet, if it has a word, goes to judge alone.
#[derive(Debug, Clone, PartialEq, Eq, Default)]
pub struct Case {
    pub sheet: Vec<u64>,
    pub uses: Vec<u64>,
    pub scopes: Vec<u64>,
    pub spare: Vec<u8>,
}

impl Case {
    pub fn new(sheet: Vec<u64>, uses: Vec<u64>) -> Self {
        Self { sheet, uses, ..Self::default() }
    }

    pub fn bytes(&self) -> Vec<u8> {
        let words = self.sheet.iter().chain(&self.uses);
        words.flat_map(|word| word.to_le_bytes()).chain(self.spare.iter().copied()).collect()
    }
}

pub fn span(start: u64, end: u64) -> u64 {
    start + (end << 32)
}

/// A refusal's number, or what an accepted call gives.
pub type Answer<T> = Result<T, u64>;

#[derive(Debug, Clone, PartialEq, Eq, Default)]
pub struct Chart {
    pub first: Vec<u64>,
    pub second: Vec<u64>,
    pub start: Vec<u64>,
    pub reachable: Vec<u64>,
    pub code_span: Vec<u64>,
    pub code_node: Vec<u64>,
    pub name_span: Vec<u64>,
    pub name_node: Vec<u64>,
    pub name_scope_end: Vec<u64>,
}

impl Chart {
    pub fn counts(&self) -> [u64; 3] {
        [&self.first, &self.code_span, &self.name_span].map(|column| column.len() as u64)
    }

    pub fn columns(&self) -> [(&'static str, &Vec<u64>); 9] {
        [
            ("first", &self.first),
            ("second", &self.second),
            ("start", &self.start),
            ("reachable", &self.reachable),
            ("code span", &self.code_span),
            ("code node", &self.code_node),
            ("name span", &self.name_span),
            ("name node", &self.name_node),
            ("name scope end", &self.name_scope_end),
        ]
    }
}

#[derive(Debug, Clone, PartialEq, Eq, Default)]
pub struct Judgement {
    pub chart: Chart,
    pub finding_word: Vec<u64>,
    pub finding_span: Vec<u64>,
}

impl Judgement {
    pub fn columns(&self) -> Vec<(&'static str, &Vec<u64>)> {
        let mut all = self.chart.columns().to_vec();
        all.push(("finding word", &self.finding_word));
        all.push(("finding span", &self.finding_span));
        all
    }
}

/// The node of an offset, if any, and whether the code there can run.
pub type Run = (Option<u64>, bool);

#[derive(Debug, Clone, PartialEq, Eq)]
pub struct Answers {
    pub chart: Answer<Chart>,
    pub judge: Answer<Judgement>,
    pub labels: Answer<bool>,
    pub runs: Vec<(u32, Answer<Run>)>,
    /// What `flowlist` prints for the case's bytes.
    pub text: Vec<u8>,
}

/// Something that answers, held against the expected answers.
pub trait Side {
    fn name(&self) -> String;
    fn difference(&mut self, case: &Case, expected: &Answers) -> Option<String>;
}

pub fn column_difference(name: &str, expected: &[u64], got: &[u64]) -> Option<String> {
    if expected.len() != got.len() {
        return Some(format!("{name}: {} cells expected, {} found", expected.len(), got.len()));
    }
    let at = (0..expected.len()).find(|&i| expected[i] != got[i])?;
    Some(format!("{name} {at}: {} expected, {} found", expected[at], got[at]))
}

pub fn columns_difference(
    expected: &[(&'static str, &Vec<u64>)],
    got: &[(&'static str, &Vec<u64>)],
) -> Option<String> {
    expected
        .iter()
        .zip(got)
        .find_map(|((name, want), (_, have))| column_difference(name, want, have))
}

pub fn answer_difference<T>(
    name: &str,
    expected: &Answer<T>,
    got: &Answer<T>,
    inner: impl Fn(&T, &T) -> Option<String>,
) -> Option<String> {
    match (expected, got) {
        (Ok(want), Ok(have)) => inner(want, have).map(|what| format!("{name}: {what}")),
        (Err(want), Err(have)) if want == have => None,
        _ => Some(format!("{name}: {} expected, {} found", outcome(expected), outcome(got))),
    }
}

fn outcome<T>(answer: &Answer<T>) -> String {
    answer.as_ref().map_or_else(|number| format!("refusal {number}"), |_| "acceptance".to_owned())
}

pub fn plain_difference<T: PartialEq + std::fmt::Debug>(want: &T, have: &T) -> Option<String> {
    (want != have).then(|| format!("{want:?} expected, {have:?} found"))
}

pub fn text_difference(expected: &[u8], got: &[u8]) -> Option<String> {
    (expected != got).then(|| {
        let [want, have] = [expected, got].map(String::from_utf8_lossy);
        format!("printed text:\n--- expected\n{want}--- found\n{have}---")
    })
}

pub fn answers_difference(expected: &Answers, got: &Answers) -> Option<String> {
    let chart = |want: &Chart, have: &Chart| columns_difference(&want.columns(), &have.columns());
    let judge =
        |want: &Judgement, have: &Judgement| columns_difference(&want.columns(), &have.columns());
    answer_difference("chart", &expected.chart, &got.chart, chart)
        .or_else(|| answer_difference("judge", &expected.judge, &got.judge, judge))
        .or_else(|| answer_difference("labels", &expected.labels, &got.labels, plain_difference))
        .or_else(|| {
            expected.runs.iter().zip(&got.runs).find_map(|((offset, want), (_, have))| {
                answer_difference(&format!("run {offset}"), want, have, plain_difference)
            })
        })
        .or_else(|| text_difference(&expected.text, &got.text))
}
