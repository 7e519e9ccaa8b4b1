//! Times luck and the static library on the same sheets. It prints and
//! judges nothing: no time is too long here.

mod bodies;
mod classes;
mod clock;
mod scopes;

use std::array;
use std::hint::black_box;

use crate::Options;
use crate::answers::{Case, Side};
use crate::draft::Made;
use crate::lent::COLUMNS;
#[cfg(library)]
use crate::library;
use crate::random::Random;
use crate::run::{self, Tally};
use classes::{CLASSES, Class, GROWTH, SCOPED};
use scopes::Scopes;

/// Stands in where no library is linked, and is not called there.
#[cfg(not(library))]
mod library {
    pub fn chart_word(_sheet: &[u64], _columns: &mut [Vec<u64>]) -> u64 {
        unreachable!("no library is linked")
    }

    pub fn judge_word(
        _sheet: &[u64],
        _uses: &[u64],
        _scopes: &[u64],
        _columns: &mut [Vec<u64>],
    ) -> u64 {
        unreachable!("no library is linked")
    }
}

#[derive(Debug, Clone, Copy, PartialEq, Eq)]
enum Part {
    /// luck's `FlowGraph::of_block`
    Graph,
    /// luck's `LocalFlow::compute`, which builds its own graph
    Flow,
    Chart,
    Judge,
}

impl Part {
    const ALL: [Self; 4] = [Self::Graph, Self::Flow, Self::Chart, Self::Judge];

    fn name(self) -> &'static str {
        ["graph", "flow", "chart", "judge"][self as usize]
    }

    fn is_here(self) -> bool {
        match self {
            Self::Graph | Self::Flow => true,
            Self::Chart | Self::Judge => cfg!(library),
        }
    }
}

/// A pair of sheets with a scope sheet or none, and what luck has before its
/// time begins.
struct Subject {
    case: Case,
    script: luck::Script,
    /// Items, locals, uses and nodes.
    sizes: [u64; 4],
}

/// 01's columns, of the least lengths, lent again for each call.
type Columns = Vec<Vec<u64>>;

fn call(part: Part, subject: &Subject, columns: &mut Columns) -> u64 {
    match part {
        Part::Graph => subject.script.build_graph() as u64,
        Part::Flow => subject.script.compute_flow() as u64,
        Part::Chart => library::chart_word(&subject.case.sheet, &mut columns[..9]),
        Part::Judge => {
            let Case { sheet, uses, scopes, .. } = &subject.case;
            library::judge_word(sheet, uses, scopes, columns)
        }
    }
}

fn calls(part: Part, subjects: &[Subject], columns: &mut Columns, times: u64) {
    for _ in 0..times {
        for subject in subjects {
            black_box(call(part, black_box(subject), columns));
        }
    }
}

/// Nanoseconds a call of each that took turns, round by round.
struct Rounds<const TURNS: usize>(Vec<[Option<f64>; TURNS]>);

impl<const TURNS: usize> Rounds<TURNS> {
    /// The median over the rounds of what a round tells.
    fn median(&self, of: impl Fn([Option<f64>; TURNS]) -> Option<f64>) -> Option<f64> {
        let told: Vec<f64> = self.0.iter().copied().filter_map(of).collect();
        (!told.is_empty()).then(|| clock::median(told))
    }

    fn times(&self) -> [Option<f64>; TURNS] {
        array::from_fn(|at| self.median(|round| round[at]))
    }
}

/// Items, locals, uses and nodes on the mean.
fn sizes(subjects: &[Subject]) -> [u64; 4] {
    let count = subjects.len() as u64;
    array::from_fn(|at| {
        let sum: u64 = subjects.iter().map(|subject| subject.sizes[at]).sum();
        (sum + count / 2) / count
    })
}

struct Bench {
    sides: Vec<Box<dyn Side>>,
    columns: Columns,
    seed: u64,
    sheets: Option<u64>,
    rounds: u64,
}

/// A sample lasts for about this many nanoseconds, so that the clock's own
/// time and step are small beside it.
const SAMPLE: u64 = 2_000_000;

impl Bench {
    /// Takes a made pair only where every side gives the same for it.
    fn subject(&mut self, made: Made) -> Result<Subject, String> {
        run::check(&made, &mut self.sides, &mut Tally::default())?;
        let [nodes, _, locals] = made.counts.expect("an admitted pair");
        let case = made.case;
        let sizes = [case.sheet[0], locals, case.uses[0], nodes];
        Ok(Subject { script: luck::Script::new(&case.sheet, &case.uses), case, sizes })
    }

    fn subjects(&mut self, class: &Class, scopes: Scopes) -> Result<Vec<Subject>, String> {
        let mut random = Random::new(self.seed);
        let sheets = self.sheets.unwrap_or_else(|| class.sheets());
        let mut subject = |_| {
            let mut made = class.make(&mut random);
            made.case.scopes = scopes.words(&made.case);
            self.subject(made)
        };
        (0..sheets).map(&mut subject).collect()
    }

    /// Rounds in which each has its turn, if its part is linked.
    fn measure<const TURNS: usize>(&mut self, of: [(Part, &[Subject]); TURNS]) -> Rounds<TURNS> {
        let of = of.map(|turn| turn.0.is_here().then_some(turn));
        let columns = &mut self.columns;
        let mut sample = |(part, subjects): (Part, &[Subject]), times: u64| {
            let taken = clock::time(|| calls(part, subjects, columns, times));
            taken as f64 / (times * subjects.len() as u64) as f64
        };
        let repeats = of.map(|turn| {
            let once = turn.map_or(1.0, |turn| sample(turn, 3) * turn.1.len() as f64);
            (SAMPLE as f64 / once) as u64 + 1
        });
        let mut turn = |at: usize| of[at].map(|turn| sample(turn, repeats[at]));
        Rounds((0..self.rounds).map(|_| array::from_fn(&mut turn)).collect())
    }
}

fn whole(time: Option<f64>) -> String {
    time.map_or("-".to_owned(), |time| format!("{time:.0}"))
}

fn ratio(of: Option<f64>, to: Option<f64>) -> Option<f64> {
    of.zip(to).map(|(of, to)| of / to)
}

fn hundredths(ratio: Option<f64>) -> String {
    ratio.map_or("-".to_owned(), |ratio| format!("{ratio:.2}"))
}

fn row(cells: &[String]) {
    println!("| {} |", cells.join(" | "));
}

fn heading(cells: &[&str]) {
    println!("| {} |\n|{}", cells.join(" | "), "---|".repeat(cells.len()));
}

fn classes_table(bench: &mut Bench) -> Result<(), String> {
    println!(
        "Nanoseconds a call. `graph` and `flow` are luck's, `chart` and `judge` the library's.\n"
    );
    heading(&[
        "class",
        "items",
        "locals",
        "uses",
        "nodes",
        "graph",
        "flow",
        "chart",
        "judge",
        "chart / graph",
        "judge / flow",
        "judge / (graph + flow)",
    ]);
    for class in &CLASSES {
        let subjects = bench.subjects(class, Scopes::None)?;
        let measured = bench.measure(Part::ALL.map(|part| (part, &subjects[..])));
        let sum = |graph: Option<f64>, flow| graph.zip(flow).map(|(graph, flow)| graph + flow);
        let mut cells = vec![class.name.to_owned()];
        cells.extend(sizes(&subjects).map(|size| size.to_string()));
        cells.extend(measured.times().map(whole));
        cells.extend([
            hundredths(measured.median(|[graph, _, chart, _]| ratio(chart, graph))),
            hundredths(measured.median(|[_, flow, _, judge]| ratio(judge, flow))),
            hundredths(measured.median(|[graph, flow, _, judge]| ratio(judge, sum(graph, flow)))),
        ]);
        row(&cells);
    }
    Ok(())
}

/// Each row beside the one before it, which is half as large.
fn growth_table(bench: &mut Bench, name: &str, classes: &[Class]) -> Result<(), String> {
    println!("\n{name} doubled: nanoseconds a call, and by what they grew.\n");
    heading(&["items", "locals", "uses", "nodes", "graph", "flow", "chart", "judge", "grew by"]);
    let mut before = [None; 4];
    for class in classes {
        let subjects = bench.subjects(class, Scopes::None)?;
        let times = bench.measure(Part::ALL.map(|part| (part, &subjects[..]))).times();
        let grown: Vec<String> =
            times.iter().zip(before).map(|(now, old)| hundredths(ratio(*now, old))).collect();
        let mut cells: Vec<String> = sizes(&subjects).iter().map(u64::to_string).collect();
        cells.extend(times.map(whole));
        cells.push(grown.join(", "));
        row(&cells);
        before = times;
    }
    Ok(())
}

fn scopes_table(bench: &mut Bench) -> Result<(), String> {
    println!(
        "\n`judge` with a scope sheet: none, the scopes of the body itself, or a chain of 512 \
         behind a Function with every name in the second and every use in number 503. Nanoseconds a call.\n"
    );
    heading(&[
        "class",
        "locals",
        "uses",
        "scopes",
        "none",
        "own scopes",
        "chain",
        "own scopes / none",
        "chain / none",
    ]);
    for class in CLASSES.iter().filter(|class| SCOPED.contains(&class.name)) {
        let mut all = Vec::new();
        for scopes in Scopes::ALL {
            all.push(bench.subjects(class, scopes)?);
        }
        let measured = bench.measure([0, 1, 2].map(|at: usize| (Part::Judge, &all[at][..])));
        let [_, locals, uses, _] = sizes(&all[0]);
        let scopes: u64 = all[1].iter().map(|subject| subject.case.scopes[0]).sum();
        let mut cells = vec![class.name.to_owned()];
        cells.extend([locals, uses, scopes / all[1].len() as u64].map(|size| size.to_string()));
        cells.extend(measured.times().map(whole));
        cells.extend(
            [1, 2].map(|at: usize| hundredths(measured.median(|round| ratio(round[at], round[0])))),
        );
        row(&cells);
    }
    Ok(())
}

/// One part alone on one class, for a profiler.
fn only(
    bench: &mut Bench,
    part: &str,
    class: &str,
    scopes: &str,
    times: u64,
) -> Result<(), String> {
    let part = Part::ALL.into_iter().find(|known| known.name() == part && known.is_here());
    let part = part.ok_or("no such part is linked")?;
    let class = CLASSES.iter().find(|known| known.name == class).ok_or("no such class")?;
    let scopes = Scopes::ALL.into_iter().find(|known| known.name() == scopes);
    let subjects = bench.subjects(class, scopes.ok_or("no such scopes")?)?;
    calls(part, &subjects, &mut bench.columns, times);
    println!("{} on {} sheets of {}, {times} times each", part.name(), subjects.len(), class.name);
    Ok(())
}

pub fn command(options: &Options) -> Result<(), String> {
    let mut bench = Bench {
        sides: crate::sides(options),
        columns: COLUMNS.map(|(_, cells)| vec![u64::MAX; cells]).to_vec(),
        seed: options.number("--seed", 1),
        sheets: options.text("--sheets").map(|_| options.number("--sheets", 0)),
        rounds: options.number("--rounds", 31),
    };
    if let Some(part) = options.text("--only") {
        let class = options.text("--class").unwrap_or("tiny");
        let scopes = options.text("--scopes").unwrap_or("none");
        return only(&mut bench, part, class, scopes, options.number("--times", 1000));
    }
    if !Part::Judge.is_here() {
        println!("No library is linked (WALDIMU_ARCHIVE): luck alone is timed.");
    }
    if cfg!(debug_assertions) {
        println!("luck is built with checks that slow it; ./bench builds it without.");
    }
    classes_table(&mut bench)?;
    if Part::Judge.is_here() {
        scopes_table(&mut bench)?;
    }
    for (name, classes) in GROWTH {
        growth_table(&mut bench, name, classes)?;
    }
    Ok(())
}
