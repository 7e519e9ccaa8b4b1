//! 01's bench pieces and printed sheet, in luck and in the reading.

use crate::answers::*;
use crate::draft::{Draft, TOP, line, scope};
use crate::plain_text::parse;
use crate::reading::{Reading, text};

macro_rules! pieces {
    ($($name:literal),* $(,)?) => {
        &[$(($name, include_str!(concat!("../pieces/", $name, ".txt")))),*]
    };
}

pub const PIECES: &[(&str, &str)] = pieces![
    "empty",
    "printed",
    "printed-readwrite",
    "printed-thrice",
    "while-false",
    "while-true",
    "repeat-false",
    "if-empty",
    "label-twice",
    "label-thrice",
    "goto-missing",
    "local-read-write",
    "two-names",
    "label-past-scope",
    "plain-past-scope",
    "unsorted-uses",
    "loop-meets-itself",
    "scope-outlives-block",
    "until-past-block",
    "label-unnamed",
    "governor",
];

pub fn piece(name: &str) -> Case {
    let found = PIECES.iter().find(|(known, _)| *known == name).expect("a piece of that name");
    parse(found.1).0.case()
}

/// Every piece prints what its text says, in luck's answers too.
pub fn check(luck: &mut dyn Side) -> usize {
    for (name, source) in PIECES {
        let (draft, printed) = parse(source);
        let case = draft.case();
        let answers = Reading::PLAIN.answers(&case, &crate::run::offsets_of(&case));
        assert_eq!(String::from_utf8_lossy(&answers.text), printed, "piece {name}");
        assert_eq!(luck.difference(&case, &answers), None, "piece {name}");
        if answers.judge.is_ok() {
            let flow = luck::flow_of(&case.sheet, &case.uses);
            let judged = crate::luck_side::judgement_of(flow);
            assert_eq!(
                String::from_utf8(text::lines(&Ok(judged))).unwrap(),
                printed,
                "piece {name}"
            );
        }
    }
    facts();
    limits();
    PIECES.len()
}

/// All edges of a piece in luck's graph, in node order.
fn edges(name: &str) -> Vec<(u64, u64)> {
    let case = piece(name);
    let graph = luck::flow_of(&case.sheet, &case.uses).graph;
    let both = graph.first.iter().zip(&graph.second).enumerate();
    both.flat_map(|(node, (first, second))| [(node as u64, *first), (node as u64, *second)])
        .filter(|(_, to)| *to != ABSENT)
        .collect()
}

/// What 01 says of each piece beyond its printed text.
fn facts() {
    let from = |name: &str, node: u64| -> Vec<u64> {
        edges(name).into_iter().filter(|edge| edge.0 == node).map(|edge| edge.1).collect()
    };
    let flow = |name: &str| {
        let case = piece(name);
        luck::flow_of(&case.sheet, &case.uses)
    };
    assert_eq!(flow("empty").graph.first.len(), 6);
    assert_eq!(edges("empty"), [(5, 0)]);

    let printed = flow("printed");
    assert_eq!(printed.run(8).0, Some(6));
    assert_eq!(printed.run(9).0, Some(7));
    assert_eq!(printed.run(22), (None, true));
    let case = piece("printed");
    assert_eq!(case.sheet[..6], [4, 22, 266, 523, 18, 17]);
    assert_eq!(case.sheet[6..], [span(0, 9), span(6, 7), span(10, 13), span(14, 22)]);
    assert_eq!(case.uses, [2, 65_536, 0, span(10, 11), span(20, 21)]);

    assert_eq!((from("while-false", 8), from("while-false", 6)), (vec![6], vec![7]));
    assert_eq!(flow("while-false").graph.reachable[8], 0);
    assert_eq!(from("while-true", 6), [6]);
    assert!(!flow("while-true").exits[0]);
    assert_eq!(from("repeat-false", 7), [6]);
    assert_eq!(from("if-empty", 6), [7, 7]);
    assert_eq!(from("label-twice", 7), [7, 0]);
    assert_eq!(from("label-thrice", 8), [8, 8]);
    assert!(!flow("label-thrice").exits[0]);
    assert!(flow("goto-missing").exits[1]);
    assert!(flow("printed-readwrite").finding_word.is_empty());
    assert_eq!(flow("local-read-write").finding_word, [1 << 32]);
    for argument in 0..128 {
        let call =
            Draft { outer_end: 9, items: vec![line(17, argument, 0, 5)], ..Draft::default() };
        let raises = luck::flow_of(&call.case().sheet, &[0]).exits[4];
        assert_eq!(raises, argument == 6, "call {argument}");
    }
}

fn limits() {
    let refusal = |draft: &Draft| Reading::PLAIN.chart(&draft.case().sheet).err();
    let empties =
        |count: usize| Draft { items: vec![line(19, 0, 0, 0); count], ..Draft::default() };
    assert_eq!((refusal(&empties(1024)), refusal(&empties(1025))), (None, Some(2)));
    let nested = |depth: usize| {
        let mut items = vec![line(1, scope(0, TOP), 0, 0); depth];
        items.resize(2 * depth, line(8, 0, 0, 0));
        Draft { items, ..Draft::default() }
    };
    assert_eq!((refusal(&nested(64)), refusal(&nested(65))), (None, Some(4)));
}
