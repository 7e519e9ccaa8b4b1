//! Findings of the kept scripts, which say behind each line what is found there.

mod common;

use common::{dialect_of, kept_scripts};
use waldimu::check::{Finding, FindingKind, check};
use waldimu::library::Unit;
use waldimu::lines::Lines;
use waldimu::token::Dialect;

/// Line, kind, local, and the column where the mark names one.
type Mark = (u32, String, String, Option<u32>);

fn marks(source: &str) -> Vec<Mark> {
    let mut marks = Vec::new();
    for (number, line) in source.lines().enumerate() {
        let Some((_, text)) = line.split_once("--! ") else { continue };
        for mark in text.split(',') {
            let (kind, name) = mark.trim().split_once(' ').expect("a kind and a name");
            let (name, column) = match name.split_once('@') {
                Some((name, column)) => (name, Some(column.parse().expect("a column"))),
                None => (name, None),
            };
            marks.push((number as u32 + 1, kind.to_owned(), name.to_owned(), column));
        }
    }
    marks
}

fn kind_word(finding: &Finding) -> &'static str {
    match finding.kind {
        FindingKind::Unassigned => "unassigned",
        FindingKind::Overwritten | FindingKind::OverwrittenInitial => "overwritten",
    }
}

#[test]
fn findings_are_the_marked_ones() {
    let mut unit = Unit::default();
    let mut total = 0;
    for (name, source) in kept_scripts() {
        let report = check(source.as_bytes(), dialect_of(&name), &mut unit)
            .unwrap_or_else(|error| panic!("{name}: {error:?}"));
        assert!(report.unchecked.is_empty(), "{name}: {:?}", report.unchecked);
        assert!(report.label_faults.is_empty(), "{name}: {:?}", report.label_faults);
        let lines = Lines::new(source.as_bytes());
        let marks = marks(&source);
        let mut found = Vec::new();
        for finding in &report.findings {
            let place = lines.position(finding.span.start);
            let text = std::str::from_utf8(finding.span.text(source.as_bytes())).expect("a name");
            let kind = kind_word(finding);
            let marked =
                marks.iter().find(|mark| mark.0 == place.line && mark.1 == kind && mark.2 == text);
            let column = marked.and_then(|mark| mark.3).map(|_| place.column);
            found.push((place.line, kind.to_owned(), text.to_owned(), column));
        }
        assert_eq!(found, marks, "{name}");
        total += found.len();
    }
    assert!(total > 30, "the kept scripts have findings");
}

/// Line and column of a finding, and of its declaration.
type Place = (FindingKind, (u32, u32), (u32, u32));

fn places(source: &str, dialect: Dialect) -> Vec<Place> {
    let report = check(source.as_bytes(), dialect, &mut Unit::default()).expect("a script");
    let lines = Lines::new(source.as_bytes());
    let place = |offset| {
        let position = lines.position(offset);
        (position.line, position.column)
    };
    report
        .findings
        .iter()
        .map(|found| (found.kind, place(found.span.start), place(found.declared.start)))
        .collect()
}

#[test]
fn the_governor() {
    let source = include_str!("../../examples/governor/script.lua");
    assert_eq!(
        places(source, Dialect::Lua),
        [
            (FindingKind::Unassigned, (8, 19), (3, 15)),
            (FindingKind::OverwrittenInitial, (10, 7), (10, 7)),
            (FindingKind::Overwritten, (18, 3), (10, 7)),
        ]
    );
}

/// The same text means the same whatever ends its lines, and a first line with # counts as one.
#[test]
fn line_ends_and_first_lines() {
    let source = "local x\nprint(x)\n";
    let expected = [(FindingKind::Unassigned, (2, 7), (1, 7))];
    assert_eq!(places(source, Dialect::Lua), expected);
    assert_eq!(places(&source.replace('\n', "\r\n"), Dialect::Lua), expected);
    assert_eq!(places(&source.replace('\n', "\r"), Dialect::Lua), expected);
    let with_first = format!("#!/usr/bin/lua\n{source}");
    assert_eq!(places(&with_first, Dialect::Lua), [(FindingKind::Unassigned, (3, 7), (2, 7))]);
    let with_mark = format!("\u{feff}{source}");
    assert_eq!(places(&with_mark, Dialect::Lua), [(FindingKind::Unassigned, (2, 7), (1, 10))]);
}

/// A large block is named, and the others are checked.
#[test]
fn a_block_beyond_the_limits_is_named() {
    let many = "g() ".repeat(1_025);
    let source = format!("local function big() {many} end\nlocal x\nprint(x)\n");
    let report = check(source.as_bytes(), Dialect::Lua, &mut Unit::default()).expect("a script");
    assert_eq!(report.findings.len(), 1);
    assert_eq!(report.unchecked.len(), 1);
    let named = &report.unchecked[0];
    assert_eq!(named.name.expect("a name").text(source.as_bytes()), b"big");
    assert_eq!(named.reason.to_string(), "1,025 items, and the unit takes 1,024");
}

#[test]
fn labels_that_do_not_fit() {
    let source = "goto nowhere\n::a::\ndo ::a:: end\n::a::\n";
    let report = check(source.as_bytes(), Dialect::Lua, &mut Unit::default()).expect("a script");
    let texts: Vec<&[u8]> =
        report.label_faults.iter().map(|fault| fault.span.text(source.as_bytes())).collect();
    assert_eq!(texts, [b"goto nowhere".as_slice(), b"::a::"]);
    let lines = Lines::new(source.as_bytes());
    let second = report.label_faults[1];
    assert_eq!(lines.position(second.span.start).line, 4);
    assert_eq!(lines.position(second.repeats.expect("the first one").start).line, 2);
}

/// docs/EXPORTING.md names this silence: the write in the function stands before the read of the target.
#[test]
fn a_write_in_an_assigned_function_hides_an_empty_table() {
    assert_eq!(places("local t\nt.f = function() t = {} end\n", Dialect::Lua), []);
    let listed = places("local t\nfunction t.f() t = {} end\n", Dialect::Lua);
    assert_eq!(listed, [(FindingKind::Unassigned, (2, 10), (1, 7))]);
}
