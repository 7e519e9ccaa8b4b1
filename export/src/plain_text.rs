//! Sheets as plain text, an item or a use a line: the form of compare/sheet.py.

use std::fmt::Write;

use crate::sheet::{Item, Kind, MANY_VALUES, Sheet, Use, UseKind, UseSheet};
use crate::text::one_line;
use crate::token::Span;

const CONDITIONS: [&str; 18] = [
    "nil",
    "false",
    "true",
    "number",
    "integer",
    "string",
    "interpolated",
    "table",
    "function",
    "vararg",
    "var",
    "call",
    "parenthesized",
    "binary",
    "unary",
    "ifexpression",
    "cast",
    "instantiation",
];

/// How much of a span's text stands behind its line.
const SHOWN: usize = 60;

#[must_use]
pub fn plain_text(sheet: &Sheet, uses: &UseSheet, source: &[u8]) -> String {
    let mut text = format!("outer {}\n", sheet.outer_end);
    for item in &sheet.items {
        let line = item_line(item);
        let has_text =
            !matches!(item.kind, Kind::Do | Kind::Repeat | Kind::Else | Kind::End | Kind::Empty);
        push_line(&mut text, &line, has_text.then(|| one_line(item.span, source, SHOWN)));
    }
    for used in &uses.uses {
        push_line(&mut text, &use_line(used), Some(one_line(used.span, source, SHOWN)));
    }
    text
}

fn push_line(text: &mut String, line: &str, shown: Option<String>) {
    match shown {
        Some(shown) => writeln!(text, "{line:<25} # {shown}"),
        None => writeln!(text, "{line}"),
    }
    .expect("a string takes all");
}

fn span_text(span: Span) -> String {
    format!("{}-{}", span.start, span.end)
}

fn item_line(item: &Item) -> String {
    let span = span_text(item.span);
    let argument = item.argument;
    let (condition, scope_end) = (argument % 32, argument / 32);
    let condition = CONDITIONS.get(condition as usize).copied().unwrap_or("error");
    match item.kind {
        Kind::Do => format!("do {scope_end}"),
        Kind::While => format!("while {condition} {scope_end} {span}"),
        Kind::Repeat => format!("repeat {condition} {scope_end}"),
        Kind::For => format!("for {scope_end} {span}"),
        Kind::If => format!("if {scope_end} {span}"),
        Kind::Elseif => format!("elseif {scope_end} {span}"),
        Kind::Else => format!("else {scope_end}"),
        Kind::End => "end".to_owned(),
        Kind::Until => format!("until {span}"),
        Kind::Local if argument == MANY_VALUES => format!("local ... {span}"),
        Kind::Local => format!("local {argument} {span}"),
        Kind::Name => format!("name {} {span}", flags(argument)),
        Kind::Label => format!("label {argument} {span}"),
        Kind::Goto => format!("goto {argument} {span}"),
        Kind::Break => format!("break {span}"),
        Kind::Continue => format!("continue {span}"),
        Kind::Return => format!("return {argument} {span}"),
        Kind::Call => format!("call {argument} {span}"),
        Kind::Plain => format!("plain {span}"),
        Kind::Empty => "empty".to_owned(),
    }
}

fn flags(argument: u64) -> String {
    let letters: String = "umc"
        .chars()
        .enumerate()
        .filter(|(bit, _)| argument >> bit & 1 == 1)
        .map(|(_, letter)| letter)
        .collect();
    if letters.is_empty() { "-".to_owned() } else { letters }
}

fn use_line(used: &Use) -> String {
    let kind = match used.kind {
        UseKind::Read => "read",
        UseKind::Write => "write",
        UseKind::ReadWrite => "readwrite",
    };
    let crossing = if used.is_crossing { "^" } else { "" };
    format!("use {kind}{crossing} {} {}", used.local, span_text(used.span))
}
