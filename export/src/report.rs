//! What the program says of a script: lines for people, objects for tools.

use std::fmt::Write;

use crate::check::{Finding, FindingKind, Report, Unchecked};
use crate::labels::LabelFault;
use crate::lines::{Lines, Position};
use crate::token::{Span, SyntaxError};

/// One thing to say, with its place.
#[derive(Debug, Clone, PartialEq, Eq)]
pub struct Message {
    /// `unassigned`, `overwritten`, `label`, `unchecked`, `syntax` or `unreadable`.
    pub kind: &'static str,
    pub span: Span,
    pub text: String,
    pub local: Option<Local>,
}

/// The local that a finding is about.
#[derive(Debug, Clone, PartialEq, Eq)]
pub struct Local {
    pub name: String,
    pub declared: Span,
    /// Whether the value at fault is the one of the declaration.
    pub is_initial: bool,
}

fn name_text(source: &[u8], span: Span) -> String {
    String::from_utf8_lossy(span.text(source)).into_owned()
}

fn place(position: Position) -> String {
    format!("line {}, column {}", position.line, position.column)
}

/// All that is to be said of a checked script, in the order of the text.
#[must_use]
pub fn messages(report: &Report, source: &[u8], lines: &Lines<'_>) -> Vec<Message> {
    let findings = report.findings.iter().map(|found| finding(found, source, lines));
    let labels = report.label_faults.iter().map(|fault| label_fault(fault, source, lines));
    let unchecked = report.unchecked.iter().map(|block| unchecked(block, source));
    let mut all: Vec<Message> = findings.chain(labels).chain(unchecked).collect();
    all.sort_by_key(|message| message.span);
    all
}

#[must_use]
pub fn finding(found: &Finding, source: &[u8], lines: &Lines<'_>) -> Message {
    let name = name_text(source, found.declared);
    let declared = place(lines.position(found.declared.start));
    let (kind, text) = match found.kind {
        FindingKind::Unassigned => (
            "unassigned",
            format!(
                "local '{name}' is read while it has no value; declared without one at {declared}"
            ),
        ),
        FindingKind::Overwritten => (
            "overwritten",
            format!(
                "the value written to local '{name}' is overwritten and never read; declared at {declared}"
            ),
        ),
        FindingKind::OverwrittenInitial => (
            "overwritten",
            format!(
                "the first value of local '{name}' is overwritten and never read; declared here"
            ),
        ),
    };
    let is_initial = found.kind == FindingKind::OverwrittenInitial;
    let local = Some(Local { name, declared: found.declared, is_initial });
    Message { kind, span: found.span, text, local }
}

#[must_use]
pub fn label_fault(fault: &LabelFault, source: &[u8], lines: &Lines<'_>) -> Message {
    let name = name_text(source, fault.name);
    let text = match fault.repeats {
        Some(first) => {
            let first = place(lines.position(first.start));
            format!("label '{name}' stands in this block already, at {first}")
        }
        None => format!("goto '{name}' finds no label in the blocks around it"),
    };
    Message { kind: "label", span: fault.span, text, local: None }
}

#[must_use]
pub fn unchecked(block: &Unchecked, source: &[u8]) -> Message {
    let what = match (block.function, block.name) {
        (0, _) => "the script's own block".to_owned(),
        (_, Some(name)) => format!("function '{}'", name_text(source, name)),
        (_, None) => "this function".to_owned(),
    };
    let text = format!("{what} was not checked: {}", block.reason);
    let span = Span::new(block.span.start, block.span.start);
    Message { kind: "unchecked", span, text, local: None }
}

#[must_use]
pub fn syntax_error(error: &SyntaxError, lines: &Lines<'_>) -> Message {
    let mut text = error.message.clone();
    if let Some((what, opener)) = error.opened {
        let opened = format!(" to close {what} at {},", place(lines.position(opener.start)));
        text = text.replacen(',', &opened, 1);
    }
    Message { kind: "syntax", span: error.span, text, local: None }
}

/// `FILE:LINE:COLUMN: message`
#[must_use]
pub fn line(file: &str, message: &Message, lines: &Lines<'_>) -> String {
    let Position { line, column } = lines.position(message.span.start);
    format!("{file}:{line}:{column}: {}\n", message.text)
}

/// The same as one JSON object on a line.
#[must_use]
pub fn json(file: &str, message: &Message, lines: &Lines<'_>) -> String {
    let from = lines.position(message.span.start);
    let to = lines.position(message.span.end);
    let mut object = format!(
        "{{\"kind\":\"{}\",\"file\":{},\"line\":{},\"column\":{},\"end_line\":{},\"end_column\":{}",
        message.kind,
        quoted(file),
        from.line,
        from.column,
        to.line,
        to.column
    );
    if let Some(local) = &message.local {
        let declared = lines.position(local.declared.start);
        let name = quoted(&local.name);
        let _ = write!(
            object,
            ",\"local\":{name},\"declared_line\":{},\"declared_column\":{},\"initial\":{}",
            declared.line, declared.column, local.is_initial
        );
    }
    let _ = writeln!(object, ",\"message\":{}}}", quoted(&message.text));
    object
}

/// A JSON string.
#[must_use]
pub fn quoted(text: &str) -> String {
    let mut out = String::from("\"");
    for letter in text.chars() {
        match letter {
            '"' => out.push_str("\\\""),
            '\\' => out.push_str("\\\\"),
            '\n' => out.push_str("\\n"),
            '\r' => out.push_str("\\r"),
            '\t' => out.push_str("\\t"),
            control if control < ' ' => {
                let _ = write!(out, "\\u{:04x}", u32::from(control));
            }
            other => out.push(other),
        }
    }
    out.push('"');
    out
}

#[cfg(test)]
mod tests {
    use super::*;

    #[test]
    fn strings_of_json() {
        assert_eq!(quoted("a\"b\\c\n\u{1}é"), "\"a\\\"b\\\\c\\n\\u0001é\"");
    }
}
