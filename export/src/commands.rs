//! What each command does. A script that cannot be read or parsed is named,
//! and the others go on.

use std::io::{self, IsTerminal, Write};
use std::ops::Range;
use std::path::Path;

use waldimu::check::{self, Reason, Unchecked};
use waldimu::exporter::{Exported, Exporter};
use waldimu::files::{self, Found};
use waldimu::labels;
use waldimu::library::Unit;
use waldimu::lines::Lines;
use waldimu::parser::parse;
use waldimu::plain_text::plain_text;
use waldimu::reach::{self, Answer};
use waldimu::report::{self, Message};
use waldimu::resolver::{FunctionBlock, resolve};
use waldimu::text::{count, grouped};
use waldimu::token::{Dialect, Span, SyntaxError};

use crate::options::Options;
use crate::progress::Progress;
use crate::{Status, tell};

// ---- Many scripts: check and labels ----

/// What was said of all scripts so far.
#[derive(Default)]
struct Totals {
    scripts: usize,
    blocks: usize,
    findings: usize,
    unchecked: usize,
}

/// What one script gives: its blocks, and what is to be said.
type Said = (usize, Vec<Message>);

pub fn check(options: &Options, out: &mut impl Write) -> io::Result<Status> {
    let mut unit = Unit::default();
    let totals = each_script(options, out, |source, dialect, lines| {
        let report = check::check(source, dialect, &mut unit)?;
        Ok((report.functions, report::messages(&report, source, lines)))
    })?;
    finish(options, &totals, "finding", out)
}

pub fn labels(options: &Options, out: &mut impl Write) -> io::Result<Status> {
    let totals = each_script(options, out, |source, dialect, lines| {
        let report = labels::labels(source, dialect)?;
        let faults = report.faults.iter().map(|fault| report::label_fault(fault, source, lines));
        let unchecked = report.unchecked.iter().map(|block| report::unchecked(block, source));
        Ok((report.functions, faults.chain(unchecked).collect()))
    })?;
    finish(options, &totals, "label fault", out)
}

fn each_script(
    options: &Options,
    out: &mut impl Write,
    mut look: impl FnMut(&[u8], Dialect, &Lines<'_>) -> Result<Said, SyntaxError>,
) -> io::Result<Totals> {
    let scripts = files::scripts(&options.files);
    let is_live = io::stdout().is_terminal();
    let mut progress = Progress::new();
    let mut totals = Totals::default();
    for found in &scripts {
        progress.show(|| {
            let done = count(totals.scripts, "script");
            format!("{done} of {}, {}", grouped(scripts.len()), count(totals.findings, "finding"))
        });
        let mut text = String::new();
        look_at(found, options, &mut totals, &mut text, &mut look);
        if !text.is_empty() {
            progress.clear();
            out.write_all(text.as_bytes())?;
            if is_live {
                out.flush()?;
            }
        }
    }
    progress.clear();
    Ok(totals)
}

/// Adds what is to be said of a script to the text, and counts it.
fn look_at(
    found: &Found,
    options: &Options,
    totals: &mut Totals,
    text: &mut String,
    look: &mut impl FnMut(&[u8], Dialect, &Lines<'_>) -> Result<Said, SyntaxError>,
) {
    totals.scripts += 1;
    let path = found.path();
    let source = match found.read() {
        Ok(source) => source,
        Err(error) => {
            totals.unchecked += 1;
            text.push_str(&unreadable(path, &error, options));
            return;
        }
    };
    let lines = Lines::new(&source);
    let messages = match look(&source, files::dialect(path, options.is_luau), &lines) {
        Ok((blocks, messages)) => {
            totals.blocks += blocks;
            messages
        }
        Err(error) => vec![report::syntax_error(&error, &lines)],
    };
    for message in &messages {
        let is_finding = !matches!(message.kind, "syntax" | "unchecked");
        totals.findings += usize::from(is_finding);
        totals.unchecked += usize::from(!is_finding);
        text.push_str(&said(path, message, &lines, options));
    }
}

fn said(path: &Path, message: &Message, lines: &Lines<'_>, options: &Options) -> String {
    let file = path.to_string_lossy();
    if options.is_json {
        return report::json(&file, message, lines);
    }
    let mut text = report::line(&file, message, lines);
    if options.has_marks {
        text.push_str(&lines.marked(message.span));
    }
    text
}

fn unreadable(path: &Path, error: &str, options: &Options) -> String {
    let file = path.to_string_lossy();
    let message = format!("cannot be read: {error}");
    if options.is_json {
        let (file, message) = (report::quoted(&file), report::quoted(&message));
        return format!("{{\"kind\":\"unreadable\",\"file\":{file},\"message\":{message}}}\n");
    }
    format!("{file}: {message}\n")
}

fn finish(
    options: &Options,
    totals: &Totals,
    what: &str,
    out: &mut impl Write,
) -> io::Result<Status> {
    let Totals { scripts, blocks, findings, unchecked } = *totals;
    if options.is_json {
        writeln!(
            out,
            "{{\"kind\":\"summary\",\"scripts\":{scripts},\"blocks\":{blocks},\"findings\":{findings},\"unchecked\":{unchecked}}}"
        )?;
    } else {
        let mut line = format!(
            "{}, {}: {}",
            count(scripts, "script"),
            count(blocks, "block"),
            count(findings, what)
        );
        if unchecked > 0 {
            let what = if unchecked == 1 { "script or block" } else { "scripts or blocks" };
            line.push_str(&format!(", {} {what} not checked", grouped(unchecked)));
        }
        writeln!(out, "{line}")?;
    }
    Ok(match (unchecked, findings) {
        (0, 0) => Status::Clean,
        (0, _) => Status::Findings,
        _ => Status::Unchecked,
    })
}

// ---- One script: sheet, graph and run ----

/// Reads the only file that is named. Where it cannot be read, says so and gives none.
fn read_one(options: &Options) -> Option<(&Path, Vec<u8>, Dialect)> {
    let path = options.files[0].as_path();
    match files::read(path) {
        Ok(source) => Some((path, source, files::dialect(path, options.is_luau))),
        Err(error) => {
            tell(&unreadable(path, &error.to_string(), options));
            None
        }
    }
}

fn say(path: &Path, message: &Message, lines: &Lines<'_>) {
    tell(&report::line(&path.to_string_lossy(), message, lines));
}

/// What is written of one function: its number, itself, its sheets, and the script's lines.
type WriteFunction<'write> = dyn FnMut(usize, &FunctionBlock<'_>, &Exported, &Lines<'_>) -> io::Result<Result<(), Reason>>
    + 'write;

/// Calls `write` for each function that was asked for, and names those that cannot be exported.
fn each_function(options: &Options, write: &mut WriteFunction<'_>) -> io::Result<Status> {
    let Some((path, source, dialect)) = read_one(options) else {
        return Ok(Status::Unchecked);
    };
    let lines = Lines::new(&source);
    let block = match parse(&source, dialect) {
        Ok(block) => block,
        Err(error) => {
            say(path, &report::syntax_error(&error, &lines), &lines);
            return Ok(Status::Unchecked);
        }
    };
    let resolved = resolve(&source, dialect, &block);
    let exporter = Exporter::new(&source, &resolved);
    let functions = &resolved.function_blocks;
    let Some(asked) = asked(options, functions.len()) else {
        let last = functions.len() - 1;
        tell(&format!("{}: the last function is number {last}\n", path.display()));
        return Ok(Status::Unchecked);
    };
    let mut status = Status::Clean;
    for number in asked {
        let function = &functions[number];
        let written = match exporter.export(function) {
            Ok(exported) => write(number, function, &exported, &lines)?,
            Err(limit) => Err(Reason::Limit(limit)),
        };
        if let Err(reason) = written {
            let unchecked = Unchecked::new(number, function, reason);
            say(path, &report::unchecked(&unchecked, &source), &lines);
            status = Status::Unchecked;
        }
    }
    Ok(status)
}

/// The numbers of the functions that were asked for: all, or the one that is named.
fn asked(options: &Options, count: usize) -> Option<Range<usize>> {
    match options.function {
        None => Some(0..count),
        Some(number) => (number < count).then(|| number..number + 1),
    }
}

pub fn sheet(options: &Options, out: &mut impl Write) -> io::Result<Status> {
    each_function(options, &mut |number, function, exported, lines| {
        if options.is_text {
            writeln!(out, "# {}", function_title(number, function, lines))?;
            let text = plain_text(&exported.sheet, &exported.uses, lines.source());
            out.write_all(text.as_bytes())?;
        } else {
            for word in exported.sheet.words().iter().chain(&exported.uses.words()) {
                out.write_all(&word.to_le_bytes())?;
            }
        }
        Ok(Ok(()))
    })
}

fn function_title(number: usize, function: &FunctionBlock<'_>, lines: &Lines<'_>) -> String {
    if number == 0 {
        return "the script itself".to_owned();
    }
    let name = function.name.map_or_else(String::new, |name| {
        format!(" {}", String::from_utf8_lossy(name.text(lines.source())))
    });
    format!("function {number}:{name}, line {}", lines.position(function.span.start).line)
}

pub fn graph(options: &Options, out: &mut impl Write) -> io::Result<Status> {
    let one = Options { function: Some(options.function.unwrap_or(0)), ..shallow(options) };
    let file = options.files[0].display().to_string();
    let mut unit = Unit::default();
    each_function(&one, &mut |number, function, exported, lines| {
        let title = format!("{file}: {}", function_title(number, function, lines));
        match waldimu::graph::svg(exported, lines, &title, &mut unit) {
            Ok(svg) => out.write_all(svg.as_bytes()).map(Ok),
            Err(refusal) => Ok(Err(Reason::Refused(refusal))),
        }
    })
}

/// The options that reading one script needs.
fn shallow(options: &Options) -> Options {
    Options { files: options.files.clone(), is_luau: options.is_luau, ..Options::default() }
}

pub fn run(
    options: &Options,
    (line, column): (u32, Option<u32>),
    out: &mut impl Write,
) -> io::Result<Status> {
    let Some((path, source, dialect)) = read_one(options) else {
        return Ok(Status::Unchecked);
    };
    let lines = Lines::new(&source);
    let Some(offset) = lines.line(line).and_then(|span| offset_in(span, column, &source)) else {
        tell(&format!("{}: there is no line {line} with such a column\n", path.display()));
        return Ok(Status::Unchecked);
    };
    let answer = match reach::can_run(&source, dialect, offset) {
        Ok(answer) => answer,
        Err(error) => {
            say(path, &report::syntax_error(&error, &lines), &lines);
            return Ok(Status::Unchecked);
        }
    };
    let (status, text) = match answer {
        Answer::CanRun => (Status::Clean, "can run".to_owned()),
        Answer::PastAllCode => (Status::Clean, "can run: no code follows in this block".to_owned()),
        Answer::CannotRun => (Status::Findings, "cannot run: no path leads here".to_owned()),
        Answer::NeverDefined(at) => {
            let line = lines.position(at.start).line;
            (Status::Findings, format!("cannot run: no path leads to its function on line {line}"))
        }
        Answer::Unknown(at, reason) => {
            let line = lines.position(at.start).line;
            (Status::Unchecked, format!("not known: the function on line {line}: {reason}"))
        }
    };
    let message = Message { kind: "run", span: Span::new(offset, offset), text, local: None };
    out.write_all(report::line(&path.to_string_lossy(), &message, &lines).as_bytes())?;
    Ok(status)
}

/// Without a column, where the line's first word stands.
fn offset_in(line: Span, column: Option<u32>, source: &[u8]) -> Option<u32> {
    let length = line.end - line.start;
    let blanks = line.text(source).iter().take_while(|byte| byte.is_ascii_whitespace()).count();
    let ahead = column.map_or(blanks as u32, |column| column - 1);
    (ahead <= length).then_some(line.start + ahead)
}
