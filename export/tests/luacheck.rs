//! luacheck as a second judge of findings. It asks other questions, so every difference is classed.
//!
//! Of what it says, W321 and W341 (a local is read or mutated while it has no value) and W221 (a local is
//! never set) are held to `unassigned`; W311 and W331 (a value is never read) where the value is overwritten
//! to `overwritten`. A local that is never read gets W2.. once, in place of one W311 for each value.

mod common;

use std::collections::BTreeMap;
use std::path::Path;
use std::process::Command;

use common::generate::{Version, script, text};
use common::random::Random;
use common::{exported, folder, kept_scripts};
use waldimu::check::{FindingKind, check};
use waldimu::library::Unit;
use waldimu::lines::Lines;
use waldimu::parser::parse;
use waldimu::reach::{Answer, can_run};
use waldimu::resolver::resolve;
use waldimu::scope::SymbolKind;
use waldimu::sheet::Kind;
use waldimu::token::{Dialect, Span};

/// What luacheck says of one place.
#[derive(Debug)]
struct Warning {
    place: (u32, u32),
    code: String,
    name: String,
    is_overwritten: bool,
}

/// The classes below are those of this version; another one may warn otherwise.
const VERSION: &str = "Luacheck: 1.1.";

/// Whether luacheck can be asked. Says so where it cannot.
fn is_here() -> bool {
    let Ok(output) = Command::new("luacheck").arg("--version").output() else {
        println!("luacheck is not installed: not compared with it");
        return false;
    };
    let is_known = String::from_utf8_lossy(&output.stdout).starts_with(VERSION);
    if !is_known {
        println!("luacheck is another version than 1.1: not compared with it");
    }
    is_known
}

fn warnings(folder: &Path) -> BTreeMap<String, Vec<Warning>> {
    let output = Command::new("luacheck")
        .args([
            "--formatter",
            "plain",
            "--codes",
            "--no-config",
            "--std",
            "max",
            "--only",
            "2",
            "3",
            "--",
        ])
        .arg(folder)
        .output()
        .expect("it is installed");
    let text = String::from_utf8(output.stdout).expect("text");
    let mut found: BTreeMap<String, Vec<Warning>> = BTreeMap::new();
    for line in text.lines() {
        let (place, said) = line.split_once(": (W").unwrap_or_else(|| panic!("{line}"));
        let mut parts = place.rsplitn(3, ':');
        let column = parts.next().and_then(|column| column.parse().ok()).expect("a column");
        let row = parts.next().and_then(|row| row.parse().ok()).expect("a line");
        let path = Path::new(parts.next().expect("a file"));
        let file = path.file_name().expect("a name").to_string_lossy().into_owned();
        found.entry(file).or_default().push(Warning {
            place: (row, column),
            code: said[..3].to_owned(),
            name: said.split('\'').nth(1).unwrap_or_default().to_owned(),
            is_overwritten: said.contains("is overwritten"),
        });
    }
    found
}

/// One finding or local of ours, with what decides classes.
struct Ours {
    name: String,
    is_unassigned: bool,
    place: (u32, u32),
    declared: (u32, u32),
    can_run: bool,
}

/// What the resolver says of a name's local.
#[derive(Clone, Copy)]
struct Local {
    kind: SymbolKind,
    is_upvalue: bool,
    declared: (u32, u32),
}

struct Script {
    findings: Vec<Ours>,
    /// The local of each place where one is declared or named.
    locals: BTreeMap<(u32, u32), Local>,
    /// luacheck knows of no call that raises.
    raises: bool,
    /// luacheck takes only one arm of `if false`; the flow graph takes both.
    has_literal_if: bool,
}

fn look(source: &str) -> Script {
    let bytes = source.as_bytes();
    let lines = Lines::new(bytes);
    let place = |offset: u32| {
        let position = lines.position(offset);
        (position.line, position.column)
    };
    let name = |span: Span| String::from_utf8_lossy(span.text(bytes)).into_owned();
    let report = check(bytes, Dialect::Lua, &mut Unit::default()).expect("a script");
    let findings = report.findings.iter().map(|found| Ours {
        name: name(found.declared),
        is_unassigned: found.kind == FindingKind::Unassigned,
        place: place(found.span.start),
        declared: place(found.declared.start),
        can_run: matches!(
            can_run(bytes, Dialect::Lua, found.span.start),
            Ok(Answer::CanRun | Answer::PastAllCode)
        ),
    });
    let block = parse(bytes, Dialect::Lua).expect("a script");
    let resolved = resolve(bytes, Dialect::Lua, &block);
    let mut locals = BTreeMap::new();
    for symbol in &resolved.tree.symbols {
        let declared = place(symbol.definition_span.start);
        let local = Local { kind: symbol.kind, is_upvalue: symbol.is_upvalue, declared };
        locals.insert(declared, local);
        for id in &symbol.reference_ids {
            locals.insert(place(resolved.tree.reference(*id).span.start), local);
        }
    }
    let raises = exported(source, Dialect::Lua).iter().flatten().any(|made| {
        made.sheet.items.iter().any(|item| item.kind == Kind::Call && item.argument == 6)
    });
    let has_literal_if = has_literal_if(source);
    Script { findings: findings.collect(), locals, raises, has_literal_if }
}

fn has_literal_if(source: &str) -> bool {
    let words: Vec<&str> = source.split_whitespace().collect();
    words.windows(3).any(|three| {
        let is_literal =
            three[1].starts_with(|first: char| first.is_ascii_digit() || "'[".contains(first));
        let is_word = matches!(three[1], "nil" | "true" | "false");
        matches!(three[0], "if" | "elseif") && (is_literal || is_word) && three[2] == "then"
    })
}

type Counts = BTreeMap<&'static str, usize>;

fn count(counts: &mut Counts, class: &'static str) {
    *counts.entry(class).or_default() += 1;
}

/// Why luacheck is silent about a finding, or how it puts it.
fn class_of_ours(ours: &Ours, script: &Script, theirs: &[Warning]) -> Option<&'static str> {
    let at = |place, codes: &[&str]| {
        theirs.iter().any(|said| said.place == place && codes.contains(&&*said.code))
    };
    if ours.is_unassigned && at(ours.place, &["321", "341"]) {
        return Some("agreed: unassigned");
    }
    if !ours.is_unassigned && at(ours.place, &["311", "331"]) {
        return Some("agreed: overwritten");
    }
    if ours.is_unassigned && at(ours.declared, &["221"]) {
        return Some("agreed: unassigned, since never set");
    }
    if at(ours.declared, &["211", "231", "241"]) {
        return Some("agreed: the local is never read");
    }
    if !ours.can_run {
        return Some("ours alone: code that cannot run");
    }
    if script.raises {
        return Some("ours alone: a call of error leaves");
    }
    if script.has_literal_if {
        return Some("ours alone: both arms of an if over a literal");
    }
    // luacheck lets a function that is made later in the statement write before the read.
    let local = script.locals.get(&ours.declared)?;
    local.is_upvalue.then_some("ours alone: a captured local")
}

/// Why a warning of luacheck has no finding of ours beside it.
fn class_of_theirs(said: &Warning, script: &Script) -> Option<&'static str> {
    let is_unassigned = matches!(&*said.code, "221" | "321" | "341");
    if !said.code.ends_with('1') {
        return Some("theirs alone: a parameter, a loop variable or a field");
    }
    if !is_unassigned && !said.is_overwritten {
        return Some("theirs alone: a value that nobody overwrites, or a local never read");
    }
    let local = script.locals.get(&said.place)?;
    let same =
        |ours: &&Ours| ours.declared == local.declared && ours.is_unassigned == is_unassigned;
    let mut own = script.findings.iter().filter(same);
    if own.clone().any(|ours| ours.place == said.place || ours.declared == said.place) {
        return Some("agreed");
    }
    match local.kind {
        SymbolKind::Local if said.name.starts_with('_') => {
            Some("theirs alone: a name with underscore")
        }
        SymbolKind::Local if is_unassigned && own.next().is_some() => {
            Some("theirs alone: not the first empty read")
        }
        SymbolKind::Local if local.is_upvalue => Some("theirs alone: a captured local"),
        SymbolKind::Local => None,
        SymbolKind::FunctionName => Some("theirs alone: the name of a local function"),
        _ => Some("theirs alone: a parameter, a loop variable or a field"),
    }
}

fn compare(source: &str, theirs: &[Warning], counts: &mut Counts) {
    let script = look(source);
    for ours in &script.findings {
        let class = class_of_ours(ours, &script, theirs);
        let what =
            || format!("{} at {:?}, unassigned: {}", ours.name, ours.place, ours.is_unassigned);
        count(counts, class.unwrap_or_else(|| panic!("luacheck has no {}\n{source}", what())));
    }
    for said in theirs {
        let class = class_of_theirs(said, &script);
        count(counts, class.unwrap_or_else(|| panic!("we have no {said:?}\n{source}")));
    }
}

#[test]
fn findings_agree_or_the_difference_is_classed() {
    if !is_here() {
        return;
    }
    let room = folder("luacheck");
    let mut random = Random::new(60);
    let mut scripts: Vec<(String, String)> = kept_scripts()
        .into_iter()
        .filter(|(name, _)| !matches!(&**name, "plain.luau" | "syntax55.lua" | "numerals.lua"))
        .collect();
    for number in 0..200 {
        let source = text(&script(&mut random, Version::Lua51, 30));
        scripts.push((format!("generated{number}.lua"), source));
    }
    for (name, source) in &scripts {
        std::fs::write(room.join(name), source).expect("a file");
    }
    let theirs = warnings(&room);
    let mut counts = Counts::new();
    for (name, source) in &scripts {
        compare(source, theirs.get(name).map_or(&[], Vec::as_slice), &mut counts);
    }
    println!("luacheck, over {} scripts: {counts:?}", scripts.len());
    for agreed in ["agreed: unassigned", "agreed: overwritten", "agreed"] {
        assert!(counts.get(agreed).copied().unwrap_or(0) >= 20, "{agreed}: {counts:#?}");
    }
}
