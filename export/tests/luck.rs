//! luck's own Rust as a second judge of exported sheets, where `compare/run.sh` has built it.
//! `COMPARE` names the program, if it stands elsewhere.

mod common;

use std::io::Write;
use std::path::{Path, PathBuf};
use std::process::{Command, Stdio};

use common::generate::{Version, script, text};
use common::random::Random;
use common::{dialect_of, exported, kept_scripts};
use waldimu::exporter::Exported;
use waldimu::library::{Finding, Unit};
use waldimu::token::Dialect;

fn compare() -> PathBuf {
    let built = Path::new(env!("CARGO_MANIFEST_DIR")).join("../compare/target/release/compare");
    std::env::var_os("COMPARE").map_or(built, PathBuf::from)
}

/// The findings that luck prints for a sheet and its uses, in the form of flowlist.
fn of_luck(program: &Path, exported: &Exported) -> Vec<String> {
    let words = exported.sheet.words().into_iter().chain(exported.uses.words());
    let bytes: Vec<u8> = words.flat_map(u64::to_le_bytes).collect();
    let mut child = Command::new(program)
        .arg("print")
        .stdin(Stdio::piped())
        .stdout(Stdio::piped())
        .spawn()
        .expect("the comparison's program");
    child.stdin.take().expect("a pipe").write_all(&bytes).expect("it reads all");
    let output = child.wait_with_output().expect("it ends");
    let printed = String::from_utf8(output.stdout).expect("text");
    assert!(printed.starts_with("graph "), "luck refuses nothing that was exported: {printed}");
    printed.lines().skip(2).map(str::to_owned).collect()
}

fn of_library(unit: &mut Unit, exported: &Exported) -> Vec<String> {
    let found = unit.judge(&exported.sheet.words(), &exported.uses.words()).expect("admitted");
    let used = |number: usize| exported.uses.uses[number].span;
    let named = |local: usize| {
        let is_name = |item: &&waldimu::sheet::Item| item.kind == waldimu::sheet::Kind::Name;
        exported.sheet.items.iter().filter(is_name).nth(local).expect("a name").span
    };
    let line = |finding: &Finding| match *finding {
        Finding::Unassigned { local, use_number } => {
            let span = used(use_number);
            format!("unassigned {local} {use_number} {} {}", span.start, span.end)
        }
        Finding::OverwrittenWrite { local, use_number } => {
            let span = used(use_number);
            format!("overwritten {local} {} {}", span.start, span.end)
        }
        Finding::OverwrittenInitial { local } => {
            format!("overwritten {local} {} {}", named(local).start, named(local).end)
        }
    };
    found.iter().map(line).collect()
}

#[test]
fn luck_finds_the_same_in_exported_sheets() {
    let program = compare();
    if !program.is_file() {
        println!("luck's comparison is not built: exported sheets not compared with luck");
        return;
    }
    let mut scripts: Vec<(String, Dialect)> =
        kept_scripts().into_iter().map(|(name, source)| (source, dialect_of(&name))).collect();
    let mut random = Random::new(70);
    for version in [Version::Lua51, Version::Lua54, Version::Luau] {
        let dialect = if version == Version::Luau { Dialect::Luau } else { Dialect::Lua };
        for _ in 0..40 {
            scripts.push((text(&script(&mut random, version, 30)), dialect));
        }
    }
    let mut unit = Unit::default();
    let (mut sheets, mut findings) = (0, 0);
    for (source, dialect) in &scripts {
        for exported in exported(source, *dialect).iter().flatten() {
            let ours = of_library(&mut unit, exported);
            assert_eq!(ours, of_luck(&program, exported), "{source}");
            sheets += 1;
            findings += ours.len();
        }
    }
    println!("luck: {sheets} exported sheets, {findings} findings, no difference");
    assert!(sheets > 300 && findings > 100, "{sheets} sheets, {findings} findings");
}
