//! What several tests need.
#![allow(dead_code, reason = "each test takes a part of it")]

pub mod generate;
pub mod random;

use waldimu::exporter::{Exported, Exporter, Limit};
use waldimu::parser::parse;
use waldimu::plain_text::plain_text;
use waldimu::resolver::resolve;
use waldimu::token::Dialect;

/// The sheets of every block of a script that parses.
pub fn exported(source: &str, dialect: Dialect) -> Vec<Result<Exported, Limit>> {
    let block = parse(source.as_bytes(), dialect)
        .unwrap_or_else(|error| panic!("{}\n{source}", error.message));
    let resolved = resolve(source.as_bytes(), dialect, &block);
    let exporter = Exporter::new(source.as_bytes(), &resolved);
    resolved.function_blocks.iter().map(|function| exporter.export(function)).collect()
}

/// A block's sheet as plain text, without what stands behind #.
pub fn sheet_lines(source: &str, dialect: Dialect, function: usize) -> Vec<String> {
    let sheets = exported(source, dialect);
    let one = sheets[function].as_ref().expect("within the limits");
    plain_text(&one.sheet, &one.uses, source.as_bytes())
        .lines()
        .map(|line| line.split('#').next().unwrap_or_default().trim().to_owned())
        .collect()
}

/// Whether a program can be started at all.
pub fn is_installed(program: &str) -> bool {
    std::process::Command::new(program)
        .arg("-v")
        .stdin(std::process::Stdio::null())
        .stdout(std::process::Stdio::null())
        .stderr(std::process::Stdio::null())
        .spawn()
        .and_then(|mut child| child.wait())
        .is_ok()
}

/// A folder of its own for a test's files, which goes with it. It stands outside the checkout, as
/// a test makes links and `rt ci` refuses any in the checkout.
pub struct Folder(std::path::PathBuf);

impl std::ops::Deref for Folder {
    type Target = std::path::Path;

    fn deref(&self) -> &std::path::Path {
        &self.0
    }
}

impl Drop for Folder {
    fn drop(&mut self) {
        let _ = std::fs::remove_dir_all(&self.0);
    }
}

pub fn folder(name: &str) -> Folder {
    let path = std::env::temp_dir().join(format!("waldimu-{}-{name}", std::process::id()));
    let _ = std::fs::remove_dir_all(&path);
    std::fs::create_dir_all(&path).expect("a folder for the test");
    Folder(path)
}

/// The scripts that the tests keep, by name.
pub fn kept_scripts() -> Vec<(String, String)> {
    let folder = std::path::Path::new(env!("CARGO_MANIFEST_DIR")).join("tests/scripts");
    let mut scripts: Vec<(String, String)> = std::fs::read_dir(folder)
        .expect("tests/scripts")
        .map(|entry| entry.expect("an entry").path())
        .map(|path| {
            let name = path.file_name().expect("a name").to_string_lossy().into_owned();
            (name, std::fs::read_to_string(path).expect("a script"))
        })
        .collect();
    scripts.sort();
    scripts
}

pub fn dialect_of(name: &str) -> Dialect {
    if name.ends_with(".luau") { Dialect::Luau } else { Dialect::Lua }
}
