//! Lua's own compilers as a second judge: of what parses, and of which local each name means.

mod common;

use std::collections::{BTreeMap, BTreeSet};
use std::io::Write;
use std::process::{Command, Stdio};

use common::generate::{Version, script, text};
use common::random::Random;
use common::{is_installed, kept_scripts};
use waldimu::parser::parse;
use waldimu::resolver::{Resolved, resolve};
use waldimu::scope::{ScopeId, ScopeKind, ScopeTree, SymbolId};
use waldimu::token::Dialect;

const COMPILERS: [(&str, Version); 3] =
    [("luac5.1", Version::Lua51), ("luac5.3", Version::Lua53), ("luac5.4", Version::Lua54)];

fn installed() -> Vec<(&'static str, Version)> {
    let (here, missing): (Vec<_>, Vec<_>) =
        COMPILERS.into_iter().partition(|(program, _)| is_installed(program));
    for (program, _) in missing {
        println!("{program} is not installed: not compared with it");
    }
    here
}

/// Its listing, or its message.
fn compile(program: &str, source: &str) -> Result<String, String> {
    let mut child = Command::new(program)
        .args(["-l", "-l", "-p", "-"])
        .stdin(Stdio::piped())
        .stdout(Stdio::piped())
        .stderr(Stdio::piped())
        .spawn()
        .expect("it is installed");
    child.stdin.take().expect("a pipe").write_all(source.as_bytes()).expect("it reads all");
    let output = child.wait_with_output().expect("it ends");
    let text = |bytes: &[u8]| String::from_utf8_lossy(bytes).into_owned();
    if output.status.success() { Ok(text(&output.stdout)) } else { Err(text(&output.stderr)) }
}

/// One function: its locals in the order of the text, and its upvalues by name.
#[derive(Debug, Default, PartialEq, Eq)]
struct Function {
    locals: Vec<String>,
    upvalues: Vec<String>,
}

fn functions_of_listing(listing: &str, version: Version) -> Vec<Function> {
    let mut functions: Vec<Function> = Vec::new();
    let mut section = "";
    for line in listing.lines() {
        if line.starts_with("main <") || line.starts_with("function <") {
            functions.push(Function::default());
        }
        if !line.starts_with('\t') {
            section = line.split(' ').next().unwrap_or_default();
            continue;
        }
        let name = line.split('\t').nth(2).unwrap_or_default().to_owned();
        let function = functions.last_mut().expect("a function's line");
        // Loops keep their state in locals whose names are no names of Lua; 5.1 gives a
        // function with `...` a local `arg`.
        let is_own = name.starts_with('(') || version == Version::Lua51 && name == "arg";
        match section {
            "locals" if !is_own => function.locals.push(name),
            "upvalues" => function.upvalues.push(name),
            _ => {}
        }
    }
    for function in &mut functions {
        function.upvalues.sort();
    }
    functions
}

/// Where free names are looked up if no local `_ENV` is in scope.
const SCRIPT_ENV: Option<SymbolId> = None;

fn functions_of_tree(source: &str, version: Version) -> Vec<Function> {
    let block = parse(source.as_bytes(), Dialect::Lua).expect("luac takes it");
    let resolved = resolve(source.as_bytes(), Dialect::Lua, &block);
    let tree = &resolved.tree;
    let number_of: BTreeMap<ScopeId, usize> = resolved
        .function_blocks
        .iter()
        .enumerate()
        .map(|(number, one)| (one.scope, number))
        .collect();
    let function_of = |scope: ScopeId| number_of[&function_scope(tree, scope)];
    let mut locals = vec![Vec::new(); number_of.len()];
    for symbol in &tree.symbols {
        let name = String::from_utf8_lossy(symbol.name).into_owned();
        locals[function_of(symbol.scope)].push((symbol.definition_span, name));
    }
    let upvalues = upvalues(&resolved, version, &function_of);
    let name = |symbol: &Option<SymbolId>| {
        let name = symbol.map_or(b"_ENV".as_slice(), |symbol| tree.symbol(symbol).name);
        String::from_utf8_lossy(name).into_owned()
    };
    let sorted = locals.into_iter().map(|mut locals| {
        locals.sort_by_key(|(span, _)| *span);
        locals.into_iter().map(|(_, name)| name).collect()
    });
    sorted
        .zip(&upvalues)
        .map(|(locals, upvalues)| {
            let mut upvalues: Vec<String> = upvalues.iter().map(name).collect();
            upvalues.sort();
            Function { locals, upvalues }
        })
        .collect()
}

/// The symbols that each function takes from those around it.
fn upvalues(
    resolved: &Resolved<'_, '_>,
    version: Version,
    function_of: &dyn Fn(ScopeId) -> usize,
) -> Vec<BTreeSet<Option<SymbolId>>> {
    let tree = &resolved.tree;
    let mut upvalues = vec![BTreeSet::new(); resolved.function_blocks.len()];
    if version != Version::Lua51 {
        upvalues[0].insert(SCRIPT_ENV);
    }
    for reference in &tree.references {
        let (symbol, owner) = match reference.resolved.or(reference.env) {
            Some(symbol) => (Some(symbol), Some(function_of(tree.symbol(symbol).scope))),
            None if version == Version::Lua51 => continue,
            None => (SCRIPT_ENV, None),
        };
        let mut function = function_of(reference.scope);
        while owner != Some(function) {
            upvalues[function].insert(symbol);
            if function == 0 {
                break;
            }
            function = resolved.function_blocks[function].parent;
        }
    }
    upvalues
}

fn function_scope(tree: &ScopeTree<'_>, mut scope: ScopeId) -> ScopeId {
    loop {
        let here = &tree.scopes[scope.index()];
        match here.parent {
            Some(parent) if here.kind != ScopeKind::Function => scope = parent,
            _ => return scope,
        }
    }
}

#[track_caller]
fn compare_names(source: &str, listing: &str, version: Version) -> usize {
    let theirs = functions_of_listing(listing, version);
    let ours = functions_of_tree(source, version);
    assert_eq!(ours, theirs, "{version:?}\n{source}");
    ours.iter().map(|function| function.locals.len() + function.upvalues.len()).sum()
}

#[test]
fn locals_and_upvalues_of_generated_scripts() {
    for (program, version) in installed() {
        let mut random = Random::new(20 + version as u64);
        let mut names = 0;
        for _ in 0..150 {
            let source = text(&script(&mut random, version, 40));
            let listing =
                compile(program, &source).unwrap_or_else(|said| panic!("{said}\n{source}"));
            names += compare_names(&source, &listing, version);
        }
        println!("{program}: {names} locals and upvalues of 150 scripts agree");
        assert!(names > 2_000, "{names}");
    }
}

#[test]
fn locals_and_upvalues_of_kept_scripts() {
    for (program, version) in installed() {
        let kept = kept_scripts();
        let mut taken = Vec::new();
        for (name, source) in kept.iter().filter(|(name, _)| name.ends_with(".lua")) {
            // Whatever a compiler takes, the parser takes, and every name means the same.
            if let Ok(listing) = compile(program, source) {
                compare_names(source, &listing, version);
                taken.push(name.as_str());
            }
        }
        println!("{program}: takes {}", taken.join(", "));
        assert!(taken.contains(&"syntax51.lua") && taken.contains(&"closures.lua"));
        assert_eq!(taken.contains(&"syntax54.lua"), version == Version::Lua54);
        assert!(!taken.contains(&"syntax55.lua") && !taken.contains(&"numerals.lua"));
    }
}

/// A constant known when compiling is no local for luac5.4. That is the one difference in names.
#[test]
fn constants_that_5_4_does_away_with() {
    if !is_installed("luac5.4") {
        println!("luac5.4 is not installed: not compared with it");
        return;
    }
    let source = "local x <const> = 1 local y = x return function() return x, y end";
    let listing = compile("luac5.4", source).expect("a script of 5.4");
    let theirs = functions_of_listing(&listing, Version::Lua54);
    let ours = functions_of_tree(source, Version::Lua54);
    assert_eq!(theirs[0].locals, ["y"]);
    assert_eq!(ours[0].locals, ["x", "y"]);
    assert_eq!(theirs[1].upvalues, ["y"]);
    assert_eq!(ours[1].upvalues, ["x", "y"]);
}

/// Why a compiler refuses what the parser takes: none of these is grammar.
fn class(message: &str) -> Option<&'static str> {
    let classes = [
        ("no visible label", "labels"),
        ("already defined", "labels"),
        ("jumps into the scope", "labels"),
        ("assign to const variable", "constants"),
        ("multiple to-be-closed", "constants"),
        ("too many", "limits"),
        // 5.1 takes any letter behind a backslash, in a script that has later syntax elsewhere.
        ("invalid escape", "escapes of 5.1"),
        ("hexadecimal digit expected", "escapes of 5.1"),
        ("missing '{'", "escapes of 5.1"),
        ("missing '}'", "escapes of 5.1"),
        ("UTF-8 value too large", "escapes of 5.1"),
    ];
    classes.iter().find(|(text, _)| message.contains(text)).map(|(_, class)| *class)
}

/// 5.3 ends a numeral before a letter, in a script that has later syntax elsewhere: of the
/// compilers only that one does not call it malformed.
fn splits_a_numeral(said: &[&String]) -> bool {
    let is_malformed = |said: &&String| said.contains("malformed number");
    said.iter().any(&is_malformed)
        && said.iter().any(|said| said.starts_with("luac5.3") && !is_malformed(said))
}

/// Lua 5.5 has `( ... name )`, and there is no compiler of it here.
fn names_its_varargs(source: &str) -> bool {
    let is_name =
        |token: &str| token.bytes().all(|byte| byte.is_ascii_alphabetic() || byte == b'_');
    let tokens: Vec<&str> = source.split_whitespace().collect();
    tokens.windows(3).any(|three| three[0] == "..." && is_name(three[1]) && three[2] == ")")
}

/// One grammar for all versions: what any compiler takes is taken, and what none takes is not.
#[test]
fn damaged_scripts_parse_where_some_compiler_takes_them() {
    let here = installed();
    let mut random = Random::new(30);
    let mut counts: BTreeMap<&str, usize> = BTreeMap::new();
    for (_, version) in &here {
        for _ in 0..120 {
            let mut tokens = script(&mut random, *version, 8);
            for _ in 0..=random.below(2) {
                damage(&mut tokens, &mut random);
            }
            *counts.entry(agreement(&here, &text(&tokens))).or_default() += 1;
        }
    }
    say_agreement(&here, "scripts with damaged tokens", &counts);
}

/// The same for single bytes: strings, numerals, comments and operators.
#[test]
fn damaged_bytes_parse_where_some_compiler_takes_them() {
    const BYTES: &[u8] = b"()[]{}\"'\\-=~<>:;,.#&|%^\n0189aexzL_ ";
    let here = installed();
    let mut random = Random::new(40);
    let mut counts: BTreeMap<&str, usize> = BTreeMap::new();
    let kept = kept_scripts();
    let of_compilers =
        kept.iter().filter(|(name, _)| matches!(&**name, "syntax51.lua" | "syntax54.lua"));
    for (_, source) in of_compilers {
        for _ in 0..if here.is_empty() { 0 } else { 150 } {
            let mut source = source.clone().into_bytes();
            let at = random.below(source.len());
            match random.below(3) {
                0 => {
                    source.remove(at);
                }
                1 => source.insert(at, random.pick(BYTES)),
                _ => source[at] = random.pick(BYTES),
            }
            let source = String::from_utf8(source).expect("bytes of ASCII");
            *counts.entry(agreement(&here, &source)).or_default() += 1;
        }
    }
    say_agreement(&here, "scripts with damaged bytes", &counts);
}

/// Both answers must have come up often enough to tell anything.
#[track_caller]
fn say_agreement(here: &[(&str, Version)], what: &str, counts: &BTreeMap<&str, usize>) {
    if here.is_empty() {
        return;
    }
    println!("{what}: {counts:?}");
    let total: usize = counts.values().sum();
    let count = |what| counts.get(what).copied().unwrap_or(0);
    assert!(30 * count("taken by both") > total, "{counts:?}");
    assert!(3 * count("refused by both") > total, "{counts:?}");
}

/// In which way parser and compilers agree on a script. Panics where they do not.
#[track_caller]
fn agreement(here: &[(&str, Version)], source: &str) -> &'static str {
    let ours = parse(source.as_bytes(), Dialect::Lua);
    let theirs: Vec<_> = here.iter().map(|(program, _)| compile(program, source)).collect();
    match (&ours, theirs.iter().any(Result::is_ok)) {
        (Ok(_), true) => "taken by both",
        (Err(_), false) => "refused by both",
        (Err(error), true) => panic!("a compiler takes it: {}\n{source}", error.message),
        (Ok(_), false) if here.len() < COMPILERS.len() => "taken, a compiler is missing",
        (Ok(_), false) => {
            let said: Vec<&String> =
                theirs.iter().filter_map(|answer| answer.as_ref().err()).collect();
            said.iter()
                .find_map(|said| class(said))
                .or_else(|| splits_a_numeral(&said).then_some("numerals of 5.3"))
                .or_else(|| names_its_varargs(source).then_some("a name behind ... (5.5)"))
                .unwrap_or_else(|| panic!("no compiler takes it: {said:?}\n{source}"))
        }
    }
}

/// A letter right behind a numeral begins the next token for 5.2 and 5.3, and is an error for the
/// others.
#[test]
fn letters_behind_numerals() {
    let here = installed();
    let scripts = [
        ("x=5y=6", "taken by both"),
        ("x=0x5g=6", "taken by both"),
        ("x=5or y", "taken by both"),
        ("x=0x5p+1z=6", "taken by both"),
        ("x=5_=6", "taken by both"),
        ("x=5a=6", "refused by both"),
        ("x=5e=6", "refused by both"),
        ("x=5end", "refused by both"),
        ("x=0b1y=6", "refused by both"),
        ("x=0x_=6", "refused by both"),
        ("x=5..y=6", "refused by both"),
    ];
    if here.len() < COMPILERS.len() {
        return;
    }
    for (source, expected) in scripts {
        assert_eq!(agreement(&here, source), expected, "{source}");
    }
}

/// Says of each line whether it is a value.
const VALUES: &str =
    "for line in io.lines() do print((loadstring or load)('return ' .. line) and 1 or 0) end";

fn values(program: &str, texts: &[String]) -> Vec<bool> {
    let mut child = Command::new(program)
        .args(["-e", VALUES])
        .stdin(Stdio::piped())
        .stdout(Stdio::piped())
        .spawn()
        .expect("it is installed");
    let mut pipe = child.stdin.take().expect("a pipe");
    let lines = texts.join("\n") + "\n";
    let writer = std::thread::spawn(move || pipe.write_all(lines.as_bytes()));
    let output = child.wait_with_output().expect("it ends");
    writer.join().expect("it ends").expect("it reads all");
    String::from_utf8_lossy(&output.stdout).lines().map(|line| line == "1").collect()
}

/// Numerals are what any interpreter takes, LuaJIT's among them.
#[test]
fn numerals_of_the_interpreters() {
    const PROGRAMS: [&str; 4] = ["lua5.1", "lua5.3", "lua5.4", "luajit"];
    let (here, missing): (Vec<&str>, Vec<&str>) =
        PROGRAMS.into_iter().partition(|program| is_installed(program));
    for program in &missing {
        println!("{program} is not installed: numerals not compared with it");
    }
    let mut random = Random::new(50);
    let parts = [
        "0", "1", "9", "0x", "0X", "0b", "a", "F", ".", "e", "E", "p", "-", "+", "LL", "ULL",
        "LLU", "i", "l", "u",
    ];
    let numeral = |random: &mut Random| -> String {
        (0..1 + random.below(5)).map(|_| random.pick(&parts)).collect()
    };
    let texts: Vec<String> = (0..4_000).map(|_| numeral(&mut random)).collect();
    let answers: Vec<Vec<bool>> = here.iter().map(|program| values(program, &texts)).collect();
    let mut taken = 0;
    for (place, text) in texts.iter().enumerate() {
        let ours = parse(format!("return {text}").as_bytes(), Dialect::Lua).is_ok();
        let theirs = answers.iter().any(|answers| answers[place]);
        assert!(ours || !theirs, "an interpreter takes {text}");
        assert!(theirs || !ours || !missing.is_empty(), "no interpreter takes {text}");
        taken += usize::from(ours);
    }
    if here.is_empty() {
        return;
    }
    println!("luajit and lua: {taken} of {} random numerals are taken", texts.len());
    let tenth = texts.len() / 10;
    assert!(taken > tenth && taken < 9 * tenth, "{taken}");
}

fn damage(tokens: &mut Vec<String>, random: &mut Random) {
    let at = random.below(tokens.len());
    match random.below(4) {
        0 => {
            tokens.remove(at);
        }
        1 => tokens.insert(at, tokens[random.below(tokens.len())].clone()),
        2 => {
            let other = random.below(tokens.len());
            tokens.swap(at, other);
        }
        _ => tokens[at] = tokens[random.below(tokens.len())].clone(),
    }
}
