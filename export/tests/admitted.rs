//! Whatever parses is exported to sheets that the library admits, and damaged scripts never panic.

mod common;

use common::generate::{Version, script, text};
use common::random::Random;
use common::{dialect_of, kept_scripts};
use waldimu::check::{Reason, check};
use waldimu::exporter::Exporter;
use waldimu::graph::svg;
use waldimu::labels::{faults, labels, labels_fit};
use waldimu::library::{Unit, run};
use waldimu::lines::Lines;
use waldimu::parser::parse;
use waldimu::report::{messages, syntax_error};
use waldimu::resolver::resolve;
use waldimu::sheet::MOST_ITEMS;
use waldimu::token::Dialect;

/// Every block of a script goes through every call. Says whether the script parses, and how many blocks it has.
fn all_calls(source: &[u8], dialect: Dialect, unit: &mut Unit) -> Option<usize> {
    let lines = Lines::new(source);
    let block = match parse(source, dialect) {
        Ok(block) => block,
        Err(error) => {
            assert!(error.span.start <= error.span.end && error.span.end as usize <= source.len());
            assert!(error.message.starts_with("expected "), "{}", error.message);
            assert!(
                syntax_error(&error, &lines).text.contains(", found ") || error.opened.is_none()
            );
            return None;
        }
    };
    let resolved = resolve(source, dialect, &block);
    let exporter = Exporter::new(source, &resolved);
    for function in &resolved.function_blocks {
        let Ok(exported) = exporter.export(function) else { continue };
        assert!(exported.sheet.items.len() <= MOST_ITEMS);
        let (sheet, uses) = (exported.sheet.words(), exported.uses.words());
        let shown = || String::from_utf8_lossy(source).into_owned();
        unit.judge(&sheet, &uses).unwrap_or_else(|refusal| panic!("{refusal}\n{}", shown()));
        let graph = unit.chart(&sheet).unwrap_or_else(|refusal| panic!("{refusal}\n{}", shown()));
        assert!(graph.nodes.len() > 5);
        assert!(run(&sheet, function.block.span.start).is_ok());
        let fit = labels_fit(&exported).expect("admitted by judge");
        assert_eq!(fit, faults(source, function).is_empty(), "{}", shown());
    }
    let report = check(source, dialect, unit).expect("it parses");
    assert!(report.unchecked.iter().all(|block| matches!(block.reason, Reason::Limit(_))));
    for message in messages(&report, source, &lines) {
        assert!(message.span.end as usize <= source.len());
    }
    Some(resolved.function_blocks.len())
}

#[test]
fn kept_scripts_are_admitted() {
    let mut unit = Unit::default();
    for (name, source) in kept_scripts() {
        assert!(all_calls(source.as_bytes(), dialect_of(&name), &mut unit).is_some(), "{name}");
    }
}

#[test]
fn generated_scripts_are_admitted() {
    let mut unit = Unit::default();
    let mut blocks = 0;
    for version in [Version::Lua51, Version::Lua53, Version::Lua54, Version::Lua55, Version::Luau] {
        let mut random = Random::new(version as u64 + 1);
        let dialect = if version == Version::Luau { Dialect::Luau } else { Dialect::Lua };
        for _ in 0..400 {
            let size = 10 + random.below(60);
            let source = text(&script(&mut random, version, size));
            let made = all_calls(source.as_bytes(), dialect, &mut unit);
            blocks +=
                made.unwrap_or_else(|| panic!("{:?}\n{source}", parse(source.as_bytes(), dialect)));
        }
    }
    assert!(blocks > 4_000, "{blocks}");
}

/// Luau reads what Lua 5.1 does, and gives the same sheets.
#[test]
fn scripts_of_5_1_mean_the_same_in_luau() {
    let mut random = Random::new(51);
    for _ in 0..200 {
        let source = text(&script(&mut random, Version::Lua51, 40));
        let sheets = |dialect| -> Vec<_> {
            let made = common::exported(&source, dialect);
            made.into_iter().map(|sheet| sheet.map(|made| (made.sheet, made.uses))).collect()
        };
        assert_eq!(sheets(Dialect::Lua), sheets(Dialect::Luau), "{source}");
    }
}

/// Takes bytes away, doubles, swaps or makes some, or cuts the rest off.
fn damage(source: &mut Vec<u8>, random: &mut Random) {
    const BYTES: &[u8] = b"()[]{}\"'`\\-=~<>:;,.#&|%^\n\r\0\x80\xffaeEpPxX0189_ ";
    let at = random.below(source.len());
    let end = (at + 1 + random.below(8)).min(source.len());
    match random.below(6) {
        0 => {
            source.drain(at..end);
        }
        1 => {
            let taken = source[at..end].to_vec();
            let to = random.below(source.len());
            source.splice(to..to, taken);
        }
        2 => source.insert(at, random.pick(BYTES)),
        3 if at < source.len() => source[at] = random.pick(BYTES),
        4 if at < source.len() => source[at] ^= 1 << random.below(8),
        _ if random.chance(10) => source.truncate(at),
        _ => {}
    }
}

#[test]
fn damaged_scripts_never_panic() {
    let mut unit = Unit::default();
    let mut random = Random::new(7);
    let kept = kept_scripts();
    let mut parsed = 0;
    // WALDIMU_FUZZ asks for another number of scripts.
    let count = std::env::var("WALDIMU_FUZZ").map_or(6_000, |text| text.parse().expect("a number"));
    for number in 0..count {
        let mut source = if number % 2 == 0 {
            kept[random.below(kept.len())].1.clone().into_bytes()
        } else {
            let version =
                random.pick(&[Version::Lua51, Version::Lua54, Version::Lua55, Version::Luau]);
            text(&script(&mut random, version, 20)).into_bytes()
        };
        for _ in 0..=random.below(4) {
            damage(&mut source, &mut random);
        }
        let dialect = if random.chance(50) { Dialect::Lua } else { Dialect::Luau };
        parsed += usize::from(all_calls(&source, dialect, &mut unit).is_some());
    }
    assert!(parsed > count / 20 && parsed < count * 19 / 20, "{parsed} of {count} parse");
}

/// Bytes without any sense, and tokens without any order.
#[test]
fn nonsense_never_panics() {
    let mut unit = Unit::default();
    let mut random = Random::new(8);
    const WORDS: &[&str] = &[
        "local", "x", "=", "function", "(", ")", "end", "if", "then", "else", "elseif", "while",
        "do", "for", "in", ",", "repeat", "until", "return", "break", "goto", "::", "{", "}", "[",
        "]", "...", "'s'", "1", "+", "-", "not", ".", ":", ";", "global", "*", "<", ">", "const",
        "type", "continue", "`a{", "}b`", "+=", "?", "->", "|", "&", "@", "<<", ">>", "[[", "]]",
        "--", "--[[", "\n", "error",
    ];
    for _ in 0..3_000 {
        let bytes: Vec<u8> = (0..random.below(40)).map(|_| random.next() as u8).collect();
        let words: Vec<&str> = (0..random.below(30)).map(|_| random.pick(WORDS)).collect();
        for dialect in [Dialect::Lua, Dialect::Luau] {
            all_calls(&bytes, dialect, &mut unit);
            all_calls(words.join(" ").as_bytes(), dialect, &mut unit);
        }
    }
}

/// Labels and gotos in blocks of every kind: the tree's faults and the library's answer go together.
#[test]
fn faults_of_labels_are_the_librarys() {
    const BLOCKS: [(&str, &str); 5] = [
        ("do", "end"),
        ("while x do", "end"),
        ("repeat", "until x"),
        ("for i = 1, 2 do", "end"),
        ("if x then f() else", "end"),
    ];
    let mut unit = Unit::default();
    let mut random = Random::new(10);
    let mut fitting = 0;
    let count = 2_000;
    for _ in 0..count {
        let mut words = Vec::new();
        let mut open = Vec::new();
        for _ in 0..random.below(12) {
            match random.below(5) {
                0 => {
                    let (start, end) = random.pick(&BLOCKS);
                    words.push(start);
                    open.push(end);
                }
                1 => words.extend(open.pop()),
                2 | 3 => words.push(random.pick(&["::a::", "::b::", "::c::"])),
                _ => words.push(random.pick(&["goto a", "goto b"])),
            }
        }
        words.extend(open.into_iter().rev());
        let source = words.join(" ");
        assert_eq!(all_calls(source.as_bytes(), Dialect::Lua, &mut unit), Some(1), "{source}");
        fitting += usize::from(labels(source.as_bytes(), Dialect::Lua).expect("a script").fit);
    }
    assert!(fitting > count / 10 && fitting < count * 9 / 10, "{fitting} of {count} fit");
}

/// Nesting beyond the limit is an error and no overflow; long chains are no nesting.
#[test]
fn deep_and_long_scripts() {
    let mut unit = Unit::default();
    for (open, close) in [
        ("(", ")"),
        ("{", "}"),
        ("f(", ")"),
        ("x[", "]"),
        ("- ", ""),
        ("1 .. ", ""),
        ("2 ^ ", ""),
        ("function() return ", " end"),
    ] {
        let nested = |depth| format!("x = {}1{}", open.repeat(depth), close.repeat(depth));
        assert!(all_calls(nested(190).as_bytes(), Dialect::Lua, &mut unit).is_some(), "{open}");
        assert!(all_calls(nested(100_000).as_bytes(), Dialect::Lua, &mut unit).is_none(), "{open}");
    }
    for open in ["do ", "while x do ", "repeat ", "if x then ", "function f() ", "for i = 1, 2 do "]
    {
        assert!(all_calls(open.repeat(100_000).as_bytes(), Dialect::Lua, &mut unit).is_none());
    }
    for (open, close) in [("{", "}"), ("(", ") -> ()"), ("t<", ">")] {
        let nested = |depth| format!("type x = {}t{}", open.repeat(depth), close.repeat(depth));
        assert!(all_calls(nested(190).as_bytes(), Dialect::Luau, &mut unit).is_some(), "{open}");
        assert!(
            all_calls(nested(100_000).as_bytes(), Dialect::Luau, &mut unit).is_none(),
            "{open}"
        );
    }
    for link in [".x", "()", "[1]", ":m()", "'s'"] {
        let source = format!("local x = y{}", link.repeat(100_000));
        assert!(all_calls(source.as_bytes(), Dialect::Lua, &mut unit).is_some(), "{link}");
    }
    let sum = format!("local x = 1{}", " + 1".repeat(100_000));
    assert!(all_calls(sum.as_bytes(), Dialect::Lua, &mut unit).is_some());
}

/// A picture of every generated graph is well formed as far as its tags go.
#[test]
fn pictures_are_drawn() {
    let mut unit = Unit::default();
    let mut random = Random::new(9);
    for _ in 0..40 {
        let source = text(&script(&mut random, Version::Lua54, 40));
        let lines = Lines::new(source.as_bytes());
        for exported in common::exported(&source, Dialect::Lua).into_iter().flatten() {
            let drawn = svg(&exported, &lines, "a < b", &mut unit).expect("admitted");
            assert!(drawn.starts_with("<svg ") && drawn.ends_with("</svg>\n"));
            assert!(drawn.contains("<title>a &lt; b</title>"));
            let nodes = unit.chart(&exported.sheet.words()).expect("admitted").nodes;
            assert_eq!(drawn.matches("height=\"26\"").count(), nodes.len());
            assert_eq!(drawn.matches("<text").count(), drawn.matches("</text>").count());
        }
    }
}
