//! Sheets as plain text, in the form that `sheet.py` describes.

use crate::draft::{Draft, scope};

const KINDS: &str = "do while repeat for if elseif else end until local name label goto \
                     break continue return call plain empty";
const CONDITIONS: &str = "nil false true number integer string interpolated table function \
                          vararg var call parenthesized binary unary ifexpression cast \
                          instantiation error";

fn place_in(words: &str, word: &str) -> Option<u64> {
    words.split_whitespace().position(|known| known == word).map(|place| place as u64)
}

fn number(word: &str) -> u64 {
    word.parse().unwrap_or_else(|_| panic!("no number: {word}"))
}

fn span(word: &str) -> u64 {
    let (start, end) = word.split_once('-').unwrap_or_else(|| panic!("no span: {word}"));
    number(start) + (number(end) << 32)
}

fn flags(letters: &str) -> u64 {
    letters
        .chars()
        .map(|letter| match letter {
            'u' => 1,
            'm' => 2,
            'c' => 4,
            _ => 0,
        })
        .sum()
}

/// The pair of sheets, and the text behind the lines that begin with `=`.
pub fn parse(text: &str) -> (Draft, String) {
    let mut draft = Draft::default();
    let mut printed = String::new();
    for line in text.lines() {
        if let Some(rest) = line.strip_prefix("= ") {
            printed += &format!("{rest}\n");
            continue;
        }
        let line = line.split('#').next().unwrap_or_default();
        let fields: Vec<&str> = line.split_whitespace().collect();
        match fields.as_slice() {
            [] => {}
            ["outer", end] => draft.outer_end = number(end),
            ["use", how, local, place] => {
                let kind = place_in("read write readwrite", how.trim_end_matches('^'));
                let high = kind.expect("a kind of use") + if how.ends_with('^') { 4 } else { 0 };
                draft.uses.push((number(local) + 65_536 * high, span(place)));
            }
            [kind, rest @ ..] => {
                let code = 1 + place_in(KINDS, kind).unwrap_or_else(|| panic!("no item: {kind}"));
                let (argument, place) = match (code, rest) {
                    (1 | 7, [end]) => (scope(0, number(end)), 0),
                    (2, [condition, end, place]) => (scoped(condition, end), span(place)),
                    (3, [condition, end]) => (scoped(condition, end), 0),
                    (4..=6, [end, place]) => (scope(0, number(end)), span(place)),
                    (8 | 19, []) => (0, 0),
                    (10, ["...", place]) => (65_535, span(place)),
                    (11, [letters, place]) => (flags(letters), span(place)),
                    (9 | 14 | 15 | 18, [place]) => (0, span(place)),
                    (10 | 12 | 13 | 16 | 17, [argument, place]) => (number(argument), span(place)),
                    _ => panic!("not an item: {line}"),
                };
                draft.items.push((code + 256 * argument, place));
            }
        }
    }
    (draft, printed)
}

fn scoped(condition: &str, end: &str) -> u64 {
    let code = place_in(CONDITIONS, condition).unwrap_or_else(|| number(condition));
    scope(code, number(end))
}
