//! Stored answers: written here, replayed by a program without Rust at hand.
//! `STORED.md` describes the layout.

use std::fs;
use std::path::Path;

use crate::answers::*;
use crate::draft::Made;
use crate::random::Random;
use crate::run::{Tally, check as check_case, expected};
use crate::{cases, limits, luck_side, pieces, plain_text, shapes, short};

const SEED: u64 = 20_250_101;

fn piece_cases() -> Vec<Case> {
    pieces::PIECES.iter().map(|(_, source)| plain_text::parse(source).0.case()).collect()
}

/// Limits, every sequence of up to two kinds, and random small cases.
fn small_cases() -> Vec<Made> {
    let mut all = limits::all();
    all.retain(|made| made.case.sheet.len() < 400 && made.case.uses.len() < 400);
    for length in 1..=2 {
        short::each(length, |made| {
            if length == 1 || made.judge == 0 {
                all.push(made);
            }
        });
    }
    let mut random = Random::new(SEED);
    let mut of_number = [0; 9];
    while of_number.iter().sum::<u32>() < 480 {
        let made = cases::any_pair(&mut random);
        let wanted = if made.judge == 0 { 200 } else { 40 };
        let is_small = made.case.sheet.len() < 140 && made.case.uses.len() < 140;
        if is_small && made.case.spare.is_empty() && of_number[made.judge as usize] < wanted {
            of_number[made.judge as usize] += 1;
            all.push(made);
        }
    }
    all
}

fn large_cases() -> Vec<Made> {
    let mut random = Random::new(SEED);
    let mut all = limits::all();
    all.retain(|made| made.case.sheet.len() >= 400 || made.case.uses.len() >= 400);
    all.push(shapes::nested(&mut random));
    all.push(shapes::for_loops(&mut random));
    all.push(shapes::many_names(&mut random));
    all.push(shapes::many_findings(&mut random));
    while all.len() < 16 {
        let made = shapes::large(&mut random);
        if made.case.sheet.len() > 1200 && made.case.uses.len() > 300 {
            all.push(made);
        }
    }
    all
}

/// The words of one case, without the length that stands before them.
fn words_of(case: &Case) -> Vec<u64> {
    let answers = expected(case);
    let refusal = |number: Option<&u64>| number.copied().unwrap_or(0);
    let mut words = Vec::new();
    let list = |words: &mut Vec<u64>, cells: &[u64]| {
        words.push(cells.len() as u64);
        words.extend(cells);
    };
    list(&mut words, &case.sheet);
    list(&mut words, &case.uses);
    words.push(refusal(answers.chart.as_ref().err()));
    words.push(refusal(answers.judge.as_ref().err()));
    words.push(answers.labels.map_or_else(|number| number, u64::from));
    if answers.chart.is_ok() {
        let uses: &[u64] = if answers.judge.is_ok() { &case.uses } else { &[0] };
        let flow = luck::flow_of(&case.sheet, uses);
        let runs: Vec<[u64; 3]> = answers
            .runs
            .iter()
            .map(|(offset, _)| {
                let (node, can_run) = flow.run(*offset);
                [u64::from(*offset), node.unwrap_or(ABSENT), u64::from(can_run)]
            })
            .collect();
        let judged = luck_side::judgement_of(flow);
        words.extend(judged.chart.counts());
        words.extend(judged.chart.columns().iter().flat_map(|(_, cells)| cells.iter()));
        words.push(runs.len() as u64);
        words.extend(runs.as_flattened());
        if answers.judge.is_ok() {
            list(&mut words, &judged.finding_word);
            words.extend(&judged.finding_span);
        }
    }
    words
}

fn file_of(cases: impl Iterator<Item = Case>) -> (Vec<u8>, usize) {
    let mut bytes = Vec::new();
    let mut count = 0;
    for case in cases {
        let words = words_of(&case);
        bytes.extend((words.len() as u64).to_le_bytes());
        bytes.extend(words.iter().flat_map(|word| word.to_le_bytes()));
        count += 1;
    }
    (bytes, count)
}

fn files() -> Result<[(&'static str, Vec<u8>, usize); 3], String> {
    let mut tally = Tally::default();
    let mut luck: [Box<dyn Side>; 1] = [Box::new(luck_side::Luck)];
    let (small, large) = (small_cases(), large_cases());
    for made in small.iter().chain(&large) {
        check_case(made, &mut luck, &mut tally)?;
    }
    let file = |name, (bytes, count)| (name, bytes, count);
    Ok([
        file("pieces.bin", file_of(piece_cases().into_iter())),
        file("small.bin", file_of(small.into_iter().map(|made| made.case))),
        file("large.bin", file_of(large.into_iter().map(|made| made.case))),
    ])
}

pub fn write(folder: &Path) -> Result<(), String> {
    for (name, bytes, count) in files()? {
        let length = bytes.len();
        fs::write(folder.join(name), bytes).map_err(|fault| format!("{name}: {fault}"))?;
        println!("{name}: {count} cases, {length} bytes");
    }
    Ok(())
}

/// The stored files are those that would be written now.
pub fn check(folder: &Path) -> Result<(), String> {
    for (name, bytes, count) in files()? {
        let stored = fs::read(folder.join(name)).map_err(|fault| format!("{name}: {fault}"))?;
        if stored != bytes {
            return Err(format!("{name} is not what luck answers now"));
        }
        println!("{name}: {count} cases hold");
    }
    Ok(())
}
