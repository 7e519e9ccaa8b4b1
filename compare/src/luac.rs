//! A second judge of the label check: Lua's own compiler. A script of labels,
//! gotos and blocks without a local compiles in Lua 5.2 and 5.3 exactly when
//! the label check says yes.

use std::io::{ErrorKind, Write};
use std::process::{Command, Stdio};

use crate::admitted::{Shape, admitted};
use crate::draft::*;
use crate::random::Random;
use crate::reading::Reading;

const LABELS: Shape = Shape {
    items: 16,
    depth: 5,
    blocks: 45,
    labels: 45,
    gotos: 60,
    locals: 0,
    uses: 0,
    label_names: 6,
};

/// Items that no Lua script has get another that makes no difference to
/// labels: `continue`, names without identifier, `break` outside a loop.
fn speakable(draft: &mut Draft) {
    let mut loops = Vec::new();
    for item in &mut draft.items {
        match kind_of(*item) {
            kind @ 1..=5 => loops.push(matches!(kind, 2..=4)),
            8 | 9 => {
                loops.pop();
            }
            12 if argument_of(*item) == 0 => *item = line(19, 0, 0, 0),
            13 if argument_of(*item) == 0 => item.0 = 13 + 256 * 65_535,
            14 if !loops.contains(&true) => item.0 = 18,
            15 => item.0 = 16,
            _ => {}
        }
    }
}

fn script(draft: &Draft) -> String {
    let text = |item: &Line| {
        let argument = argument_of(*item);
        match kind_of(*item) {
            1 => "do".to_owned(),
            2 => "while f() do".to_owned(),
            3 => "repeat".to_owned(),
            4 => "for i = 1, 2 do".to_owned(),
            5 => "if f() then".to_owned(),
            6 => "elseif f() then".to_owned(),
            7 => "else".to_owned(),
            8 => "end".to_owned(),
            9 => "until f()".to_owned(),
            12 => format!("::l{argument}::"),
            13 => format!("goto l{argument}"),
            14 => "break".to_owned(),
            16 => "return".to_owned(),
            17 | 18 => "f()".to_owned(),
            _ => ";".to_owned(),
        }
    };
    draft.items.iter().map(text).collect::<Vec<_>>().join("\n")
}

fn compiles(program: &str, script: &str) -> std::io::Result<bool> {
    let mut child = Command::new(program)
        .args(["-p", "-"])
        .stdin(Stdio::piped())
        .stdout(Stdio::null())
        .stderr(Stdio::null())
        .spawn()?;
    child.stdin.take().expect("a piped input").write_all(script.as_bytes())?;
    Ok(child.wait()?.success())
}

pub fn check(program: &str, pairs: u64, seed: u64) -> Result<(), String> {
    let mut random = Random::new(seed);
    let mut fitting = 0;
    for number in 0..pairs {
        let made = admitted(&mut random, LABELS);
        let mut draft = Draft::of_case(&made.case).expect("an admitted case");
        speakable(&mut draft);
        let script = script(&draft);
        let answer = Reading::PLAIN.label_check(&draft.case().sheet);
        let accepts = match compiles(program, &script) {
            Ok(accepts) => accepts,
            Err(fault) if number == 0 && fault.kind() == ErrorKind::NotFound => {
                println!("{program} is not installed: labels not compared with it");
                return Ok(());
            }
            Err(fault) => return Err(format!("{program}: {fault}")),
        };
        if answer != Ok(accepts) {
            return Err(format!("label check {answer:?}, {program} accepts: {accepts}\n{script}"));
        }
        fitting += u64::from(accepts);
    }
    println!("{program}: {pairs} scripts agree with the label check, {fitting} of them compile");
    Ok(())
}
