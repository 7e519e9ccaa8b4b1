//! Compares luck's own Rust, a plain reading of document 01 and, where it is
//! at hand, the Rattle side. `README.md` describes the commands.

mod admitted;
mod answers;
mod bench;
mod cases;
mod chains;
mod damage;
mod draft;
mod flowlist;
mod lent;
#[cfg(library)]
mod library;
mod limits;
mod luac;
mod luck_side;
mod pieces;
mod plain_text;
mod random;
mod reading;
mod reading_lends;
mod run;
mod scope_sheet;
mod shapes;
mod short;
mod shrink;
mod stored;
mod wrong;

use std::io::{Read, Write};
use std::process::ExitCode;

use answers::Side;
use random::Random;
use run::Tally;

struct Options(Vec<String>);

impl Options {
    fn text(&self, name: &str) -> Option<&str> {
        let at = self.0.iter().position(|option| option == name)?;
        self.0.get(at + 1).map(String::as_str)
    }

    fn number(&self, name: &str, otherwise: u64) -> u64 {
        self.text(name).map_or(otherwise, |text| text.parse().expect("a number"))
    }

    fn plain(&self) -> &str {
        self.0.first().map_or("", String::as_str)
    }
}

fn sides(options: &Options) -> Vec<Box<dyn Side>> {
    let mut sides: Vec<Box<dyn Side>> = vec![Box::new(luck_side::Luck)];
    #[cfg(library)]
    sides.push(Box::new(lent::Lender::new(library::Library)));
    if let Some(program) = options.text("--flowlist") {
        sides.push(Box::new(flowlist::Flowlist { program: program.into() }));
    }
    sides
}

fn tell(what: &str, sides: &[Box<dyn Side>], tally: &Tally, options: &Options) {
    let names: Vec<String> = sides.iter().map(|side| side.name()).collect();
    println!("{what}: {} pairs, no difference from {}", tally.pairs, names.join(", "));
    println!("  admitted {}, refused with 2 to 9: {:?}", tally.refused[0], &tally.refused[2..]);
    println!(
        "  findings: {} unassigned, {} overwritten; label check yes: {}; most nodes, uses, findings: {:?}",
        tally.findings[0], tally.findings[1], tally.labels_fit, tally.most
    );
    if options.0.iter().any(|option| option == "--shapes") {
        tally.shapes.iter().for_each(|(what, count)| println!("  {what}: {count}"));
    }
}

fn tell_scopes(tally: &Tally) {
    let scoped = &tally.scoped;
    println!(
        "  good scope sheets: {}, with a captured local {}; bits set {}, cleared {}, left {}; \
         lists changed: {}",
        scoped.pairs,
        scoped.captured,
        scoped.bits[0],
        scoped.bits[1],
        scoped.bits[2],
        scoped.other_lists
    );
    let ways: Vec<String> =
        tally.ways_into_9.iter().map(|(way, count)| format!("{way} {count}")).collect();
    println!("  ways into 9: {}", ways.join(", "));
    println!("  spoilt scope sheets beside 2 to 8: {:?}", &tally.before_9[2..]);
}

fn pairs(options: &Options) -> Result<(), String> {
    let mut sides = sides(options);
    let (count, seed) = (options.number("--pairs", 10_000), options.number("--seed", 1));
    let mut tally = Tally::default();
    for made in limits::all().into_iter().chain(limits::scopes()) {
        run::check(&made, &mut sides, &mut tally)?;
    }
    let mut random = Random::new(seed);
    for number in 0..count {
        let made = cases::any(&mut random);
        run::check(&made, &mut sides, &mut tally)
            .map_err(|what| format!("seed {seed}, pair {number}: {what}"))?;
    }
    tell(&format!("limits, and pairs of seed {seed}"), &sides, &tally, options);
    tell_scopes(&tally);
    tally.covers_9()
}

fn scopes(options: &Options) -> Result<(), String> {
    let (most, sheets) = (options.number("--scopes", 5), options.number("--sheets", 200));
    chains::check(most, sheets, options.number("--seed", 1))?;
    let mut sides = sides(options);
    let mut tally = Tally::default();
    chains::every_sheet(3, &mut sides, &mut tally)?;
    tell("every scope sheet of up to 3 scopes", &sides, &tally, options);
    Ok(())
}

fn every_short(options: &Options) -> Result<(), String> {
    let mut sides = sides(options);
    let (longest, uses) = (options.number("--length", 3), options.number("--uses", 0));
    let mut tally = Tally::default();
    for length in 0..=longest as usize {
        let mut outcome = Ok(());
        let take = |made| {
            if outcome.is_ok() {
                outcome = run::check(&made, &mut sides, &mut tally);
            }
        };
        match uses {
            0 => short::each(length, take),
            _ => short::each_with_uses(length, uses as u32, take),
        }
        outcome?;
    }
    tell(&format!("every sequence of up to {longest} kinds, uses {uses}"), &sides, &tally, options);
    Ok(())
}

fn print() -> Result<(), String> {
    let mut bytes = Vec::new();
    std::io::stdin().read_to_end(&mut bytes).map_err(|fault| fault.to_string())?;
    std::io::stdout().write_all(&luck_side::printed(&bytes)).map_err(|fault| fault.to_string())
}

/// luck's columns for a sheet and a use sheet on standard input.
fn columns() -> Result<(), String> {
    let mut bytes = Vec::new();
    std::io::stdin().read_to_end(&mut bytes).map_err(|fault| fault.to_string())?;
    let (sheet, uses) = reading::text::pair_of(&bytes).ok_or("bytes that make no word")?;
    reading::table::of_pair(&sheet, &uses).map_err(|number| format!("refused {number}"))?;
    for (name, cells) in luck_side::judgement_of(luck::flow_of(&sheet, &uses)).columns() {
        println!("{name}: {cells:?}");
    }
    Ok(())
}

fn words(file: &str) -> Result<(), String> {
    let text = std::fs::read_to_string(file).map_err(|fault| format!("{file}: {fault}"))?;
    let bytes = plain_text::parse(&text).0.case().bytes();
    std::io::stdout().write_all(&bytes).map_err(|fault| fault.to_string())
}

fn main() -> ExitCode {
    let mut arguments = std::env::args().skip(1);
    let command = arguments.next().unwrap_or_default();
    let options = Options(arguments.collect());
    let (count, seed) = (options.number("--pairs", 2000), options.number("--seed", 1));
    let outcome = match command.as_str() {
        "pieces" => {
            println!("{} pieces hold", pieces::check(&mut luck_side::Luck));
            Ok(())
        }
        "pairs" => pairs(&options),
        "short" => every_short(&options),
        "scopes" => scopes(&options),
        "wrong" => wrong::check(count, seed),
        "luac" => luac::check(options.plain(), count, seed),
        "store" => stored::write(options.plain().as_ref()),
        "stored" => stored::check(options.plain().as_ref()),
        "print" => print(),
        "columns" => columns(),
        "bench" => bench::command(&options),
        "words" => words(options.plain()),
        _ => Err("no such command; README.md describes them".to_owned()),
    };
    match outcome {
        Ok(()) => ExitCode::SUCCESS,
        Err(what) => {
            eprintln!("{what}");
            ExitCode::FAILURE
        }
    }
}
