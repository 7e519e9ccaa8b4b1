//! The program `waldimu`.

mod commands;
mod options;
mod progress;

use std::io::{self, BufWriter, ErrorKind, Write};
use std::process::ExitCode;

use options::{Command, Options};

const USAGE: &str = "\
usage: waldimu check [--json] [--marks] [--luau] FILE|FOLDER|- ..
       waldimu sheet [--text] [--function N] [--luau] FILE
       waldimu graph [--function N] [--luau] FILE
       waldimu labels [--json] [--marks] [--luau] FILE|FOLDER|- ..
       waldimu run [--luau] FILE LINE[:COLUMN]

check   says which locals are read while they have no value, and which values are
        overwritten and never read, by file, line and column
sheet   writes the sheets of a script one behind the other, as words or, with --text, as
        text; flowlist reads the words of one: --function N
graph   draws the flow graph of a script, or of its function N, as SVG
labels  says which gotos find no label, and which labels stand twice in a block
run     says whether the code at a place can run

--json   one object a line            --marks  the source line, with marks below the name
--luau   read Luau, which files ending in .luau are without it
-        standard input               Functions count from 1, and 0 is the script itself.

Status: 0 nothing found (run: can run), 1 findings (run: cannot run), 2 could not be checked.
";

/// What a command ends with.
#[derive(Debug, Clone, Copy, PartialEq, Eq, PartialOrd, Ord)]
enum Status {
    Clean = 0,
    Findings = 1,
    Unchecked = 2,
}

fn main() -> ExitCode {
    let options = match Options::parse(std::env::args_os().skip(1)) {
        Ok(options) => options,
        Err(message) => {
            tell(&format!("waldimu: {message}\n{USAGE}"));
            return ExitCode::from(Status::Unchecked as u8);
        }
    };
    let mut out = BufWriter::new(io::stdout().lock());
    let ended = run(&options, &mut out).and_then(|status| out.flush().map(|()| status));
    match ended {
        Ok(status) => ExitCode::from(status as u8),
        Err(error) => {
            // Who reads no further wants no message.
            if error.kind() != ErrorKind::BrokenPipe {
                tell(&format!("waldimu: {error}\n"));
            }
            ExitCode::from(Status::Unchecked as u8)
        }
    }
}

/// Writes to standard error. Where that is closed or full, the status alone has to say it.
fn tell(words: &str) {
    let _ = io::stderr().write_all(words.as_bytes());
}

fn run(options: &Options, out: &mut impl Write) -> io::Result<Status> {
    match &options.command {
        Command::Help => {
            out.write_all(USAGE.as_bytes())?;
            Ok(Status::Clean)
        }
        Command::Check => commands::check(options, out),
        Command::Labels => commands::labels(options, out),
        Command::Sheet => commands::sheet(options, out),
        Command::Graph => commands::graph(options, out),
        Command::Run(place) => commands::run(options, *place, out),
    }
}
