//! Whether the code at a place can run.

use crate::check::Reason;
use crate::exporter::Exporter;
use crate::library;
use crate::parser::parse;
use crate::resolver::{FunctionBlock, resolve};
use crate::token::{Dialect, Span, SyntaxError};

#[derive(Debug, Clone, Copy, PartialEq, Eq)]
pub enum Answer {
    CanRun,
    /// As `CanRun`, but no code follows in the place's function.
    PastAllCode,
    /// No path of the place's own function leads there.
    CannotRun,
    /// The place stands in a function whose definition cannot run.
    NeverDefined(Span),
    /// A function that had to be asked could not be checked.
    Unknown(Span, Reason),
}

/// What the sheet of the place's function says, and those of the functions around it.
///
/// # Errors
///
/// Where the text is no script of the dialect.
pub fn can_run(source: &[u8], dialect: Dialect, offset: u32) -> Result<Answer, SyntaxError> {
    let block = parse(source, dialect)?;
    let resolved = resolve(source, dialect, &block);
    let exporter = Exporter::new(source, &resolved);
    let functions = &resolved.function_blocks;
    let innermost = innermost(functions, offset);
    let mut answer = Answer::CanRun;
    let (mut number, mut at) = (innermost, offset);
    loop {
        let function = &functions[number];
        let place = exporter
            .export(function)
            .map_err(Reason::Limit)
            .and_then(|made| library::run(&made.sheet.words(), at).map_err(Reason::Refused));
        match place {
            Err(reason) => return Ok(Answer::Unknown(function.span, reason)),
            Ok(place) if !place.can_run && number == innermost => return Ok(Answer::CannotRun),
            Ok(place) if !place.can_run => return Ok(Answer::NeverDefined(Span::new(at, at))),
            Ok(place) if place.node.is_none() && number == innermost => {
                answer = Answer::PastAllCode
            }
            Ok(_) => {}
        }
        if number == 0 {
            return Ok(answer);
        }
        (number, at) = (function.parent, function.span.start);
    }
}

/// The last function that holds the offset in its body: one inside another comes behind it.
fn innermost(functions: &[FunctionBlock<'_>], offset: u32) -> usize {
    let holds = |function: &FunctionBlock<'_>| {
        let span = function.block.span;
        span.start <= offset && offset < span.end
    };
    functions.iter().rposition(holds).unwrap_or(0)
}
