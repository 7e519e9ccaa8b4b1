//! What the library finds in a script, by place.

use crate::exporter::{Exported, Exporter, Limit};
use crate::labels::{LabelFault, faults, labels_fit};
use crate::library::{self, Refusal, Unit};
use crate::parser::parse;
use crate::resolver::{FunctionBlock, Resolved, resolve};
use crate::token::{Dialect, Span, SyntaxError};

#[derive(Debug, Clone, Copy, PartialEq, Eq)]
pub enum FindingKind {
    /// The local is read while it has no value.
    Unassigned,
    /// The value written here is overwritten and never read.
    Overwritten,
    /// The value of the declaration is overwritten and never read.
    OverwrittenInitial,
}

#[derive(Debug, Clone, Copy, PartialEq, Eq)]
pub struct Finding {
    pub kind: FindingKind,
    /// The read, the write, or the name in the declaration.
    pub span: Span,
    /// The name in the declaration.
    pub declared: Span,
    /// Which function's sheet it comes from; 0 is the script itself.
    pub function: usize,
}

/// A block that could not be checked.
#[derive(Debug, Clone, Copy, PartialEq, Eq)]
pub struct Unchecked {
    pub function: usize,
    pub name: Option<Span>,
    pub span: Span,
    pub reason: Reason,
}

#[derive(Debug, Clone, Copy, PartialEq, Eq)]
pub enum Reason {
    Limit(Limit),
    /// The library refused what was exported, which is a fault of the exporter.
    Refused(Refusal),
}

impl std::fmt::Display for Reason {
    fn fmt(&self, f: &mut std::fmt::Formatter<'_>) -> std::fmt::Result {
        match self {
            Self::Limit(limit) => limit.fmt(f),
            Self::Refused(refusal) => write!(f, "its sheet is {refusal}"),
        }
    }
}

#[derive(Debug, Clone, PartialEq, Eq, Default)]
pub struct Report {
    /// In the order of the text.
    pub findings: Vec<Finding>,
    /// Labels that no Lua would compile: the findings rest on a graph without them.
    pub label_faults: Vec<LabelFault>,
    pub unchecked: Vec<Unchecked>,
    /// How many blocks the script has, checked or not.
    pub functions: usize,
}

/// Checks the script's own block and the body of every function.
///
/// # Errors
///
/// Where the text is no script of the dialect.
pub fn check(source: &[u8], dialect: Dialect, unit: &mut Unit) -> Result<Report, SyntaxError> {
    let block = parse(source, dialect)?;
    let resolved = resolve(source, dialect, &block);
    let exporter = Exporter::new(source, &resolved);
    let mut report = Report { functions: resolved.function_blocks.len(), ..Report::default() };
    for (number, function) in resolved.function_blocks.iter().enumerate() {
        let exported = exporter.export(function).map_err(Reason::Limit);
        let found = exported.and_then(|exported| {
            if !labels_fit(&exported).map_err(Reason::Refused)? {
                report.label_faults.extend(faults(source, function));
            }
            judge(&exported, &resolved, number, unit)
        });
        match found {
            Ok(findings) => report.findings.extend(findings),
            Err(reason) => report.unchecked.push(Unchecked::new(number, function, reason)),
        }
    }
    report.findings.sort_by_key(|finding| finding.span);
    report.label_faults.sort_by_key(|fault| fault.span);
    Ok(report)
}

impl Unchecked {
    #[must_use]
    pub fn new(number: usize, function: &FunctionBlock<'_>, reason: Reason) -> Self {
        Self { function: number, name: function.name, span: function.span, reason }
    }
}

fn judge(
    exported: &Exported,
    resolved: &Resolved<'_, '_>,
    function: usize,
    unit: &mut Unit,
) -> Result<Vec<Finding>, Reason> {
    let found =
        unit.judge(&exported.sheet.words(), &exported.uses.words()).map_err(Reason::Refused)?;
    let declared = |local: usize| resolved.tree.symbol(exported.symbols[local]).definition_span;
    let used = |number: usize| exported.uses.uses[number].span;
    let finding = |found: library::Finding| match found {
        library::Finding::Unassigned { local, use_number } => {
            (FindingKind::Unassigned, used(use_number), local)
        }
        library::Finding::OverwrittenWrite { local, use_number } => {
            (FindingKind::Overwritten, used(use_number), local)
        }
        library::Finding::OverwrittenInitial { local } => {
            (FindingKind::OverwrittenInitial, declared(local), local)
        }
    };
    let placed = found.into_iter().map(finding);
    Ok(placed
        .map(|(kind, span, local)| Finding { kind, span, declared: declared(local), function })
        .collect())
}
