//! The label check, and the places where it fails. Yes or no is the
//! library's answer; the places are found in the tree.

use crate::ast::{Block, NamedJump, Statement};
use crate::check::{Reason, Unchecked};
use crate::exporter::{Exported, Exporter};
use crate::library;
use crate::parser::parse;
use crate::resolver::{FunctionBlock, resolve};
use crate::sheet::Kind;
use crate::token::{Dialect, Span, SyntaxError};

#[derive(Debug, Clone, Copy, PartialEq, Eq)]
pub struct LabelFault {
    /// The goto, or the later of two labels.
    pub span: Span,
    pub name: Span,
    /// The label that has the name already, or none for a goto that finds no label.
    pub repeats: Option<Span>,
}

#[derive(Debug, Clone, PartialEq, Eq, Default)]
pub struct LabelReport {
    /// What the library says of all blocks that it took.
    pub fit: bool,
    pub faults: Vec<LabelFault>,
    pub unchecked: Vec<Unchecked>,
    pub functions: usize,
}

/// # Errors
///
/// Where the text is no script of the dialect.
pub fn labels(source: &[u8], dialect: Dialect) -> Result<LabelReport, SyntaxError> {
    let block = parse(source, dialect)?;
    let resolved = resolve(source, dialect, &block);
    let exporter = Exporter::new(source, &resolved);
    let functions = resolved.function_blocks.len();
    let mut report = LabelReport { fit: true, functions, ..LabelReport::default() };
    for (number, function) in resolved.function_blocks.iter().enumerate() {
        let answer = exporter
            .export(function)
            .map_err(Reason::Limit)
            .and_then(|exported| labels_fit(&exported).map_err(Reason::Refused));
        match answer {
            Ok(true) => {}
            Ok(false) => {
                report.fit = false;
                report.faults.extend(faults(source, function));
            }
            Err(reason) => report.unchecked.push(Unchecked::new(number, function, reason)),
        }
    }
    report.faults.sort_by_key(|fault| fault.span);
    Ok(report)
}

/// What the library says; a sheet without labels and gotos need not be asked about.
///
/// # Errors
///
/// The number with which the library refuses.
pub fn labels_fit(exported: &Exported) -> Result<bool, library::Refusal> {
    let has_any =
        exported.sheet.items.iter().any(|item| matches!(item.kind, Kind::Label | Kind::Goto));
    if has_any { library::label_check(&exported.sheet.words()) } else { Ok(true) }
}

/// Labels twice in a block, and gotos that find none in the blocks around them.
#[must_use]
pub fn faults(source: &[u8], function: &FunctionBlock<'_>) -> Vec<LabelFault> {
    let mut finder = Finder { source, visible: Vec::new(), faults: Vec::new() };
    finder.block(function.block);
    finder.faults
}

struct Finder<'source> {
    source: &'source [u8],
    /// The labels of the blocks around this place, the innermost last.
    visible: Vec<Span>,
    faults: Vec<LabelFault>,
}

impl Finder<'_> {
    fn is_same(&self, one: Span, other: Span) -> bool {
        one.text(self.source) == other.text(self.source)
    }

    fn block(&mut self, block: &Block) {
        let outer_count = self.visible.len();
        for stmt in &block.stmts {
            if let Statement::Label(label) = stmt {
                self.label(label, outer_count);
            }
        }
        for stmt in &block.stmts {
            self.stmt(stmt);
        }
        self.visible.truncate(outer_count);
    }

    fn label(&mut self, label: &NamedJump, outer_count: usize) {
        let name = label.name.span;
        let before = self.visible[outer_count..].iter().find(|seen| self.is_same(**seen, name));
        if let Some(repeats) = before.copied() {
            self.faults.push(LabelFault { span: label.span, name, repeats: Some(repeats) });
        }
        self.visible.push(name);
    }

    fn stmt(&mut self, stmt: &Statement) {
        match stmt {
            Statement::Goto(node) => {
                let name = node.name.span;
                if !self.visible.iter().any(|seen| self.is_same(*seen, name)) {
                    self.faults.push(LabelFault { span: node.span, name, repeats: None });
                }
            }
            Statement::DoBlock(node) => self.block(&node.block),
            Statement::WhileLoop(node) => self.block(&node.block),
            Statement::RepeatLoop(node) => self.block(&node.block),
            Statement::NumericFor(node) => self.block(&node.block),
            Statement::GenericFor(node) => self.block(&node.block),
            Statement::IfStatement(node) => {
                self.block(&node.block);
                for clause in &node.elseif_clauses {
                    self.block(&clause.block);
                }
                if let Some(clause) = &node.else_clause {
                    self.block(&clause.block);
                }
            }
            _ => {}
        }
    }
}
