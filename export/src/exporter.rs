//! From a resolved block to its sheet and its use sheet. docs/EXPORTING.md
//! says what a sheet expects of an exporter.

use std::collections::HashMap;
use std::fmt;

use crate::ast::*;
use crate::resolver::{FunctionBlock, Resolved};
use crate::scope::{
    Reference, ReferenceId, ReferenceKind, ScopeTree, Symbol, SymbolId, SymbolKind,
};
use crate::sheet::*;
use crate::text::grouped;
use crate::token::Span;

/// The sheets of one function body, and what their numbers stand for.
#[derive(Debug)]
pub struct Exported {
    pub sheet: Sheet,
    pub uses: UseSheet,
    /// The symbol of each local number.
    pub symbols: Vec<SymbolId>,
}

/// What a block has too much of for the unit.
#[derive(Debug, Clone, Copy, PartialEq, Eq)]
pub enum Limit {
    Items(usize),
    Uses(usize),
    Depth(usize),
}

impl fmt::Display for Limit {
    fn fmt(&self, f: &mut fmt::Formatter<'_>) -> fmt::Result {
        let (count, what, most) = match *self {
            Self::Items(count) => (count, "items", MOST_ITEMS),
            Self::Uses(count) => (count, "uses of locals that may be at fault", MOST_USES),
            Self::Depth(count) => (count, "blocks in each other", MOST_DEPTH),
        };
        write!(f, "{} {what}, and the unit takes {}", grouped(count), grouped(most))
    }
}

/// Locals by where they are defined, for the sheets of a whole script.
pub struct Exporter<'tree> {
    tree: &'tree ScopeTree<'tree>,
    source: &'tree [u8],
    locals: Vec<(u32, SymbolId)>,
}

impl<'tree> Exporter<'tree> {
    #[must_use]
    pub fn new(source: &'tree [u8], resolved: &'tree Resolved<'_, 'tree>) -> Self {
        let tree = &resolved.tree;
        let mut locals: Vec<(u32, SymbolId)> = tree
            .symbols
            .iter()
            .enumerate()
            .filter(|(_, symbol)| symbol.kind == SymbolKind::Local)
            .map(|(index, symbol)| (symbol.definition_span.start, SymbolId::from_index(index)))
            .collect();
        locals.sort_unstable();
        Self { tree, source, locals }
    }

    /// # Errors
    ///
    /// Where the block is beyond the unit's limits.
    pub fn export(&self, function: &FunctionBlock<'_>) -> Result<Exported, Limit> {
        let mut writer = SheetWriter {
            exporter: self,
            items: Vec::new(),
            symbols: Vec::new(),
            has_value: Vec::new(),
            labels: HashMap::new(),
            depth: 0,
            deepest: 0,
        };
        writer.block(function.block);
        let SheetWriter { mut items, symbols, has_value, deepest, .. } = writer;
        if items.len() > MOST_ITEMS {
            // The graph is the same without them.
            items.retain(|item| item.kind != Kind::Empty);
        }
        if items.len() > MOST_ITEMS {
            return Err(Limit::Items(items.len()));
        }
        if deepest > MOST_DEPTH {
            return Err(Limit::Depth(deepest));
        }
        let uses = self.uses(&symbols, &has_value)?;
        let sheet = Sheet { outer_end: function.block.span.end, items };
        Ok(Exported { sheet, uses, symbols })
    }

    /// All uses of the block's locals. Where those are too many, the uses of
    /// locals that no finding can name are left out: the lists of a local come
    /// from its own uses alone.
    fn uses(&self, symbols: &[SymbolId], has_value: &[bool]) -> Result<UseSheet, Limit> {
        let all = self.references_of(symbols.iter().copied().enumerate());
        let taken = if all.len() <= MOST_USES {
            all
        } else {
            let tracked =
                symbols.iter().copied().enumerate().filter(|(local, symbol)| {
                    is_tracked(self.tree.symbol(*symbol), has_value[*local])
                });
            self.references_of(tracked)
        };
        if taken.len() > MOST_USES {
            return Err(Limit::Uses(taken.len()));
        }
        let used = taken.iter().map(|(id, local)| self.used(symbols[*local], *local, *id));
        Ok(UseSheet { uses: used.collect() })
    }

    /// The references of some locals in the order of evaluation, each with its local's number.
    fn references_of(
        &self,
        locals: impl Iterator<Item = (usize, SymbolId)>,
    ) -> Vec<(ReferenceId, usize)> {
        let mut found = Vec::new();
        for (local, symbol) in locals {
            let ids = &self.tree.symbol(symbol).reference_ids;
            found.extend(ids.iter().map(|id| (*id, local)));
        }
        found.sort_unstable();
        found
    }

    fn used(&self, symbol: SymbolId, local: usize, id: ReferenceId) -> Use {
        let reference = self.tree.reference(id);
        let kind = match reference.kind {
            ReferenceKind::Read => UseKind::Read,
            ReferenceKind::Write => UseKind::Write,
            ReferenceKind::ReadWrite => UseKind::ReadWrite,
        };
        let scope = self.tree.symbol(symbol).scope;
        let is_crossing = self.tree.crosses_function_boundary(reference.scope, scope);
        Use { local, kind, is_crossing, span: reference.span }
    }

    fn symbol_at(&self, span: Span) -> SymbolId {
        let place = self.locals.binary_search_by_key(&span.start, |(start, _)| *start);
        self.locals[place.expect("the resolver declares every name of a LOCAL")].1
    }
}

/// Whether 01 tracks the local, so that a finding may name it.
fn is_tracked(symbol: &Symbol<'_>, has_value: bool) -> bool {
    let is_written = symbol.is_modified && !symbol.is_upvalue;
    !symbol.name.starts_with(b"_") && (!has_value || is_written)
}

struct SheetWriter<'exporter, 'tree> {
    exporter: &'exporter Exporter<'tree>,
    items: Vec<Item>,
    symbols: Vec<SymbolId>,
    /// For each local whether its LOCAL gives it a value.
    has_value: Vec<bool>,
    labels: HashMap<&'tree [u8], u64>,
    depth: usize,
    deepest: usize,
}

impl SheetWriter<'_, '_> {
    fn push(&mut self, kind: Kind, argument: u64, span: Span) {
        match kind {
            Kind::Do | Kind::While | Kind::Repeat | Kind::For | Kind::If => {
                self.depth += 1;
                self.deepest = self.deepest.max(self.depth);
            }
            Kind::End | Kind::Until => self.depth -= 1,
            _ => {}
        }
        self.items.push(Item { kind, argument, span });
    }

    fn end(&mut self) {
        self.push(Kind::End, 0, Span::default());
    }

    fn block(&mut self, block: &Block) {
        for stmt in &block.stmts {
            self.stmt(stmt);
        }
        match &block.last_stmt {
            Some(LastStatement::Return(node)) => {
                self.push(Kind::Return, u64::from(!node.exprs.is_empty()), node.span);
            }
            Some(LastStatement::Break(span)) => self.push(Kind::Break, 0, *span),
            Some(LastStatement::Continue(span)) => self.push(Kind::Continue, 0, *span),
            None => {}
        }
    }

    /// A header, from the statement's start to its body's, and the body.
    fn body(&mut self, kind: Kind, condition: u64, start: u32, block: &Block) {
        let argument = scope_argument(condition, block.span.end);
        self.push(kind, argument, Span::new(start, block.span.start));
        self.block(block);
    }

    fn stmt(&mut self, stmt: &Statement) {
        match stmt {
            Statement::FunctionCall(call) => self.call(call),
            Statement::LocalAssignment(node) => self.local(node),
            Statement::DoBlock(node) => {
                self.push(Kind::Do, scope_argument(0, node.block.span.end), Span::default());
                self.block(&node.block);
                self.end();
            }
            Statement::WhileLoop(node) => {
                let condition = condition_code(&node.condition);
                self.body(Kind::While, condition, node.span.start, &node.block);
                self.end();
            }
            Statement::RepeatLoop(node) => self.repeat_loop(node),
            Statement::IfStatement(node) => self.if_stmt(node),
            Statement::NumericFor(NumericFor { block, span, .. })
            | Statement::GenericFor(GenericFor { block, span, .. }) => {
                self.body(Kind::For, 0, span.start, block);
                self.end();
            }
            Statement::Goto(node) => self.jump(Kind::Goto, node),
            Statement::Label(node) => self.jump(Kind::Label, node),
            Statement::Break(span) => self.push(Kind::Break, 0, *span),
            Statement::EmptyStatement(_) => self.push(Kind::Empty, 0, Span::default()),
            Statement::Assignment(Assignment { span, .. })
            | Statement::FunctionDecl(FunctionDecl { span, .. })
            | Statement::LocalFunction(LocalFunction { span, .. })
            | Statement::GlobalDeclaration(GlobalDeclaration { span, .. })
            | Statement::GlobalFunction(GlobalFunction { span, .. })
            | Statement::CompoundAssignment(CompoundAssignment { span, .. })
            | Statement::GlobalStar(span)
            | Statement::TypeDeclaration(span) => self.push(Kind::Plain, 0, *span),
        }
    }

    /// The scope ends past the condition, which sees the body's locals.
    fn repeat_loop(&mut self, node: &RepeatLoop) {
        let condition = node.condition.span();
        let argument = scope_argument(condition_code(&node.condition), condition.end);
        self.push(Kind::Repeat, argument, Span::default());
        self.block(&node.block);
        self.push(Kind::Until, 0, condition);
    }

    fn if_stmt(&mut self, node: &IfStatement) {
        self.body(Kind::If, 0, node.span.start, &node.block);
        for clause in &node.elseif_clauses {
            self.body(Kind::Elseif, 0, clause.span.start, &clause.block);
        }
        if let Some(clause) = &node.else_clause {
            self.push(Kind::Else, scope_argument(0, clause.block.span.end), Span::default());
            self.block(&clause.block);
        }
        self.end();
    }

    fn local(&mut self, node: &LocalAssignment) {
        let value_count = match node.exprs.last() {
            Some(last) if is_multi_value(last) => MANY_VALUES,
            _ => (node.exprs.len() as u64).min(MANY_VALUES - 1),
        };
        self.push(Kind::Local, value_count, node.span);
        for (place, attributed) in node.names.iter().enumerate() {
            let id = self.exporter.symbol_at(attributed.name.span);
            let symbol = self.exporter.tree.symbol(id);
            let flags = u64::from(symbol.name.starts_with(b"_"))
                + 2 * u64::from(symbol.is_modified)
                + 4 * u64::from(symbol.is_upvalue);
            self.symbols.push(id);
            self.has_value.push(value_count == MANY_VALUES || (place as u64) < value_count);
            self.push(Kind::Name, flags, attributed.name.span);
        }
    }

    /// Labels are numbered from 1 by name, in the order of the text.
    fn jump(&mut self, kind: Kind, node: &NamedJump) {
        let name = node.name.span.text(self.exporter.source);
        let next = self.labels.len() as u64 + 1;
        let number = *self.labels.entry(name).or_insert(next);
        self.push(kind, number, node.span);
    }

    /// 1 method, and for a callee that is the bare name `error`: 2, 4 its span
    /// holds a reference, 8 resolved, 16 local `_ENV`, 32 `_ENV` assigned, 64
    /// `error` assigned. The call raises exactly when the sum is 6.
    fn call(&mut self, call: &FunctionCall) {
        let tree = self.exporter.tree;
        let is_method = u64::from(matches!(call.chain.links.last(), Some(Link::MethodCall(_))));
        let bits = self.bare_error(&call.chain).map_or(0, |reference| {
            6 + 8 * u64::from(reference.resolved.is_some())
                + 16 * u64::from(reference.env.is_some())
                + 32 * u64::from(tree.is_env_assigned)
                + 64 * u64::from(tree.assigned_globals.contains(b"error".as_slice()))
        });
        self.push(Kind::Call, bits + is_method, call.chain.span);
    }

    /// The reference of a callee that is the bare name `error`.
    fn bare_error(&self, chain: &Chain) -> Option<&Reference> {
        match (&chain.root, chain.links.len()) {
            (Expression::Var(Var::Name(token)), 1) => {
                self.exporter.tree.error_reference_at(token.span)
            }
            _ => None,
        }
    }
}

/// The number of what is left of a condition without its parentheses.
fn condition_code(condition: &Expression) -> u64 {
    match unwrap_parentheses(condition) {
        Expression::Nil(_) => 0,
        Expression::False(_) => 1,
        Expression::True(_) => 2,
        Expression::Number(_) => 3,
        Expression::Integer(_) => 4,
        Expression::StringLiteral(_) => 5,
        Expression::InterpolatedString(_) => 6,
        Expression::TableConstructor(_) => 7,
        Expression::FunctionDef(_) => 8,
        Expression::VarArg(_) => 9,
        Expression::Var(_) => 10,
        Expression::FunctionCall(_) => 11,
        Expression::Parenthesized(_) => 12,
        Expression::BinaryOp(_) => 13,
        Expression::UnaryOp(_) => 14,
        Expression::IfExpression(_) => 15,
        Expression::TypeCast(_) => 16,
        Expression::TypeInstantiation(_) => 17,
    }
}
