//! Which local each name means. One walk over the tree, in the order in
//! which a script evaluates it; function bodies are walked where they stand.

use std::collections::HashMap;

use crate::ast::*;
use crate::scope::*;
use crate::token::{Dialect, Span, Token};

/// A resolved script: its scopes, and every block that has a sheet of its own.
#[derive(Debug)]
pub struct Resolved<'ast, 'source> {
    pub tree: ScopeTree<'source>,
    /// The script's own block first; behind it all function bodies, in the order of the text.
    pub function_blocks: Vec<FunctionBlock<'ast>>,
}

#[derive(Debug, Clone, Copy)]
pub struct FunctionBlock<'ast> {
    pub block: &'ast Block,
    /// The name in the function's header, if it has one.
    pub name: Option<Span>,
    /// From `function` to `end`, or the whole script.
    pub span: Span,
    /// The number of the function around this one; the script's own is 0.
    pub parent: usize,
    /// The scope of its parameters and its block.
    pub scope: ScopeId,
}

#[must_use]
pub fn resolve<'ast, 'source>(
    source: &'source [u8],
    dialect: Dialect,
    block: &'ast Block,
) -> Resolved<'ast, 'source> {
    let mut resolver = Resolver {
        source,
        dialect,
        tree: ScopeTree::default(),
        function_blocks: Vec::new(),
        function: 0,
        scope: ScopeId::from_index(0),
        bindings: HashMap::new(),
        shadowed: Vec::new(),
        env: None,
    };
    resolver.module(block);
    let Resolver { mut tree, mut function_blocks, .. } = resolver;
    tree.error_references.sort_unstable();
    number_by_place(&mut function_blocks);
    Resolved { tree, function_blocks }
}

/// An assignment's values are walked before its targets, which may hold
/// functions too. Numbers go by the text, so that a reader can count them.
fn number_by_place(function_blocks: &mut [FunctionBlock<'_>]) {
    let mut order: Vec<usize> = (0..function_blocks.len()).collect();
    order[1..].sort_unstable_by_key(|at| function_blocks[*at].span.start);
    let mut number = vec![0; order.len()];
    for (new, old) in order.iter().enumerate() {
        number[*old] = new;
    }
    for function in &mut *function_blocks {
        function.parent = number[function.parent];
    }
    function_blocks[1..].sort_unstable_by_key(|function| function.span.start);
}

/// What a name means here.
#[derive(Debug, Clone, Copy)]
enum Binding {
    Local(SymbolId),
    /// Lua 5.5: `global x` hides a local x.
    Global,
}

/// What a scope gives back when it closes.
struct Outer {
    scope: ScopeId,
    shadowed_count: usize,
    env: Option<SymbolId>,
}

struct Resolver<'ast, 'source> {
    source: &'source [u8],
    dialect: Dialect,
    tree: ScopeTree<'source>,
    function_blocks: Vec<FunctionBlock<'ast>>,
    /// The function whose body is walked.
    function: usize,
    scope: ScopeId,
    bindings: HashMap<&'source [u8], Binding>,
    /// What each declared name meant before, to be set again when its scope closes.
    shadowed: Vec<(&'source [u8], Option<Binding>)>,
    /// The local `_ENV` in scope.
    env: Option<SymbolId>,
}

impl<'ast, 'source> Resolver<'ast, 'source> {
    fn text(&self, token: Token) -> &'source [u8] {
        token.span.text(self.source)
    }

    // ---- Scopes and names ----

    fn open(&mut self, kind: ScopeKind) -> Outer {
        let parent = (!self.tree.scopes.is_empty()).then_some(self.scope);
        let outer = Outer { scope: self.scope, shadowed_count: self.shadowed.len(), env: self.env };
        self.scope = ScopeId::from_index(self.tree.scopes.len());
        self.tree.scopes.push(Scope { parent, kind });
        outer
    }

    fn close(&mut self, outer: Outer) {
        while self.shadowed.len() > outer.shadowed_count
            && let Some((name, before)) = self.shadowed.pop()
        {
            match before {
                Some(binding) => self.bindings.insert(name, binding),
                None => self.bindings.remove(name),
            };
        }
        self.scope = outer.scope;
        self.env = outer.env;
    }

    fn bind(&mut self, name: &'source [u8], binding: Binding) {
        let before = self.bindings.insert(name, binding);
        self.shadowed.push((name, before));
    }

    fn declare(&mut self, name: &'source [u8], definition_span: Span, kind: SymbolKind) {
        let id = SymbolId::from_index(self.tree.symbols.len());
        self.tree.symbols.push(Symbol {
            name,
            scope: self.scope,
            kind,
            definition_span,
            reference_ids: Vec::new(),
            is_upvalue: false,
            is_modified: false,
        });
        self.bind(name, Binding::Local(id));
        // 5.1 and Luau have no `_ENV`; a 5.1 script that has a local of that name is taken as a later one.
        if name == b"_ENV" && self.dialect == Dialect::Lua {
            self.env = Some(id);
        }
    }

    fn declare_token(&mut self, token: Token, kind: SymbolKind) {
        self.declare(self.text(token), token.span, kind);
    }

    fn refer(&mut self, token: Token, kind: ReferenceKind) {
        let name = self.text(token);
        let resolved = match self.bindings.get(name) {
            Some(Binding::Local(id)) => Some(*id),
            Some(Binding::Global) | None => None,
        };
        let env = if resolved.is_none() { self.env } else { None };
        let id = ReferenceId::from_index(self.tree.references.len());
        let reference = Reference { span: token.span, kind, scope: self.scope, resolved, env };
        self.tree.references.push(reference);
        if name == b"error" {
            self.tree.error_references.push((token.span.start, id));
        }
        match resolved {
            Some(symbol) => self.refer_to_local(symbol, id, kind),
            None if kind.is_write() && env.is_none() => self.write_global(name),
            None => {}
        }
    }

    fn refer_to_local(&mut self, symbol: SymbolId, id: ReferenceId, kind: ReferenceKind) {
        let scope = self.tree.symbol(symbol).scope;
        let crosses = self.tree.crosses_function_boundary(self.scope, scope);
        let symbol = &mut self.tree.symbols[symbol.index()];
        symbol.reference_ids.push(id);
        symbol.is_upvalue |= crosses;
        symbol.is_modified |= kind.is_write();
    }

    fn write_global(&mut self, name: &'source [u8]) {
        if name == b"_ENV" && self.dialect == Dialect::Lua {
            self.tree.is_env_assigned = true;
        }
        self.tree.assigned_globals.insert(name);
    }

    fn read(&mut self, token: Token) {
        self.refer(token, ReferenceKind::Read);
    }

    fn write(&mut self, token: Token) {
        self.refer(token, ReferenceKind::Write);
    }

    // ---- Blocks ----

    fn module(&mut self, block: &'ast Block) {
        let span = Span::new(0, block.span.end);
        let outer = self.open(ScopeKind::Module);
        let scope = self.scope;
        self.function_blocks.push(FunctionBlock { block, name: None, span, parent: 0, scope });
        self.stmts(block);
        self.close(outer);
    }

    fn block(&mut self, block: &'ast Block, kind: ScopeKind) {
        let outer = self.open(kind);
        self.stmts(block);
        self.close(outer);
    }

    fn stmts(&mut self, block: &'ast Block) {
        for stmt in &block.stmts {
            self.stmt(stmt);
        }
        if let Some(LastStatement::Return(node)) = &block.last_stmt {
            self.exprs(&node.exprs);
        }
    }

    fn function_body(&mut self, body: &'ast FunctionBody, name: Option<Span>, is_method: bool) {
        let parent = self.function;
        self.function = self.function_blocks.len();
        let span = body.span;
        let outer = self.open(ScopeKind::Function);
        let (block, scope) = (&body.block, self.scope);
        self.function_blocks.push(FunctionBlock { block, name, span, parent, scope });
        if is_method {
            let start = name.map_or(span.start, |name| name.end);
            self.declare(b"self", Span::new(start, start), SymbolKind::ImplicitSelf);
        }
        for param in body.params.iter().chain(&body.vararg_name) {
            self.declare_token(*param, SymbolKind::Parameter);
        }
        self.stmts(&body.block);
        self.close(outer);
        self.function = parent;
    }

    // ---- Statements ----

    fn stmt(&mut self, stmt: &'ast Statement) {
        match stmt {
            Statement::Assignment(node) => self.assignment(node),
            Statement::CompoundAssignment(node) => self.compound_assignment(node),
            Statement::FunctionCall(call) => self.chain(&call.chain),
            Statement::DoBlock(node) => self.block(&node.block, ScopeKind::Block),
            Statement::WhileLoop(node) => {
                self.expr(&node.condition);
                self.block(&node.block, ScopeKind::Loop);
            }
            Statement::RepeatLoop(node) => self.repeat_loop(node),
            Statement::IfStatement(node) => self.if_stmt(node),
            Statement::NumericFor(node) => {
                let name = std::slice::from_ref(&node.name);
                self.for_loop(name, SymbolKind::NumericForVariable, &node.exprs, &node.block);
            }
            Statement::GenericFor(node) => {
                let kind = SymbolKind::IteratorVariable;
                self.for_loop(&node.names, kind, &node.exprs, &node.block);
            }
            Statement::EmptyStatement(_)
            | Statement::Goto(_)
            | Statement::Label(_)
            | Statement::GlobalStar(_)
            | Statement::Break(_)
            | Statement::TypeDeclaration(_) => {}
            Statement::FunctionDecl(_)
            | Statement::LocalFunction(_)
            | Statement::LocalAssignment(_)
            | Statement::GlobalDeclaration(_)
            | Statement::GlobalFunction(_) => self.declaration(stmt),
        }
    }

    fn declaration(&mut self, stmt: &'ast Statement) {
        match stmt {
            Statement::FunctionDecl(node) => self.function_decl(node),
            Statement::LocalFunction(node) => {
                self.declare_token(node.name, SymbolKind::FunctionName);
                self.function_body(&node.body, Some(node.name.span), false);
            }
            Statement::LocalAssignment(node) => {
                self.exprs(&node.exprs);
                for name in &node.names {
                    self.declare_token(name.name, SymbolKind::Local);
                }
            }
            Statement::GlobalDeclaration(node) => self.global_declaration(node),
            Statement::GlobalFunction(node) => {
                self.bind(self.text(node.name), Binding::Global);
                self.function_body(&node.body, Some(node.name.span), false);
                self.write(node.name);
            }
            _ => {}
        }
    }

    /// The values, then what the targets read, then the written names.
    fn assignment(&mut self, node: &'ast Assignment) {
        self.exprs(&node.exprs);
        for target in &node.targets {
            self.target_reads(target);
        }
        for target in &node.targets {
            if let Var::Name(token) = target {
                self.write(*token);
            }
        }
    }

    fn compound_assignment(&mut self, node: &'ast CompoundAssignment) {
        self.expr(&node.expr);
        self.target_reads(&node.var);
        if let Var::Name(token) = &node.var {
            self.refer(*token, ReferenceKind::ReadWrite);
        }
    }

    fn target_reads(&mut self, target: &'ast Var) {
        if let Var::FieldAccess(chain) | Var::Index(chain) = target {
            self.chain(chain);
        }
    }

    /// The condition still sees the locals of the body.
    fn repeat_loop(&mut self, node: &'ast RepeatLoop) {
        let outer = self.open(ScopeKind::Loop);
        self.stmts(&node.block);
        self.expr(&node.condition);
        self.close(outer);
    }

    fn if_stmt(&mut self, node: &'ast IfStatement) {
        self.expr(&node.condition);
        self.block(&node.block, ScopeKind::Block);
        for clause in &node.elseif_clauses {
            self.expr(&clause.condition);
            self.block(&clause.block, ScopeKind::Block);
        }
        if let Some(clause) = &node.else_clause {
            self.block(&clause.block, ScopeKind::Block);
        }
    }

    fn for_loop(
        &mut self,
        names: &'ast [Token],
        kind: SymbolKind,
        exprs: &'ast [Expression],
        block: &'ast Block,
    ) {
        self.exprs(exprs);
        let outer = self.open(ScopeKind::Loop);
        for name in names {
            self.declare_token(*name, kind);
        }
        self.stmts(block);
        self.close(outer);
    }

    /// What the name reads, then the body, then a written name. The body does not run here, so a
    /// write in it cannot fill the table that the name goes through.
    fn function_decl(&mut self, node: &'ast FunctionDecl) {
        if node.has_fields {
            self.read(node.root);
        }
        self.function_body(&node.body, Some(node.name), node.is_method);
        if !node.has_fields {
            self.write(node.root);
        }
    }

    /// With values it writes the globals; the names hold from the next statement on.
    fn global_declaration(&mut self, node: &'ast GlobalDeclaration) {
        self.exprs(&node.exprs);
        for name in &node.names {
            self.bind(self.text(name.name), Binding::Global);
        }
        if !node.exprs.is_empty() {
            for name in &node.names {
                self.write(name.name);
            }
        }
    }

    // ---- Expressions ----

    fn exprs(&mut self, exprs: &'ast [Expression]) {
        for expr in exprs {
            self.expr(expr);
        }
    }

    fn expr(&mut self, expr: &'ast Expression) {
        match expr {
            Expression::Nil(_)
            | Expression::False(_)
            | Expression::True(_)
            | Expression::Number(_)
            | Expression::Integer(_)
            | Expression::StringLiteral(_)
            | Expression::VarArg(_) => {}
            Expression::FunctionDef(body) => self.function_body(body, None, false),
            Expression::Var(Var::Name(token)) => self.read(*token),
            Expression::Var(Var::FieldAccess(chain) | Var::Index(chain))
            | Expression::TypeInstantiation(chain) => self.chain(chain),
            Expression::FunctionCall(call) => self.chain(&call.chain),
            Expression::Parenthesized(node) => self.expr(&node.expr),
            Expression::TableConstructor(table) => self.table(table),
            Expression::BinaryOp(node) => {
                self.expr(&node.first);
                self.exprs(&node.rest);
            }
            Expression::UnaryOp(node) => self.expr(&node.expr),
            Expression::IfExpression(node) => {
                for (condition, value) in &node.clauses {
                    self.expr(condition);
                    self.expr(value);
                }
                self.expr(&node.else_expr);
            }
            Expression::InterpolatedString(node) => self.exprs(&node.exprs),
            Expression::TypeCast(node) => self.expr(&node.expr),
        }
    }

    fn chain(&mut self, chain: &'ast Chain) {
        self.expr(&chain.root);
        for link in &chain.links {
            match link {
                Link::FieldAccess | Link::TypeInstantiation => {}
                Link::Index(key) => self.expr(key),
                Link::Call(args) | Link::MethodCall(args) => match args {
                    FunctionArgs::Parenthesized(exprs) => self.exprs(exprs),
                    FunctionArgs::TableConstructor(table) => self.table(table),
                    FunctionArgs::StringLiteral => {}
                },
            }
        }
    }

    fn table(&mut self, table: &'ast TableConstructor) {
        for field in &table.fields {
            match field {
                Field::Keyed(key, value) => {
                    self.expr(key);
                    self.expr(value);
                }
                Field::Value(value) => self.expr(value),
            }
        }
    }
}
