//! Statements.

use super::{Function, Parsed, Parser};
use crate::ast::*;
use crate::token::{Span, Token, TokenKind};

impl Parser<'_> {
    pub(super) fn stmt(&mut self) -> Parsed<Statement> {
        match self.kind() {
            TokenKind::Semicolon => Ok(Statement::EmptyStatement(self.take().span)),
            TokenKind::If => self.if_stmt(),
            TokenKind::While => self.while_loop(),
            TokenKind::Do => self.do_block(),
            TokenKind::For => self.for_loop(),
            TokenKind::Repeat => self.repeat_loop(),
            TokenKind::Function => self.function_decl(self.token().span.start),
            TokenKind::Local => self.local_stmt(self.token().span.start),
            TokenKind::Break => self.break_stmt(),
            TokenKind::DoubleColon if !self.is_luau() => self.label(),
            TokenKind::Name if self.is_luau() => self.luau_stmt(),
            TokenKind::At if self.is_luau() => self.attributed_function(),
            TokenKind::Name => self.named_stmt(),
            _ => self.expr_stmt(),
        }
    }

    /// `goto` and `global` are names in some versions. What follows tells.
    fn named_stmt(&mut self) -> Parsed<Statement> {
        match (self.text(self.token()), self.ahead(1)) {
            (b"goto", TokenKind::Name) => {
                let start = self.take().span.start;
                let name = self.take();
                Ok(Statement::Goto(NamedJump { name, span: self.span_from(start) }))
            }
            (
                b"global",
                TokenKind::Name | TokenKind::Star | TokenKind::Less | TokenKind::Function,
            ) => self.global_stmt(),
            _ => self.expr_stmt(),
        }
    }

    /// Luau's own words are names where anything else follows them.
    fn luau_stmt(&mut self) -> Parsed<Statement> {
        let start = self.token().span.start;
        match (self.text(self.token()), self.ahead(1)) {
            (b"type", TokenKind::Name | TokenKind::Function) => self.type_declaration(start),
            (b"const", TokenKind::Name | TokenKind::Function) => self.local_stmt(start),
            (b"export", TokenKind::Local | TokenKind::Function | TokenKind::Name) => {
                self.take();
                match (self.kind(), self.text(self.token())) {
                    (TokenKind::Name, b"type") => self.type_declaration(start),
                    (TokenKind::Local, _) | (TokenKind::Name, b"const") => self.local_stmt(start),
                    (TokenKind::Function, _) => self.local_function(start),
                    _ => self.unexpected("'type', 'local', 'const' or 'function' after 'export'"),
                }
            }
            _ => self.expr_stmt(),
        }
    }

    fn attributed_function(&mut self) -> Parsed<Statement> {
        let start = self.token().span.start;
        self.attributes()?;
        match self.kind() {
            TokenKind::Function => self.function_decl(start),
            TokenKind::Local if self.ahead(1) == TokenKind::Function => self.local_stmt(start),
            _ => self.unexpected("'function' after an attribute"),
        }
    }

    // ---- Blocks in statements ----

    fn if_stmt(&mut self) -> Parsed<Statement> {
        let opener = self.take();
        let condition = self.expr()?;
        self.expect(TokenKind::Then)?;
        let block = self.block()?;
        let mut elseif_clauses = Vec::new();
        while let Some(clause) = self.take_if(TokenKind::Elseif) {
            let condition = self.expr()?;
            self.expect(TokenKind::Then)?;
            let block = self.block()?;
            let span = self.span_from(clause.span.start);
            elseif_clauses.push(ElseIfClause { condition, block, span });
        }
        let else_clause = match self.take_if(TokenKind::Else) {
            Some(_) => Some(ElseClause { block: self.block()? }),
            None => None,
        };
        self.expect_closing(TokenKind::End, "'if'", opener)?;
        let span = self.span_from(opener.span.start);
        Ok(Statement::IfStatement(IfStatement {
            condition,
            block,
            elseif_clauses,
            else_clause,
            span,
        }))
    }

    fn while_loop(&mut self) -> Parsed<Statement> {
        let opener = self.take();
        let condition = self.expr()?;
        self.expect(TokenKind::Do)?;
        let block = self.loop_block()?;
        self.expect_closing(TokenKind::End, "'while'", opener)?;
        let span = self.span_from(opener.span.start);
        Ok(Statement::WhileLoop(WhileLoop { condition, block, span }))
    }

    fn do_block(&mut self) -> Parsed<Statement> {
        let opener = self.take();
        let block = self.block()?;
        self.expect_closing(TokenKind::End, "'do'", opener)?;
        Ok(Statement::DoBlock(DoBlock { block }))
    }

    fn repeat_loop(&mut self) -> Parsed<Statement> {
        let opener = self.take();
        let block = self.loop_block()?;
        self.expect_closing(TokenKind::Until, "'repeat'", opener)?;
        let condition = self.expr()?;
        Ok(Statement::RepeatLoop(RepeatLoop { block, condition }))
    }

    fn for_loop(&mut self) -> Parsed<Statement> {
        let opener = self.take();
        let name = self.typed_name()?;
        if self.take_if(TokenKind::Equal).is_some() {
            return self.numeric_for(opener, name);
        }
        let mut names = vec![name];
        while self.take_if(TokenKind::Comma).is_some() {
            names.push(self.typed_name()?);
        }
        if self.take_if(TokenKind::In).is_none() {
            let expected = if names.len() == 1 { "'=' or 'in'" } else { "'in'" };
            return self.unexpected(expected);
        }
        let exprs = self.expr_list()?;
        let block = self.for_body(opener)?;
        let span = self.span_from(opener.span.start);
        Ok(Statement::GenericFor(GenericFor { names, exprs, block, span }))
    }

    fn numeric_for(&mut self, opener: Token, name: Token) -> Parsed<Statement> {
        let mut exprs = vec![self.expr()?];
        self.expect(TokenKind::Comma)?;
        exprs.push(self.expr()?);
        if self.take_if(TokenKind::Comma).is_some() {
            exprs.push(self.expr()?);
        }
        let block = self.for_body(opener)?;
        let span = self.span_from(opener.span.start);
        Ok(Statement::NumericFor(NumericFor { name, exprs, block, span }))
    }

    fn for_body(&mut self, opener: Token) -> Parsed<Block> {
        self.expect(TokenKind::Do)?;
        let block = self.loop_block()?;
        self.expect_closing(TokenKind::End, "'for'", opener)?;
        Ok(block)
    }

    // ---- Jumps and labels ----

    fn break_stmt(&mut self) -> Parsed<Statement> {
        let span = self.take().span;
        if self.function().open_loops == 0 {
            return self.error(span, "expected a loop around 'break'");
        }
        Ok(Statement::Break(span))
    }

    fn label(&mut self) -> Parsed<Statement> {
        let start = self.take().span.start;
        let name = self.expect(TokenKind::Name)?;
        self.expect(TokenKind::DoubleColon)?;
        Ok(Statement::Label(NamedJump { name, span: self.span_from(start) }))
    }

    // ---- Declarations ----

    /// At `local`, or at Luau's `const`. The statement begins at `start`.
    fn local_stmt(&mut self, start: u32) -> Parsed<Statement> {
        self.take();
        if self.kind() == TokenKind::Function {
            return self.local_function(start);
        }
        let names = self.attributed_names()?;
        let exprs = self.values()?;
        let span = self.span_from(start);
        Ok(Statement::LocalAssignment(LocalAssignment { names, exprs, span }))
    }

    fn local_function(&mut self, start: u32) -> Parsed<Statement> {
        let opener = self.take();
        let name = self.expect(TokenKind::Name)?;
        let body = self.function_body(opener)?;
        Ok(Statement::LocalFunction(LocalFunction { name, body, span: self.span_from(start) }))
    }

    fn global_stmt(&mut self) -> Parsed<Statement> {
        let start = self.take().span.start;
        if let Some(opener) = self.take_if(TokenKind::Function) {
            let name = self.expect(TokenKind::Name)?;
            let body = self.function_body(opener)?;
            let span = self.span_from(start);
            return Ok(Statement::GlobalFunction(GlobalFunction { name, body, span }));
        }
        if self.kind() == TokenKind::Star || self.is_star_behind_attribute() {
            self.attribute()?;
            self.take();
            return Ok(Statement::GlobalStar(self.span_from(start)));
        }
        let names = self.attributed_names()?;
        let exprs = self.values()?;
        let span = self.span_from(start);
        Ok(Statement::GlobalDeclaration(GlobalDeclaration { names, exprs, span }))
    }

    /// `<const> *`
    fn is_star_behind_attribute(&self) -> bool {
        self.kind() == TokenKind::Less && self.ahead(3) == TokenKind::Star
    }

    fn values(&mut self) -> Parsed<Vec<Expression>> {
        match self.take_if(TokenKind::Equal) {
            Some(_) => self.expr_list(),
            None => Ok(Vec::new()),
        }
    }

    /// 5.4 has an attribute behind each name, 5.5 also one before all of them.
    fn attributed_names(&mut self) -> Parsed<Vec<AttributedName>> {
        self.attribute()?;
        let mut names = Vec::new();
        loop {
            let name = self.typed_name()?;
            self.attribute()?;
            names.push(AttributedName { name });
            if self.take_if(TokenKind::Comma).is_none() {
                return Ok(names);
            }
        }
    }

    fn attribute(&mut self) -> Parsed<()> {
        if self.is_luau() || self.take_if(TokenKind::Less).is_none() {
            return Ok(());
        }
        if !self.is_word(b"const") && !self.is_word(b"close") {
            return self.unexpected("'const' or 'close'");
        }
        self.take();
        self.expect(TokenKind::Greater)?;
        Ok(())
    }

    /// A name, in Luau with its type.
    fn typed_name(&mut self) -> Parsed<Token> {
        let name = self.expect(TokenKind::Name)?;
        self.type_annotation()?;
        Ok(name)
    }

    // ---- Functions ----

    fn function_decl(&mut self, start: u32) -> Parsed<Statement> {
        let opener = self.take();
        let root = self.expect(TokenKind::Name)?;
        let mut is_method = false;
        let mut has_fields = false;
        while !is_method && matches!(self.kind(), TokenKind::Dot | TokenKind::Colon) {
            is_method = self.take().kind == TokenKind::Colon;
            has_fields = true;
            self.expect(TokenKind::Name)?;
        }
        let name = self.span_from(root.span.start);
        let body = self.function_body(opener)?;
        let span = self.span_from(start);
        Ok(Statement::FunctionDecl(FunctionDecl { root, has_fields, is_method, name, body, span }))
    }

    /// From the parameters to `end`. `opener` is the word `function`.
    pub(super) fn function_body(&mut self, opener: Token) -> Parsed<Box<FunctionBody>> {
        self.generics()?;
        self.expect(TokenKind::OpenParen)?;
        let mut params = Vec::new();
        let mut is_vararg = false;
        let mut vararg_name = None;
        while self.kind() != TokenKind::CloseParen {
            if self.take_if(TokenKind::TripleDot).is_some() {
                is_vararg = true;
                vararg_name = self.vararg_name()?;
                break;
            }
            if self.kind() != TokenKind::Name {
                return self.unexpected("a parameter or ')'");
            }
            params.push(self.typed_name()?);
            if self.take_if(TokenKind::Comma).is_none() {
                break;
            }
            if self.kind() == TokenKind::CloseParen {
                return self.unexpected("a parameter");
            }
        }
        self.expect(TokenKind::CloseParen)?;
        self.pack_annotation()?;
        self.functions.push(Function { is_vararg, open_loops: 0 });
        let block = self.block();
        self.functions.pop();
        let block = block?;
        self.expect_closing(TokenKind::End, "'function'", opener)?;
        let span = self.span_from(opener.span.start);
        Ok(Box::new(FunctionBody { params, vararg_name, block, span }))
    }

    /// Lua 5.5 may name the table of the values behind `...`, Luau their type.
    fn vararg_name(&mut self) -> Parsed<Option<Token>> {
        if self.is_luau() {
            self.pack_annotation()?;
            return Ok(None);
        }
        Ok(self.take_if(TokenKind::Name))
    }

    // ---- Calls and assignments ----

    fn expr_stmt(&mut self) -> Parsed<Statement> {
        let start = self.token().span.start;
        if !matches!(self.kind(), TokenKind::Name | TokenKind::OpenParen) {
            return self.unexpected("a statement");
        }
        match self.suffixed_expr()? {
            Expression::FunctionCall(call) if !self.is_assignment_next() => {
                Ok(Statement::FunctionCall(call))
            }
            first => self.assignment(start, first),
        }
    }

    fn is_assignment_next(&self) -> bool {
        matches!(self.kind(), TokenKind::Equal | TokenKind::Comma | TokenKind::CompoundEqual)
    }

    fn assignment(&mut self, start: u32, first: Expression) -> Parsed<Statement> {
        if !self.is_assignment_next() {
            return self.unexpected("'=' or the arguments of a call");
        }
        let var = self.target(first)?;
        if self.take_if(TokenKind::CompoundEqual).is_some() {
            let expr = self.expr()?;
            let span = self.span_from(start);
            return Ok(Statement::CompoundAssignment(CompoundAssignment { var, expr, span }));
        }
        let mut targets = vec![var];
        while self.take_if(TokenKind::Comma).is_some() {
            let next = self.suffixed_expr()?;
            targets.push(self.target(next)?);
        }
        self.expect(TokenKind::Equal)?;
        let exprs = self.expr_list()?;
        Ok(Statement::Assignment(Assignment { targets, exprs, span: self.span_from(start) }))
    }

    fn target(&self, expr: Expression) -> Parsed<Var> {
        match expr {
            Expression::Var(var) => Ok(var),
            other => self.error(other.span(), "expected a variable to assign to"),
        }
    }

    /// `type Name = ..` and `type function name() .. end`, which no value comes of at run time.
    fn type_declaration(&mut self, start: u32) -> Parsed<Statement> {
        self.take();
        if let Some(opener) = self.take_if(TokenKind::Function) {
            self.expect(TokenKind::Name)?;
            self.function_body(opener)?;
        } else {
            self.expect(TokenKind::Name)?;
            self.generics()?;
            self.expect(TokenKind::Equal)?;
            self.type_expr()?;
        }
        Ok(Statement::TypeDeclaration(Span::new(start, self.last_end())))
    }
}
