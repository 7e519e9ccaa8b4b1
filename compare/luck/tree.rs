//! The stand-in tree of an admitted sheet. Where several statements or
//! expressions of Lua stand on the sheet as one kind, the item's place picks
//! one, so that all of them come up.

use crate::*;

pub(crate) struct Item {
    pub kind: u64,
    pub argument: u64,
    pub span: Span,
}

impl Item {
    fn condition(&self) -> u64 {
        self.argument % 32
    }

    fn scope_end(&self) -> u32 {
        (self.argument / 32) as u32
    }
}

pub(crate) fn items_of(sheet: &[u64]) -> Vec<Item> {
    let count = sheet[0] as usize;
    (0..count)
        .map(|i| Item {
            kind: sheet[2 + i] % 256,
            argument: sheet[2 + i] / 256,
            span: Span::of_word(sheet[2 + count + i]),
        })
        .collect()
}

pub(crate) struct TreeMaker<'items> {
    items: &'items [Item],
    at: usize,
}

impl<'items> TreeMaker<'items> {
    pub(crate) fn whole(items: &'items [Item], scope_end: u32) -> Block {
        let mut maker = Self { items, at: 0 };
        let block = maker.block(0, scope_end);
        assert_eq!(maker.at, items.len(), "an admitted sheet closes every block");
        block
    }

    fn take(&mut self) -> &'items Item {
        self.at += 1;
        &self.items[self.at - 1]
    }

    fn next_kind(&self) -> u64 {
        self.items.get(self.at).map_or(0, |item| item.kind)
    }

    fn block_ends_here(&self) -> bool {
        matches!(self.next_kind(), 0 | 6..=9)
    }

    fn block(&mut self, start: u32, end: u32) -> Block {
        let mut block = Block { span: Span::new(start, end), ..Block::default() };
        while !self.block_ends_here() {
            let place = self.at;
            let item = self.take();
            let is_last = self.block_ends_here();
            match self.last_stmt(item, is_last, place) {
                Some(last) => block.last_stmt = Some(last),
                None => block.stmts.push(self.stmt(item, place)),
            }
        }
        block
    }

    fn last_stmt(&self, item: &Item, is_last: bool, place: usize) -> Option<LastStatement> {
        let span = item.span;
        match item.kind {
            14 if is_last && place % 2 == 0 => Some(LastStatement::Break(span)),
            15 => Some(LastStatement::Continue(span)),
            16 => {
                let items = (0..item.argument).map(|_| Expression::Nil(span)).collect();
                Some(LastStatement::Return(ReturnStatement { exprs: Punctuated { items }, span }))
            }
            18 if is_last && place % 3 == 0 => Some(LastStatement::Error(span)),
            _ => None,
        }
    }

    fn body(&mut self, header: &Item) -> Block {
        self.block(header.span.end, header.scope_end())
    }

    fn stmt(&mut self, item: &Item, place: usize) -> Statement {
        let span = item.span;
        match item.kind {
            1 => {
                let block = self.block(0, item.scope_end());
                self.take();
                Statement::DoBlock(DoBlock { block })
            }
            2 => {
                let block = self.body(item);
                self.take();
                let condition = expression(item.condition(), span);
                Statement::WhileLoop(WhileLoop { condition, block, span })
            }
            3 => {
                let block = self.block(0, item.scope_end());
                let condition = expression(item.condition(), self.take().span);
                Statement::RepeatLoop(RepeatLoop { block, condition })
            }
            4 => {
                let node = ForLoop { block: self.body(item), span };
                self.take();
                if place % 2 == 0 {
                    Statement::NumericFor(node)
                } else {
                    Statement::GenericFor(node)
                }
            }
            5 => self.if_stmt(item),
            10 => self.local(item, place),
            12 => Statement::Label(NamedJump { name: label_name(item.argument), span }),
            13 => Statement::Goto(NamedJump { name: label_name(item.argument), span }),
            14 => Statement::Break(span),
            17 => Statement::FunctionCall(call(item, place)),
            18 => plain(span, place),
            19 => Statement::EmptyStatement(span),
            kind => unreachable!("kind {kind} begins no statement of an admitted sheet"),
        }
    }

    fn if_stmt(&mut self, header: &Item) -> Statement {
        let block = self.body(header);
        let mut elseif_clauses = Vec::new();
        while self.next_kind() == 6 {
            let clause = self.take();
            elseif_clauses.push(ElseIfClause { block: self.body(clause), span: clause.span });
        }
        let else_clause = (self.next_kind() == 7).then(|| {
            let scope_end = self.take().scope_end();
            ElseClause { block: self.block(0, scope_end) }
        });
        self.take();
        Statement::IfStatement(IfStatement {
            block,
            elseif_clauses,
            else_clause,
            span: header.span,
        })
    }

    fn local(&mut self, item: &Item, place: usize) -> Statement {
        let mut names = Vec::new();
        while self.next_kind() == 11 {
            let name = self.take();
            let token = Token { text: Some("name".to_owned()), span: name.span };
            names.push(AttributedName { name: token });
        }
        // Values beyond the names fill nothing, so one such value stands for all.
        let values = match item.argument {
            65_535 if place % 2 == 0 => vec![Expression::VarArg(item.span)],
            65_535 => vec![Expression::FunctionCall(Box::new(other_call(item.span)))],
            count => {
                let made = (count as usize).min(names.len() + 1);
                (0..made).map(|_| Expression::Nil(item.span)).collect()
            }
        };
        Statement::LocalAssignment(LocalAssignment {
            names: Punctuated { items: names },
            exprs: (!values.is_empty()).then_some(Punctuated { items: values }),
            span: item.span,
        })
    }
}

fn label_name(number: u64) -> Token {
    let text = (number != 0).then(|| format!("label{number}"));
    Token { text, span: Span::default() }
}

/// Where a CALL's callee stands. The tag keeps empty calls at one offset
/// apart, as the scope tree holds one reference a span.
pub(crate) fn callee_span(item: &Item, place: usize) -> Span {
    item.span.tagged(place as u32 + 1)
}

fn call(item: &Item, place: usize) -> FunctionCall {
    let is_error = item.argument & 2 != 0;
    let text = if is_error { "error" } else { "print" };
    let callee = Token { text: Some(text.to_owned()), span: callee_span(item, place) };
    let method = (item.argument & 1 != 0)
        .then(|| Token { text: Some("method".to_owned()), span: Span::default() });
    FunctionCall { callee: Expression::Var(Var::Name(callee)), method, ..other_call(item.span) }
}

fn other_call(span: Span) -> FunctionCall {
    FunctionCall {
        callee: Expression::Nil(span),
        method: None,
        args: FunctionArgs::Parenthesized { args: Punctuated::none() },
        span,
    }
}

fn plain(span: Span, place: usize) -> Statement {
    let name = Token { text: Some("name".to_owned()), span };
    match place % 9 {
        0 => Statement::Assignment(Assignment { targets: Punctuated::none(), span }),
        1 => Statement::FunctionDecl(span),
        2 => Statement::LocalFunction(span),
        3 => Statement::GlobalDeclaration(span),
        4 => Statement::GlobalFunction(span),
        5 => Statement::GlobalStar(span),
        6 => Statement::CompoundAssignment(CompoundAssignment { var: Var::Name(name), span }),
        7 => Statement::TypeDeclaration(span),
        _ => Statement::Error(span),
    }
}

/// Codes 9 to 18 in the order of luck's own list of unknown conditions.
fn expression(code: u64, span: Span) -> Expression {
    match code {
        0 => Expression::Nil(span),
        1 => Expression::False(span),
        2 => Expression::True(span),
        3 => Expression::Number(span),
        4 => Expression::Integer(span),
        5 => Expression::StringLiteral(StringLiteral { text: String::new(), span }),
        6 => Expression::InterpolatedString(span),
        7 => Expression::TableConstructor(Box::new(TableConstructor { span })),
        8 => Expression::FunctionDef(span),
        9 => Expression::VarArg(span),
        10 => Expression::Var(Var::Name(Token { text: Some("name".to_owned()), span })),
        11 => Expression::FunctionCall(Box::new(other_call(span))),
        // Parentheses are unwrapped, so only round an unknown are they unknown.
        12 => Expression::Parenthesized(Box::new(Parenthesized {
            expr: Expression::VarArg(span),
            span,
        })),
        13 => Expression::BinaryOp(Box::new(BinaryOp { op: BinOp::And, span })),
        14 => Expression::UnaryOp(span),
        15 => Expression::IfExpression(IfExpression { elseif_clauses: Vec::new(), span }),
        16 => Expression::TypeCast(span),
        17 => Expression::TypeInstantiation(span),
        18 => Expression::Error(span),
        _ => unreachable!("no condition has code {code}"),
    }
}

/// Every statement of the block and of the blocks in it.
pub(crate) fn each_stmt(block: &Block, visit: &mut impl FnMut(&Statement)) {
    for stmt in &block.stmts {
        visit(stmt);
        match stmt {
            Statement::DoBlock(node) => each_stmt(&node.block, visit),
            Statement::WhileLoop(node) => each_stmt(&node.block, visit),
            Statement::RepeatLoop(node) => each_stmt(&node.block, visit),
            Statement::NumericFor(node) | Statement::GenericFor(node) => {
                each_stmt(&node.block, visit)
            }
            Statement::IfStatement(node) => {
                each_stmt(&node.block, visit);
                for clause in &node.elseif_clauses {
                    each_stmt(&clause.block, visit);
                }
                if let Some(clause) = &node.else_clause {
                    each_stmt(&clause.block, visit);
                }
            }
            _ => {}
        }
    }
}
