//! Stand-ins for luck_ast, with the fields that luck's files look at.

use crate::{BinOp, Span, Token};

#[derive(Debug, Default)]
pub struct Block {
    pub stmts: Vec<Statement>,
    pub last_stmt: Option<LastStatement>,
    pub span: Span,
}

#[derive(Debug)]
pub struct Punctuated<T> {
    pub items: Vec<T>,
}

impl<T> Punctuated<T> {
    pub const fn none() -> Self {
        Self { items: Vec::new() }
    }

    pub fn iter(&self) -> std::slice::Iter<'_, T> {
        self.items.iter()
    }

    pub const fn len(&self) -> usize {
        self.items.len()
    }

    pub fn is_empty(&self) -> bool {
        self.items.is_empty()
    }

    pub fn last(&self) -> Option<&T> {
        self.items.last()
    }
}

#[derive(Debug)]
pub enum Statement {
    Assignment(Assignment),
    FunctionCall(FunctionCall),
    DoBlock(DoBlock),
    WhileLoop(WhileLoop),
    RepeatLoop(RepeatLoop),
    IfStatement(IfStatement),
    NumericFor(ForLoop),
    GenericFor(ForLoop),
    FunctionDecl(Span),
    LocalFunction(Span),
    LocalAssignment(LocalAssignment),
    EmptyStatement(Span),
    Goto(NamedJump),
    Label(NamedJump),
    GlobalDeclaration(Span),
    GlobalFunction(Span),
    GlobalStar(Span),
    Break(Span),
    CompoundAssignment(CompoundAssignment),
    TypeDeclaration(Span),
    Error(Span),
}

impl Statement {
    /// luck asks only the statements that it does not look into.
    pub fn span(&self) -> Span {
        match self {
            Self::Assignment(node) => node.span,
            Self::CompoundAssignment(node) => node.span,
            Self::FunctionDecl(span)
            | Self::LocalFunction(span)
            | Self::GlobalDeclaration(span)
            | Self::GlobalFunction(span)
            | Self::GlobalStar(span)
            | Self::TypeDeclaration(span)
            | Self::Error(span) => *span,
            _ => unreachable!("luck takes the span of this statement elsewhere"),
        }
    }
}

#[derive(Debug)]
pub enum LastStatement {
    Return(ReturnStatement),
    Break(Span),
    Continue(Span),
    Error(Span),
}

#[derive(Debug)]
pub struct ReturnStatement {
    pub exprs: Punctuated<Expression>,
    pub span: Span,
}

#[derive(Debug)]
pub struct Assignment {
    pub targets: Punctuated<Var>,
    pub span: Span,
}

#[derive(Debug)]
pub struct CompoundAssignment {
    pub var: Var,
    pub span: Span,
}

#[derive(Debug)]
pub struct DoBlock {
    pub block: Block,
}

#[derive(Debug)]
pub struct WhileLoop {
    pub condition: Expression,
    pub block: Block,
    pub span: Span,
}

#[derive(Debug)]
pub struct RepeatLoop {
    pub block: Block,
    pub condition: Expression,
}

#[derive(Debug)]
pub struct ForLoop {
    pub block: Block,
    pub span: Span,
}

#[derive(Debug)]
pub struct IfStatement {
    pub block: Block,
    pub elseif_clauses: Vec<ElseIfClause>,
    pub else_clause: Option<ElseClause>,
    pub span: Span,
}

#[derive(Debug)]
pub struct ElseIfClause {
    pub block: Block,
    pub span: Span,
}

#[derive(Debug)]
pub struct ElseClause {
    pub block: Block,
}

#[derive(Debug)]
pub struct LocalAssignment {
    pub names: Punctuated<AttributedName>,
    pub exprs: Option<Punctuated<Expression>>,
    pub span: Span,
}

#[derive(Debug)]
pub struct AttributedName {
    pub name: Token,
}

#[derive(Debug)]
pub struct NamedJump {
    pub name: Token,
    pub span: Span,
}

#[derive(Debug)]
pub enum Expression {
    Nil(Span),
    False(Span),
    True(Span),
    Number(Span),
    Integer(Span),
    StringLiteral(StringLiteral),
    VarArg(Span),
    FunctionDef(Span),
    Var(Var),
    FunctionCall(Box<FunctionCall>),
    Parenthesized(Box<Parenthesized>),
    TableConstructor(Box<TableConstructor>),
    BinaryOp(Box<BinaryOp>),
    UnaryOp(Span),
    IfExpression(IfExpression),
    InterpolatedString(Span),
    TypeCast(Span),
    TypeInstantiation(Span),
    Error(Span),
}

impl Expression {
    pub fn span(&self) -> Span {
        match self {
            Self::StringLiteral(node) => node.span,
            Self::Var(Var::Name(token)) => token.span,
            Self::Var(_) => unreachable!("no field or index expression is made"),
            Self::FunctionCall(node) => node.span,
            Self::Parenthesized(node) => node.span,
            Self::TableConstructor(node) => node.span,
            Self::BinaryOp(node) => node.span,
            Self::IfExpression(node) => node.span,
            Self::Nil(span)
            | Self::False(span)
            | Self::True(span)
            | Self::Number(span)
            | Self::Integer(span)
            | Self::VarArg(span)
            | Self::FunctionDef(span)
            | Self::UnaryOp(span)
            | Self::InterpolatedString(span)
            | Self::TypeCast(span)
            | Self::TypeInstantiation(span)
            | Self::Error(span) => *span,
        }
    }
}

#[derive(Debug)]
pub struct StringLiteral {
    pub text: String,
    pub span: Span,
}

#[derive(Debug)]
pub struct Parenthesized {
    pub expr: Expression,
    pub span: Span,
}

#[derive(Debug)]
pub struct TableConstructor {
    pub span: Span,
}

#[derive(Debug)]
pub struct BinaryOp {
    pub op: BinOp,
    pub span: Span,
}

#[derive(Debug)]
pub struct IfExpression {
    pub elseif_clauses: Vec<()>,
    pub span: Span,
}

#[derive(Debug)]
pub enum Var {
    Name(Token),
    FieldAccess(Box<FieldAccess>),
    Index(Box<Index>),
}

#[derive(Debug)]
pub struct FieldAccess {
    pub prefix: Expression,
    pub name: Token,
}

#[derive(Debug)]
pub struct Index {
    pub prefix: Expression,
}

#[derive(Debug)]
pub struct FunctionCall {
    pub callee: Expression,
    pub method: Option<Token>,
    pub args: FunctionArgs,
    pub span: Span,
}

#[derive(Debug)]
pub enum FunctionArgs {
    Parenthesized { args: Punctuated<Expression> },
    TableConstructor(TableConstructor),
    StringLiteral(StringLiteral),
}

#[derive(Debug)]
pub struct FunctionBody;

#[derive(Debug)]
pub struct Type;

pub fn unwrap_parentheses(expr: &Expression) -> &Expression {
    match expr {
        Expression::Parenthesized(inner) => unwrap_parentheses(&inner.expr),
        other => other,
    }
}

pub const fn is_multi_value(expr: &Expression) -> bool {
    matches!(expr, Expression::FunctionCall(_) | Expression::VarArg(_))
}

/// Only luck's complexity count visits, and nobody asks for that here.
pub trait Visitor<'ast> {
    fn visit_block(&mut self, _block: &'ast Block) {}
    fn visit_stmt(&mut self, _stmt: &'ast Statement) {}
    fn visit_expr(&mut self, _expr: &'ast Expression) {}
    fn visit_function_body(&mut self, _body: &'ast FunctionBody) {}
    fn visit_type(&mut self, _type_value: &'ast Type) {}
    fn walk_stmt(&mut self, _stmt: &'ast Statement) {}
    fn walk_expr(&mut self, _expr: &'ast Expression) {}
}
