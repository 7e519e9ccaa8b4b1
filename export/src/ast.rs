//! The tree of a script, with luck's names. It holds what resolving and the
//! sheets look at: types are passed over, and operators are kept by count.
//! Where luck nests a prefix in what follows it, a chain lies flat here, so
//! that a long one needs no deep stack.

use crate::token::{Span, Token};

/// From its first statement to the word that closes it; empty before that
/// word where there is no statement.
#[derive(Debug)]
pub struct Block {
    pub stmts: Vec<Statement>,
    pub last_stmt: Option<LastStatement>,
    pub span: Span,
}

#[derive(Debug)]
pub enum Statement {
    Assignment(Assignment),
    FunctionCall(FunctionCall),
    DoBlock(DoBlock),
    WhileLoop(WhileLoop),
    RepeatLoop(RepeatLoop),
    IfStatement(IfStatement),
    NumericFor(NumericFor),
    GenericFor(GenericFor),
    FunctionDecl(FunctionDecl),
    LocalFunction(LocalFunction),
    LocalAssignment(LocalAssignment),
    EmptyStatement(Span),
    /// Lua 5.2+
    Goto(NamedJump),
    /// Lua 5.2+
    Label(NamedJump),
    /// Lua 5.5
    GlobalDeclaration(GlobalDeclaration),
    /// Lua 5.5
    GlobalFunction(GlobalFunction),
    /// Lua 5.5
    GlobalStar(Span),
    /// Lua 5.2+: `break` before other statements.
    Break(Span),
    /// Luau
    CompoundAssignment(CompoundAssignment),
    /// Luau
    TypeDeclaration(Span),
}

#[derive(Debug)]
pub enum LastStatement {
    Return(ReturnStatement),
    Break(Span),
    /// Luau
    Continue(Span),
}

#[derive(Debug)]
pub struct ReturnStatement {
    pub exprs: Vec<Expression>,
    /// With the `;` behind it.
    pub span: Span,
}

#[derive(Debug)]
pub struct Assignment {
    pub targets: Vec<Var>,
    pub exprs: Vec<Expression>,
    pub span: Span,
}

#[derive(Debug)]
pub struct CompoundAssignment {
    pub var: Var,
    pub expr: Expression,
    pub span: Span,
}

#[derive(Debug)]
pub struct DoBlock {
    pub block: Block,
}

#[derive(Debug)]
pub struct WhileLoop {
    pub condition: Expression,
    pub block: Block,
    pub span: Span,
}

#[derive(Debug)]
pub struct RepeatLoop {
    pub block: Block,
    pub condition: Expression,
}

#[derive(Debug)]
pub struct NumericFor {
    pub name: Token,
    /// Start, limit and, where there is one, step.
    pub exprs: Vec<Expression>,
    pub block: Block,
    pub span: Span,
}

#[derive(Debug)]
pub struct GenericFor {
    pub names: Vec<Token>,
    pub exprs: Vec<Expression>,
    pub block: Block,
    pub span: Span,
}

#[derive(Debug)]
pub struct IfStatement {
    pub condition: Expression,
    pub block: Block,
    pub elseif_clauses: Vec<ElseIfClause>,
    pub else_clause: Option<ElseClause>,
    pub span: Span,
}

#[derive(Debug)]
pub struct ElseIfClause {
    pub condition: Expression,
    pub block: Block,
    pub span: Span,
}

#[derive(Debug)]
pub struct ElseClause {
    pub block: Block,
}

/// `function a.b:m() .. end`
#[derive(Debug)]
pub struct FunctionDecl {
    pub root: Token,
    /// Whether fields or a method follow the root, which is then read and not written.
    pub has_fields: bool,
    pub is_method: bool,
    /// The name as it stands, fields included.
    pub name: Span,
    pub body: Box<FunctionBody>,
    pub span: Span,
}

#[derive(Debug)]
pub struct LocalFunction {
    pub name: Token,
    pub body: Box<FunctionBody>,
    pub span: Span,
}

#[derive(Debug)]
pub struct LocalAssignment {
    pub names: Vec<AttributedName>,
    pub exprs: Vec<Expression>,
    pub span: Span,
}

/// The attribute itself makes no difference to any finding and is not kept.
#[derive(Debug)]
pub struct AttributedName {
    pub name: Token,
}

#[derive(Debug)]
pub struct GlobalDeclaration {
    pub names: Vec<AttributedName>,
    pub exprs: Vec<Expression>,
    pub span: Span,
}

#[derive(Debug)]
pub struct GlobalFunction {
    pub name: Token,
    pub body: Box<FunctionBody>,
    pub span: Span,
}

#[derive(Debug)]
pub struct NamedJump {
    pub name: Token,
    pub span: Span,
}

#[derive(Debug)]
pub enum Expression {
    Nil(Span),
    False(Span),
    True(Span),
    Number(Span),
    /// Luau
    Integer(Span),
    StringLiteral(Span),
    VarArg(Span),
    FunctionDef(Box<FunctionBody>),
    Var(Var),
    FunctionCall(FunctionCall),
    Parenthesized(Box<Parenthesized>),
    TableConstructor(TableConstructor),
    BinaryOp(Box<BinaryOp>),
    UnaryOp(Box<UnaryOp>),
    /// Luau
    IfExpression(Box<IfExpression>),
    /// Luau
    InterpolatedString(InterpolatedString),
    /// Luau
    TypeCast(Box<TypeCast>),
    /// Luau
    TypeInstantiation(Box<Chain>),
}

impl Expression {
    #[must_use]
    pub fn span(&self) -> Span {
        match self {
            Self::Nil(span)
            | Self::False(span)
            | Self::True(span)
            | Self::Number(span)
            | Self::Integer(span)
            | Self::StringLiteral(span)
            | Self::VarArg(span) => *span,
            Self::FunctionDef(body) => body.span,
            Self::Var(var) => var.span(),
            Self::FunctionCall(call) => call.chain.span,
            Self::Parenthesized(node) => node.span,
            Self::TableConstructor(node) => node.span,
            Self::BinaryOp(node) => node.span,
            Self::UnaryOp(node) => node.span,
            Self::IfExpression(node) => node.span,
            Self::InterpolatedString(node) => node.span,
            Self::TypeCast(node) => node.span,
            Self::TypeInstantiation(chain) => chain.span,
        }
    }
}

#[derive(Debug)]
pub enum Var {
    Name(Token),
    FieldAccess(Box<Chain>),
    Index(Box<Chain>),
}

impl Var {
    #[must_use]
    pub fn span(&self) -> Span {
        match self {
            Self::Name(token) => token.span,
            Self::FieldAccess(chain) | Self::Index(chain) => chain.span,
        }
    }
}

/// A chain whose last link is a call.
#[derive(Debug)]
pub struct FunctionCall {
    pub chain: Box<Chain>,
}

/// What is called or looked into first, and what follows it, in the order of
/// the text: `a.b[c]:d(e)` has the links `.b`, `[c]` and `:d(e)`.
#[derive(Debug)]
pub struct Chain {
    pub root: Expression,
    pub links: Vec<Link>,
    pub span: Span,
}

#[derive(Debug)]
pub enum Link {
    FieldAccess,
    Index(Expression),
    Call(FunctionArgs),
    MethodCall(FunctionArgs),
    /// Luau
    TypeInstantiation,
}

#[derive(Debug)]
pub enum FunctionArgs {
    Parenthesized(Vec<Expression>),
    TableConstructor(TableConstructor),
    StringLiteral,
}

#[derive(Debug)]
pub struct Parenthesized {
    pub expr: Expression,
    pub span: Span,
}

#[derive(Debug)]
pub struct TableConstructor {
    pub fields: Vec<Field>,
    pub span: Span,
}

#[derive(Debug)]
pub enum Field {
    /// `[key] = value`
    Keyed(Expression, Expression),
    /// `value` and `name = value`
    Value(Expression),
}

/// Operands of one level of precedence, which group from the left.
#[derive(Debug)]
pub struct BinaryOp {
    pub first: Expression,
    pub rest: Vec<Expression>,
    pub span: Span,
}

#[derive(Debug)]
pub struct UnaryOp {
    pub expr: Expression,
    pub span: Span,
}

#[derive(Debug)]
pub struct IfExpression {
    /// Each condition with its value, the last value behind `else`.
    pub clauses: Vec<(Expression, Expression)>,
    pub else_expr: Expression,
    pub span: Span,
}

#[derive(Debug)]
pub struct InterpolatedString {
    pub exprs: Vec<Expression>,
    pub span: Span,
}

#[derive(Debug)]
pub struct TypeCast {
    pub expr: Expression,
    pub span: Span,
}

#[derive(Debug)]
pub struct FunctionBody {
    pub params: Vec<Token>,
    /// Lua 5.5: the name of the table that `...` is in.
    pub vararg_name: Option<Token>,
    pub block: Block,
    /// From `function` to `end`.
    pub span: Span,
}

#[must_use]
pub fn unwrap_parentheses(mut expr: &Expression) -> &Expression {
    while let Expression::Parenthesized(inner) = expr {
        expr = &inner.expr;
    }
    expr
}

#[must_use]
pub const fn is_multi_value(expr: &Expression) -> bool {
    matches!(expr, Expression::FunctionCall(_) | Expression::VarArg(_))
}
