//! Expressions.

use super::{Parsed, Parser};
use crate::ast::*;
use crate::token::{Token, TokenKind};

/// Binds tighter than every operator of two sides but `^`.
const UNARY: u8 = 12;

/// How tightly an operator of two sides binds to its left and its right.
const fn precedence(kind: TokenKind) -> Option<(u8, u8)> {
    Some(match kind {
        TokenKind::Or => (1, 1),
        TokenKind::And => (2, 2),
        TokenKind::Less
        | TokenKind::Greater
        | TokenKind::LessEqual
        | TokenKind::GreaterEqual
        | TokenKind::NotEqual
        | TokenKind::DoubleEqual => (3, 3),
        TokenKind::Pipe => (4, 4),
        TokenKind::Tilde => (5, 5),
        TokenKind::Ampersand => (6, 6),
        TokenKind::ShiftLeft | TokenKind::ShiftRight => (7, 7),
        TokenKind::DoubleDot => (9, 8),
        TokenKind::Plus | TokenKind::Minus => (10, 10),
        TokenKind::Star | TokenKind::Slash | TokenKind::DoubleSlash | TokenKind::Percent => {
            (11, 11)
        }
        TokenKind::Caret => (14, 13),
        _ => return None,
    })
}

impl Parser<'_> {
    pub(super) fn expr(&mut self) -> Parsed<Expression> {
        self.sub_expr(0)
    }

    pub(super) fn expr_list(&mut self) -> Parsed<Vec<Expression>> {
        let mut exprs = vec![self.expr()?];
        while self.take_if(TokenKind::Comma).is_some() {
            exprs.push(self.expr()?);
        }
        Ok(exprs)
    }

    /// Operators that bind tighter than `limit`.
    fn sub_expr(&mut self, limit: u8) -> Parsed<Expression> {
        self.deeper(|parser| parser.operators(limit))
    }

    fn operators(&mut self, limit: u8) -> Parsed<Expression> {
        let start = self.token().span.start;
        let first = if self.is_unary() {
            self.take();
            let expr = self.sub_expr(UNARY)?;
            Expression::UnaryOp(Box::new(UnaryOp { expr, span: self.span_from(start) }))
        } else {
            self.cast_expr()?
        };
        let mut rest = Vec::new();
        while let Some((left, right)) = self.operator()
            && left > limit
        {
            self.take();
            rest.push(self.sub_expr(right)?);
        }
        if rest.is_empty() {
            return Ok(first);
        }
        Ok(Expression::BinaryOp(Box::new(BinaryOp { first, rest, span: self.span_from(start) })))
    }

    fn operator(&self) -> Option<(u8, u8)> {
        let is_bitwise =
            matches!(self.kind(), TokenKind::Pipe | TokenKind::Tilde | TokenKind::Ampersand);
        if is_bitwise && self.is_luau() { None } else { precedence(self.kind()) }
    }

    fn is_unary(&self) -> bool {
        match self.kind() {
            TokenKind::Not | TokenKind::Minus | TokenKind::Hash => true,
            TokenKind::Tilde => !self.is_luau(),
            _ => false,
        }
    }

    /// Luau: `value :: type`
    fn cast_expr(&mut self) -> Parsed<Expression> {
        let mut expr = self.simple_expr()?;
        while self.is_luau() && self.take_if(TokenKind::DoubleColon).is_some() {
            self.type_expr()?;
            let span = self.span_from(expr.span().start);
            if let Expression::TypeCast(cast) = &mut expr {
                cast.span = span;
            } else {
                expr = Expression::TypeCast(Box::new(TypeCast { expr, span }));
            }
        }
        Ok(expr)
    }

    fn simple_expr(&mut self) -> Parsed<Expression> {
        let span = self.token().span;
        let literal = match self.kind() {
            TokenKind::Nil => Expression::Nil(span),
            TokenKind::False => Expression::False(span),
            TokenKind::True => Expression::True(span),
            TokenKind::Number => Expression::Number(span),
            TokenKind::Integer => Expression::Integer(span),
            TokenKind::String => Expression::StringLiteral(span),
            TokenKind::TripleDot if self.function().is_vararg => Expression::VarArg(span),
            TokenKind::TripleDot => {
                return self
                    .error(span, "expected '...' only in a function that has '...' as parameter");
            }
            TokenKind::InterpolatedWhole | TokenKind::InterpolatedStart => {
                return self.interpolated_string();
            }
            TokenKind::OpenBrace => {
                return Ok(Expression::TableConstructor(self.table_constructor()?));
            }
            TokenKind::Function => return self.function_def(),
            TokenKind::At if self.is_luau() => {
                self.attributes()?;
                return self.function_def();
            }
            TokenKind::If if self.is_luau() => return self.if_expr(),
            _ => return self.suffixed_expr(),
        };
        self.take();
        Ok(literal)
    }

    fn function_def(&mut self) -> Parsed<Expression> {
        let opener = self.expect(TokenKind::Function)?;
        Ok(Expression::FunctionDef(self.function_body(opener)?))
    }

    /// Luau: `if c then a elseif d then b else e`
    fn if_expr(&mut self) -> Parsed<Expression> {
        let start = self.token().span.start;
        let mut clauses = Vec::new();
        loop {
            self.take();
            let condition = self.expr()?;
            self.expect(TokenKind::Then)?;
            clauses.push((condition, self.expr()?));
            if self.kind() != TokenKind::Elseif {
                break;
            }
        }
        self.expect(TokenKind::Else)?;
        let else_expr = self.expr()?;
        let span = self.span_from(start);
        Ok(Expression::IfExpression(Box::new(IfExpression { clauses, else_expr, span })))
    }

    /// Luau: `` `text {value} text` ``
    fn interpolated_string(&mut self) -> Parsed<Expression> {
        let first = self.take();
        let mut exprs = Vec::new();
        let mut part = first.kind;
        while matches!(part, TokenKind::InterpolatedStart | TokenKind::InterpolatedMiddle) {
            exprs.push(self.expr()?);
            part = self.kind();
            if !matches!(part, TokenKind::InterpolatedMiddle | TokenKind::InterpolatedEnd) {
                return self.unexpected("'}' to close an interpolated value");
            }
            self.take();
        }
        let span = self.span_from(first.span.start);
        Ok(Expression::InterpolatedString(InterpolatedString { exprs, span }))
    }

    fn table_constructor(&mut self) -> Parsed<TableConstructor> {
        let opener = self.take();
        let mut fields = Vec::new();
        while self.kind() != TokenKind::CloseBrace {
            fields.push(self.field()?);
            if !matches!(self.kind(), TokenKind::Comma | TokenKind::Semicolon) {
                break;
            }
            self.take();
        }
        self.expect_closing(TokenKind::CloseBrace, "'{'", opener)?;
        Ok(TableConstructor { fields, span: self.span_from(opener.span.start) })
    }

    fn field(&mut self) -> Parsed<Field> {
        if self.take_if(TokenKind::OpenBracket).is_some() {
            let key = self.expr()?;
            self.expect(TokenKind::CloseBracket)?;
            self.expect(TokenKind::Equal)?;
            return Ok(Field::Keyed(key, self.expr()?));
        }
        if self.kind() == TokenKind::Name && self.ahead(1) == TokenKind::Equal {
            self.take();
            self.take();
        }
        Ok(Field::Value(self.expr()?))
    }

    /// A name or a value in parentheses, with fields, indices and calls behind it.
    pub(super) fn suffixed_expr(&mut self) -> Parsed<Expression> {
        let start = self.token().span.start;
        let root = self.primary_expr()?;
        let mut links = Vec::new();
        while let Some(link) = self.link()? {
            links.push(link);
        }
        let span = self.span_from(start);
        let chain = |root, links| Box::new(Chain { root, links, span });
        Ok(match links.last() {
            None => root,
            Some(Link::FieldAccess) => Expression::Var(Var::FieldAccess(chain(root, links))),
            Some(Link::Index(_)) => Expression::Var(Var::Index(chain(root, links))),
            Some(Link::Call(_) | Link::MethodCall(_)) => {
                Expression::FunctionCall(FunctionCall { chain: chain(root, links) })
            }
            Some(Link::TypeInstantiation) => Expression::TypeInstantiation(chain(root, links)),
        })
    }

    fn primary_expr(&mut self) -> Parsed<Expression> {
        match self.kind() {
            TokenKind::Name => Ok(Expression::Var(Var::Name(self.take()))),
            TokenKind::OpenParen => {
                let opener = self.take();
                let expr = self.expr()?;
                self.expect_closing(TokenKind::CloseParen, "'('", opener)?;
                let span = self.span_from(opener.span.start);
                Ok(Expression::Parenthesized(Box::new(Parenthesized { expr, span })))
            }
            _ => self.unexpected("an expression"),
        }
    }

    fn link(&mut self) -> Parsed<Option<Link>> {
        Ok(Some(match self.kind() {
            TokenKind::Dot => {
                self.take();
                self.expect(TokenKind::Name)?;
                Link::FieldAccess
            }
            TokenKind::OpenBracket => {
                let opener = self.take();
                let key = self.expr()?;
                self.expect_closing(TokenKind::CloseBracket, "'['", opener)?;
                Link::Index(key)
            }
            TokenKind::Colon => {
                self.take();
                self.expect(TokenKind::Name)?;
                if self.is_type_instantiation() {
                    self.type_instantiation()?;
                }
                Link::MethodCall(self.function_args()?)
            }
            TokenKind::OpenParen | TokenKind::OpenBrace | TokenKind::String => {
                Link::Call(self.function_args()?)
            }
            TokenKind::Less if self.is_type_instantiation() => {
                self.type_instantiation()?;
                Link::TypeInstantiation
            }
            _ => return Ok(None),
        }))
    }

    fn function_args(&mut self) -> Parsed<FunctionArgs> {
        match self.kind() {
            TokenKind::String => {
                self.take();
                Ok(FunctionArgs::StringLiteral)
            }
            TokenKind::OpenBrace => Ok(FunctionArgs::TableConstructor(self.table_constructor()?)),
            TokenKind::OpenParen => {
                let opener = self.take();
                self.parenthesized_args(opener)
            }
            _ => self.unexpected("the arguments of a call"),
        }
    }

    fn parenthesized_args(&mut self, opener: Token) -> Parsed<FunctionArgs> {
        let args = match self.kind() {
            TokenKind::CloseParen => Vec::new(),
            _ => self.expr_list()?,
        };
        self.expect_closing(TokenKind::CloseParen, "'('", opener)?;
        Ok(FunctionArgs::Parenthesized(args))
    }
}
