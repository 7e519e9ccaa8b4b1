//! From tokens to the tree, by recursive descent. The first error ends it.

mod expressions;
mod statements;
mod types;

use crate::ast::{Block, LastStatement, ReturnStatement, Statement};
use crate::lexer::lex;
use crate::token::{Dialect, Span, SyntaxError, Token, TokenKind};

type Parsed<T> = Result<T, SyntaxError>;

/// Lua's own compilers stop at about so many levels of statements and expressions in each other.
pub const LEVELS: u32 = 200;

/// The tree of a script, or its first error.
///
/// # Errors
///
/// Where the text is no script of the dialect.
pub fn parse(source: &[u8], dialect: Dialect) -> Parsed<Block> {
    let lexed = lex(source, dialect);
    let mut parser = Parser {
        source,
        dialect,
        tokens: &lexed.tokens,
        lexer_error: lexed.error.as_ref(),
        at: 0,
        level: 0,
        functions: vec![Function { is_vararg: true, open_loops: 0 }],
    };
    let block = parser.block()?;
    if parser.kind() != TokenKind::EndOfFile {
        return parser.unexpected("a statement or the end of the file");
    }
    Ok(block)
}

/// What a statement has to know of the function around it.
struct Function {
    is_vararg: bool,
    open_loops: u32,
}

struct Parser<'source> {
    source: &'source [u8],
    dialect: Dialect,
    /// Never empty, and the last one is never taken.
    tokens: &'source [Token],
    lexer_error: Option<&'source SyntaxError>,
    at: usize,
    level: u32,
    /// The functions around this place, the script itself first.
    functions: Vec<Function>,
}

impl<'source> Parser<'source> {
    // ---- Tokens ----

    fn token(&self) -> Token {
        self.tokens[self.at]
    }

    fn kind(&self) -> TokenKind {
        self.token().kind
    }

    fn ahead(&self, count: usize) -> TokenKind {
        self.tokens.get(self.at + count).map_or(TokenKind::EndOfFile, |token| token.kind)
    }

    fn text(&self, token: Token) -> &'source [u8] {
        token.span.text(self.source)
    }

    fn is_word(&self, word: &[u8]) -> bool {
        self.kind() == TokenKind::Name && self.text(self.token()) == word
    }

    fn is_luau(&self) -> bool {
        self.dialect == Dialect::Luau
    }

    fn take(&mut self) -> Token {
        let token = self.token();
        if self.at + 1 < self.tokens.len() {
            self.at += 1;
        }
        token
    }

    fn take_if(&mut self, kind: TokenKind) -> Option<Token> {
        (self.kind() == kind).then(|| self.take())
    }

    fn expect(&mut self, kind: TokenKind) -> Parsed<Token> {
        if self.kind() == kind {
            return Ok(self.take());
        }
        self.unexpected(kind.text())
    }

    /// As `expect`, for what closes something: the error says where that begins.
    fn expect_closing(
        &mut self,
        kind: TokenKind,
        what: &'static str,
        opener: Token,
    ) -> Parsed<Token> {
        self.expect(kind).map_err(|mut error| {
            // What is said of another place than this one says enough.
            if self.kind() != TokenKind::Invalid && error.span == self.token().span {
                error.opened = Some((what, opener.span));
            }
            error
        })
    }

    /// Where what was taken last ends.
    fn last_end(&self) -> u32 {
        self.at.checked_sub(1).map_or(0, |last| self.tokens[last].span.end)
    }

    fn span_from(&self, start: u32) -> Span {
        Span::new(start, self.last_end().max(start))
    }

    // ---- Errors ----

    fn unexpected<T>(&self, expected: &str) -> Parsed<T> {
        let token = self.token();
        if let (TokenKind::Invalid, Some(error)) = (token.kind, self.lexer_error) {
            return Err(error.clone());
        }
        if let Some(span) = self.letters_behind_a_number() {
            let text = String::from_utf8_lossy(span.text(self.source));
            return self.error(span, format!("expected a number, found '{text}'"));
        }
        let found = match token.kind {
            TokenKind::Name | TokenKind::Number | TokenKind::Integer | TokenKind::CompoundEqual => {
                format!("'{}'", String::from_utf8_lossy(self.text(token)))
            }
            kind => kind.text().to_owned(),
        };
        Err(SyntaxError::new(token.span, format!("expected {expected}, found {found}")))
    }

    /// A number and the word that touches it, here or just before. 5.2 and 5.3 take them for two
    /// tokens; where that leads nowhere, it was meant for one.
    fn letters_behind_a_number(&self) -> Option<Span> {
        let around = &self.tokens[self.at.saturating_sub(2)..=self.at];
        let is_word = |token: &Token| {
            self.text(*token)
                .first()
                .is_some_and(|byte| byte.is_ascii_alphabetic() || *byte == b'_')
        };
        let touching = around.windows(2).find(|pair| {
            pair[0].kind == TokenKind::Number
                && pair[0].span.end == pair[1].span.start
                && is_word(&pair[1])
        });
        touching.map(|pair| Span::new(pair[0].span.start, pair[1].span.end))
    }

    fn error<T>(&self, span: Span, message: impl Into<String>) -> Parsed<T> {
        Err(SyntaxError::new(span, message))
    }

    /// Runs one level deeper, so that no script takes more than a known stack.
    fn deeper<T>(&mut self, parse: impl FnOnce(&mut Self) -> Parsed<T>) -> Parsed<T> {
        if self.level == LEVELS {
            let message = format!("expected at most {LEVELS} levels of blocks and expressions");
            return self.error(self.token().span, message);
        }
        self.level += 1;
        let parsed = parse(self);
        self.level -= 1;
        parsed
    }

    // ---- Blocks ----

    fn function(&mut self) -> &mut Function {
        self.functions.last_mut().expect("the script itself is never left")
    }

    fn block_ends_here(&self) -> bool {
        matches!(
            self.kind(),
            TokenKind::End
                | TokenKind::Else
                | TokenKind::Elseif
                | TokenKind::Until
                | TokenKind::EndOfFile
        )
    }

    fn block(&mut self) -> Parsed<Block> {
        let start = self.token().span.start;
        let mut stmts = Vec::new();
        let mut last_stmt = None;
        while !self.block_ends_here() {
            if self.kind() == TokenKind::Return {
                last_stmt = Some(self.return_stmt()?);
                break;
            }
            if self.is_continue() {
                last_stmt = Some(self.continue_stmt()?);
                break;
            }
            stmts.push(self.deeper(Self::stmt)?);
        }
        if last_stmt.is_none()
            && let Some(Statement::Break(span)) = stmts.last()
        {
            last_stmt = Some(LastStatement::Break(*span));
            stmts.pop();
        }
        let end = self.token().span.start;
        Ok(Block { stmts, last_stmt, span: Span::new(start, end) })
    }

    fn loop_block(&mut self) -> Parsed<Block> {
        self.function().open_loops += 1;
        let block = self.block();
        self.function().open_loops -= 1;
        block
    }

    /// A `;` behind it is part of it: nothing may follow a RETURN on a sheet.
    fn return_stmt(&mut self) -> Parsed<LastStatement> {
        let start = self.take().span.start;
        let has_values = !self.block_ends_here() && self.kind() != TokenKind::Semicolon;
        let exprs = if has_values { self.expr_list()? } else { Vec::new() };
        self.take_if(TokenKind::Semicolon);
        if !self.block_ends_here() {
            return self.unexpected("the end of the block after 'return'");
        }
        Ok(LastStatement::Return(ReturnStatement { exprs, span: self.span_from(start) }))
    }

    /// Luau's `continue` is a name wherever it is called, looked into or assigned.
    fn is_continue(&self) -> bool {
        self.is_luau()
            && self.is_word(b"continue")
            && !matches!(
                self.ahead(1),
                TokenKind::OpenParen
                    | TokenKind::OpenBrace
                    | TokenKind::OpenBracket
                    | TokenKind::String
                    | TokenKind::Dot
                    | TokenKind::Colon
                    | TokenKind::Comma
                    | TokenKind::Equal
                    | TokenKind::CompoundEqual
            )
    }

    fn continue_stmt(&mut self) -> Parsed<LastStatement> {
        let start = self.take().span;
        if self.function().open_loops == 0 {
            return self.error(start, "expected a loop around 'continue'");
        }
        self.take_if(TokenKind::Semicolon);
        if !self.block_ends_here() {
            return self.unexpected("the end of the block after 'continue'");
        }
        Ok(LastStatement::Continue(self.span_from(start.start)))
    }
}
