//! Luau's types, which are read and dropped: none of them runs.

use super::{Parsed, Parser};
use crate::token::TokenKind;

impl Parser<'_> {
    /// `: type`, where there is one.
    pub(super) fn type_annotation(&mut self) -> Parsed<()> {
        if self.is_luau() && self.take_if(TokenKind::Colon).is_some() {
            self.type_expr()?;
        }
        Ok(())
    }

    /// `: type`, `: (type, type)` or `: T...` behind the parameters of a function, or behind `...`.
    pub(super) fn pack_annotation(&mut self) -> Parsed<()> {
        if self.is_luau() && self.take_if(TokenKind::Colon).is_some() {
            self.type_or_pack()?;
        }
        Ok(())
    }

    /// `<T, U = type, V...>` behind the name of a function or type.
    pub(super) fn generics(&mut self) -> Parsed<()> {
        if !self.is_luau() || self.take_if(TokenKind::Less).is_none() {
            return Ok(());
        }
        while self.kind() != TokenKind::Greater {
            self.expect(TokenKind::Name)?;
            self.take_if(TokenKind::TripleDot);
            if self.take_if(TokenKind::Equal).is_some() {
                self.type_or_pack()?;
            }
            if self.take_if(TokenKind::Comma).is_none() {
                break;
            }
        }
        self.expect(TokenKind::Greater)?;
        Ok(())
    }

    /// `<<` in Luau, which has no shift.
    pub(super) fn is_type_instantiation(&self) -> bool {
        self.is_luau() && self.kind() == TokenKind::Less && self.ahead(1) == TokenKind::Less
    }

    /// `<<type, type>>`
    pub(super) fn type_instantiation(&mut self) -> Parsed<()> {
        self.take();
        self.type_arguments()?;
        self.expect(TokenKind::Greater)?;
        Ok(())
    }

    /// `@name` and `@[name, name {..}]` before a function.
    pub(super) fn attributes(&mut self) -> Parsed<()> {
        while self.take_if(TokenKind::At).is_some() {
            if self.take_if(TokenKind::OpenBracket).is_none() {
                self.expect(TokenKind::Name)?;
                continue;
            }
            self.expr_list()?;
            self.expect(TokenKind::CloseBracket)?;
        }
        Ok(())
    }

    pub(super) fn type_expr(&mut self) -> Parsed<()> {
        self.deeper(Self::union)
    }

    fn union(&mut self) -> Parsed<()> {
        if matches!(self.kind(), TokenKind::Pipe | TokenKind::Ampersand) {
            self.take();
        }
        loop {
            self.simple_type()?;
            while self.take_if(TokenKind::Question).is_some() {}
            if !matches!(self.kind(), TokenKind::Pipe | TokenKind::Ampersand) {
                return Ok(());
            }
            self.take();
        }
    }

    /// A type, or several as one: `T...`, `...T`, `(A, B)`.
    fn type_or_pack(&mut self) -> Parsed<()> {
        if self.take_if(TokenKind::TripleDot).is_some() {
            return self.type_expr();
        }
        self.type_expr()?;
        self.take_if(TokenKind::TripleDot);
        Ok(())
    }

    fn simple_type(&mut self) -> Parsed<()> {
        match self.kind() {
            TokenKind::Nil | TokenKind::True | TokenKind::False | TokenKind::String => {
                self.take();
                Ok(())
            }
            TokenKind::OpenBrace => self.table_type(),
            TokenKind::Less => {
                self.generics()?;
                self.function_type()
            }
            TokenKind::OpenParen => self.function_type(),
            TokenKind::Name => self.named_type(),
            _ => self.unexpected("a type"),
        }
    }

    fn named_type(&mut self) -> Parsed<()> {
        let is_typeof = self.is_word(b"typeof") && self.ahead(1) == TokenKind::OpenParen;
        self.take();
        if is_typeof {
            self.take();
            self.expr()?;
            self.expect(TokenKind::CloseParen)?;
            return Ok(());
        }
        while self.take_if(TokenKind::Dot).is_some() {
            self.expect(TokenKind::Name)?;
        }
        if self.kind() == TokenKind::Less {
            self.type_arguments()?;
        }
        Ok(())
    }

    fn type_arguments(&mut self) -> Parsed<()> {
        self.expect(TokenKind::Less)?;
        while self.kind() != TokenKind::Greater {
            self.type_or_pack()?;
            if self.take_if(TokenKind::Comma).is_none() {
                break;
            }
        }
        self.expect(TokenKind::Greater)?;
        Ok(())
    }

    /// `(name: type, type, ...type) -> type`; without the arrow a type or a pack in parentheses.
    fn function_type(&mut self) -> Parsed<()> {
        let opener = self.expect(TokenKind::OpenParen)?;
        while self.kind() != TokenKind::CloseParen {
            if self.kind() == TokenKind::Name && self.ahead(1) == TokenKind::Colon {
                self.take();
                self.take();
            }
            self.type_or_pack()?;
            if self.take_if(TokenKind::Comma).is_none() {
                break;
            }
        }
        self.expect_closing(TokenKind::CloseParen, "'('", opener)?;
        if self.take_if(TokenKind::Arrow).is_some() {
            self.deeper(Self::type_or_pack)?;
        }
        Ok(())
    }

    fn table_type(&mut self) -> Parsed<()> {
        let opener = self.take();
        while self.kind() != TokenKind::CloseBrace {
            self.table_type_field()?;
            if !matches!(self.kind(), TokenKind::Comma | TokenKind::Semicolon) {
                break;
            }
            self.take();
        }
        self.expect_closing(TokenKind::CloseBrace, "'{'", opener)?;
        Ok(())
    }

    /// `type`, `name: type` or `[type]: type`, the last two with `read` or `write` before them.
    fn table_type_field(&mut self) -> Parsed<()> {
        let is_access = self.is_word(b"read") || self.is_word(b"write");
        if is_access && matches!(self.ahead(1), TokenKind::Name | TokenKind::OpenBracket) {
            self.take();
        }
        if self.take_if(TokenKind::OpenBracket).is_some() {
            self.type_expr()?;
            self.expect(TokenKind::CloseBracket)?;
            self.expect(TokenKind::Colon)?;
        } else if self.kind() == TokenKind::Name && self.ahead(1) == TokenKind::Colon {
            self.take();
            self.take();
        }
        self.type_expr()
    }
}
