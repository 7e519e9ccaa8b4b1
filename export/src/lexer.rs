//! From bytes to tokens, in one pass. Comments and white space are left out.

use crate::numeral::{is_plain, numeral};
use crate::token::{Dialect, Span, SyntaxError, Token, TokenKind, keyword};

/// The tokens of a script, the last one `EndOfFile`, or `Invalid` where
/// `error` says what no token can be made of.
#[derive(Debug)]
pub struct Lexed {
    pub tokens: Vec<Token>,
    pub error: Option<SyntaxError>,
}

/// Takes scripts below 4 GiB: offsets have 32 bits.
#[must_use]
pub fn lex(source: &[u8], dialect: Dialect) -> Lexed {
    let mut lexer = Lexer {
        source,
        at: 0,
        dialect,
        tokens: Vec::with_capacity(source.len() / 4),
        open_braces: Vec::new(),
    };
    lexer.skip_first_line();
    let error = lexer.run().err();
    let start = error.as_ref().map_or(lexer.at, |error| error.span.start as usize);
    let kind = if error.is_some() { TokenKind::Invalid } else { TokenKind::EndOfFile };
    let span = Span::new(start as u32, start.max(lexer.at) as u32);
    lexer.tokens.push(Token { kind, span });
    Lexed { tokens: lexer.tokens, error }
}

struct Lexer<'source> {
    source: &'source [u8],
    at: usize,
    dialect: Dialect,
    tokens: Vec<Token>,
    /// For each interpolated string that is open, how many braces are open in its expression.
    open_braces: Vec<u32>,
}

impl Lexer<'_> {
    fn peek(&self, ahead: usize) -> u8 {
        self.source.get(self.at + ahead).copied().unwrap_or(0)
    }

    fn is_at_end(&self) -> bool {
        self.at >= self.source.len()
    }

    fn error<T>(&self, start: usize, message: impl Into<String>) -> Result<T, SyntaxError> {
        let end = self.at.clamp(start, self.source.len());
        Err(SyntaxError::new(Span::new(start as u32, end as u32), message))
    }

    /// Lua's own loader passes over a byte order mark and a first line that begins with #.
    fn skip_first_line(&mut self) {
        if self.source.starts_with(b"\xef\xbb\xbf") {
            self.at = 3;
        }
        if self.peek(0) == b'#' {
            self.skip_line();
        }
    }

    fn skip_line(&mut self) {
        while !self.is_at_end() && !matches!(self.peek(0), b'\n' | b'\r') {
            self.at += 1;
        }
    }

    fn run(&mut self) -> Result<(), SyntaxError> {
        loop {
            self.skip_blanks()?;
            if self.is_at_end() {
                return self.close_interpolation();
            }
            let start = self.at;
            let kind = self.token()?;
            self.tokens.push(Token { kind, span: Span::new(start as u32, self.at as u32) });
        }
    }

    fn close_interpolation(&self) -> Result<(), SyntaxError> {
        if self.open_braces.is_empty() {
            return Ok(());
        }
        self.error(
            self.at,
            "expected '}' to close an interpolated value, found the end of the file",
        )
    }

    fn skip_blanks(&mut self) -> Result<(), SyntaxError> {
        loop {
            match self.peek(0) {
                b' ' | b'\t'..=b'\r' => self.at += 1,
                b'-' if self.peek(1) == b'-' => self.comment()?,
                _ => return Ok(()),
            }
        }
    }

    fn comment(&mut self) -> Result<(), SyntaxError> {
        let start = self.at;
        self.at += 2;
        match self.long_bracket_level() {
            Some(level) => self.long_bracket(start, level, "comment"),
            None => {
                self.skip_line();
                Ok(())
            }
        }
    }

    /// How many = stand in an opening long bracket here, if there is one.
    fn long_bracket_level(&self) -> Option<usize> {
        if self.peek(0) != b'[' {
            return None;
        }
        let rest = &self.source[self.at + 1..];
        let level = rest.iter().take_while(|byte| **byte == b'=').count();
        (rest.get(level) == Some(&b'[')).then_some(level)
    }

    fn long_bracket(&mut self, start: usize, level: usize, what: &str) -> Result<(), SyntaxError> {
        self.at += level + 2;
        loop {
            if self.is_at_end() {
                let closer = format!("]{}]", "=".repeat(level));
                self.at = start + 2;
                return self.error(start, format!("expected '{closer}' to close this long {what}"));
            }
            let closes = self.peek(0) == b']'
                && self.source[self.at + 1..].iter().take_while(|byte| **byte == b'=').count()
                    == level
                && self.peek(level + 1) == b']';
            if closes {
                self.at += level + 2;
                return Ok(());
            }
            self.at += 1;
        }
    }

    fn token(&mut self) -> Result<TokenKind, SyntaxError> {
        let start = self.at;
        match self.peek(0) {
            b'a'..=b'z' | b'A'..=b'Z' | b'_' => Ok(self.name()),
            b'0'..=b'9' => self.number(),
            b'.' if self.peek(1).is_ascii_digit() => self.number(),
            quote @ (b'"' | b'\'') => self.string(quote),
            b'[' => match self.long_bracket_level() {
                Some(level) => {
                    self.long_bracket(start, level, "string")?;
                    Ok(TokenKind::String)
                }
                None if self.peek(1) == b'=' => self.error(start, "expected '[' after '[='"),
                None => Ok(self.symbol(TokenKind::OpenBracket, 1)),
            },
            b'`' if self.dialect == Dialect::Luau => {
                self.at += 1;
                self.interpolated(start, TokenKind::InterpolatedWhole, TokenKind::InterpolatedStart)
            }
            b'{' => {
                if let Some(count) = self.open_braces.last_mut() {
                    *count += 1;
                }
                Ok(self.symbol(TokenKind::OpenBrace, 1))
            }
            b'}' => self.close_brace(),
            _ => self.operator(),
        }
    }

    fn symbol(&mut self, kind: TokenKind, length: usize) -> TokenKind {
        self.at += length;
        kind
    }

    fn name(&mut self) -> TokenKind {
        let start = self.at;
        while matches!(self.peek(0), b'a'..=b'z' | b'A'..=b'Z' | b'_' | b'0'..=b'9') {
            self.at += 1;
        }
        keyword(&self.source[start..self.at]).unwrap_or(TokenKind::Name)
    }

    /// Takes all that could belong to a numeral, as Lua does, and then looks
    /// whether it is one: `3e` and `3..2` are malformed and not two tokens.
    /// 5.2 and 5.3 end before a letter that is no digit: `x=3y=4` is theirs.
    fn number(&mut self) -> Result<TokenKind, SyntaxError> {
        let start = self.at;
        let whole = self.number_end(|byte| byte.is_ascii_alphanumeric() || byte == b'_');
        let digits = self.number_end(|byte| byte.is_ascii_hexdigit());
        self.at = whole;
        let text = &self.source[start..whole];
        if let Some(kind) = numeral(text, self.dialect) {
            return Ok(kind);
        }
        if self.dialect == Dialect::Lua && is_plain(&self.source[start..digits]) {
            self.at = digits;
            return Ok(TokenKind::Number);
        }
        let text = String::from_utf8_lossy(text).into_owned();
        self.error(start, format!("expected a number, found '{text}'"))
    }

    /// Where a numeral ends that has such letters besides points and exponents.
    fn number_end(&self, is_letter: fn(u8) -> bool) -> usize {
        let rest = &self.source[self.at..];
        let is_hex = matches!(rest, [b'0', b'x' | b'X', ..]);
        let exponent = if is_hex { b'p' } else { b'e' };
        let mut length = if is_hex { 2 } else { 1 };
        loop {
            length += match rest[length..] {
                [mark, b'+' | b'-', ..] if mark.eq_ignore_ascii_case(&exponent) => 2,
                [mark, ..] if mark.eq_ignore_ascii_case(&exponent) => 1,
                [byte, ..] if byte == b'.' || is_letter(byte) => 1,
                _ => return self.at + length,
            }
        }
    }

    fn string(&mut self, quote: u8) -> Result<TokenKind, SyntaxError> {
        let start = self.at;
        self.at += 1;
        loop {
            match self.peek(0) {
                byte if byte == quote => return Ok(self.symbol(TokenKind::String, 1)),
                b'\\' => self.escape()?,
                b'\n' | b'\r' => return self.unclosed(start, quote, "the end of the line"),
                _ if self.is_at_end() => return self.unclosed(start, quote, "the end of the file"),
                _ => self.at += 1,
            }
        }
    }

    fn unclosed<T>(&self, start: usize, quote: u8, found: &str) -> Result<T, SyntaxError> {
        let quote = char::from(quote);
        self.error(start, format!("expected {quote} to close this string, found {found}"))
    }

    /// 5.1 takes any letter behind a backslash, so only a number too large is refused.
    fn escape(&mut self) -> Result<(), SyntaxError> {
        let start = self.at;
        self.at += 1;
        match self.peek(0) {
            b'0'..=b'9' => {
                let digits = (0..3).take_while(|ahead| self.peek(*ahead).is_ascii_digit()).count();
                let value = self.source[self.at..self.at + digits]
                    .iter()
                    .fold(0, |value, byte| 10 * value + u32::from(byte - b'0'));
                self.at += digits;
                if value > 255 {
                    return self.error(start, "expected at most 255 in a decimal escape");
                }
            }
            b'z' => {
                self.at += 1;
                while !self.is_at_end() && matches!(self.peek(0), b' ' | b'\t'..=b'\r') {
                    self.at += 1;
                }
            }
            b'\r' if self.peek(1) == b'\n' => self.at += 2,
            b'\n' if self.peek(1) == b'\r' => self.at += 2,
            _ if self.is_at_end() => {}
            _ => self.at += 1,
        }
        Ok(())
    }

    /// Text of an interpolated string up to its end, or up to the next value.
    fn interpolated(
        &mut self,
        start: usize,
        at_end: TokenKind,
        at_value: TokenKind,
    ) -> Result<TokenKind, SyntaxError> {
        loop {
            match self.peek(0) {
                b'`' => return Ok(self.symbol(at_end, 1)),
                b'{' => {
                    self.open_braces.push(0);
                    return Ok(self.symbol(at_value, 1));
                }
                b'\\' if matches!(self.peek(1), b'u') && self.peek(2) == b'{' => self.at += 3,
                b'\\' => self.escape()?,
                b'\n' | b'\r' => return self.unclosed(start, b'`', "the end of the line"),
                _ if self.is_at_end() => return self.unclosed(start, b'`', "the end of the file"),
                _ => self.at += 1,
            }
        }
    }

    fn close_brace(&mut self) -> Result<TokenKind, SyntaxError> {
        let start = self.at;
        self.at += 1;
        match self.open_braces.last_mut() {
            Some(0) => {
                self.open_braces.pop();
                self.interpolated(start, TokenKind::InterpolatedEnd, TokenKind::InterpolatedMiddle)
            }
            Some(count) => {
                *count -= 1;
                Ok(TokenKind::CloseBrace)
            }
            None => Ok(TokenKind::CloseBrace),
        }
    }

    fn operator(&mut self) -> Result<TokenKind, SyntaxError> {
        let start = self.at;
        let rest = &self.source[self.at..];
        let own: &[(&[u8], TokenKind)] = match self.dialect {
            Dialect::Lua => &LUA_OPERATORS,
            Dialect::Luau => &LUAU_OPERATORS,
        };
        let found = own.iter().chain(&OPERATORS).find(|(text, _)| rest.starts_with(text));
        if let Some((text, kind)) = found {
            return Ok(self.symbol(*kind, text.len()));
        }
        self.at += 1;
        let byte = self.source[start];
        if byte.is_ascii_graphic() {
            let letter = char::from(byte);
            return self.error(start, format!("expected a token, found '{letter}'"));
        }
        self.error(start, format!("expected a token, found the byte {byte}"))
    }
}

/// Longer ones before those they begin with.
const LUA_OPERATORS: [(&[u8], TokenKind); 2] =
    [(b"<<", TokenKind::ShiftLeft), (b">>", TokenKind::ShiftRight)];

/// Luau has no shifts: `>>` closes two lists of types.
const LUAU_OPERATORS: [(&[u8], TokenKind); 11] = [
    (b"//=", TokenKind::CompoundEqual),
    (b"..=", TokenKind::CompoundEqual),
    (b"+=", TokenKind::CompoundEqual),
    (b"-=", TokenKind::CompoundEqual),
    (b"*=", TokenKind::CompoundEqual),
    (b"/=", TokenKind::CompoundEqual),
    (b"%=", TokenKind::CompoundEqual),
    (b"^=", TokenKind::CompoundEqual),
    (b"->", TokenKind::Arrow),
    (b"?", TokenKind::Question),
    (b"@", TokenKind::At),
];

const OPERATORS: [(&[u8], TokenKind); 29] = [
    (b"...", TokenKind::TripleDot),
    (b"..", TokenKind::DoubleDot),
    (b"==", TokenKind::DoubleEqual),
    (b"~=", TokenKind::NotEqual),
    (b"<=", TokenKind::LessEqual),
    (b">=", TokenKind::GreaterEqual),
    (b"//", TokenKind::DoubleSlash),
    (b"::", TokenKind::DoubleColon),
    (b"(", TokenKind::OpenParen),
    (b")", TokenKind::CloseParen),
    (b",", TokenKind::Comma),
    (b".", TokenKind::Dot),
    (b"=", TokenKind::Equal),
    (b":", TokenKind::Colon),
    (b";", TokenKind::Semicolon),
    (b"]", TokenKind::CloseBracket),
    (b"+", TokenKind::Plus),
    (b"-", TokenKind::Minus),
    (b"*", TokenKind::Star),
    (b"/", TokenKind::Slash),
    (b"%", TokenKind::Percent),
    (b"^", TokenKind::Caret),
    (b"#", TokenKind::Hash),
    (b"<", TokenKind::Less),
    (b">", TokenKind::Greater),
    (b"&", TokenKind::Ampersand),
    (b"~", TokenKind::Tilde),
    (b"|", TokenKind::Pipe),
    (b"[", TokenKind::OpenBracket),
];
