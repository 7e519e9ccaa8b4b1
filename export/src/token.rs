//! Tokens and places in a script. All places are byte offsets.

#[derive(Debug, Clone, Copy, PartialEq, Eq, Hash, PartialOrd, Ord, Default)]
pub struct Span {
    pub start: u32,
    pub end: u32,
}

impl Span {
    #[must_use]
    pub const fn new(start: u32, end: u32) -> Self {
        Self { start, end }
    }

    #[must_use]
    pub fn text(self, source: &[u8]) -> &[u8] {
        source.get(self.start as usize..self.end as usize).unwrap_or_default()
    }
}

/// Which grammar a script is read with.
#[derive(Debug, Clone, Copy, PartialEq, Eq)]
pub enum Dialect {
    /// Lua 5.1 to 5.5 in one, with LuaJIT's numerals.
    Lua,
    Luau,
}

#[derive(Debug, Clone, Copy, PartialEq, Eq)]
pub struct Token {
    pub kind: TokenKind,
    pub span: Span,
}

/// The kinds, each with how a message calls it.
macro_rules! token_kinds {
    ($($kind:ident $text:literal,)*) => {
        #[derive(Debug, Clone, Copy, PartialEq, Eq)]
        pub enum TokenKind {
            $($kind,)*
        }

        impl TokenKind {
            #[must_use]
            pub const fn text(self) -> &'static str {
                match self {
                    $(Self::$kind => $text,)*
                }
            }
        }
    };
}

token_kinds! {
    Name "a name",
    Number "a number",
    Integer "an integer",
    String "a string",
    InterpolatedWhole "an interpolated string",
    InterpolatedStart "an interpolated string",
    InterpolatedMiddle "the rest of an interpolated string",
    InterpolatedEnd "the end of an interpolated string",
    And "'and'",
    Break "'break'",
    Do "'do'",
    Else "'else'",
    Elseif "'elseif'",
    End "'end'",
    False "'false'",
    For "'for'",
    Function "'function'",
    If "'if'",
    In "'in'",
    Local "'local'",
    Nil "'nil'",
    Not "'not'",
    Or "'or'",
    Repeat "'repeat'",
    Return "'return'",
    Then "'then'",
    True "'true'",
    Until "'until'",
    While "'while'",
    Plus "'+'",
    Minus "'-'",
    Star "'*'",
    Slash "'/'",
    DoubleSlash "'//'",
    Percent "'%'",
    Caret "'^'",
    Hash "'#'",
    Ampersand "'&'",
    Tilde "'~'",
    Pipe "'|'",
    ShiftLeft "'<<'",
    ShiftRight "'>>'",
    DoubleEqual "'=='",
    NotEqual "'~='",
    LessEqual "'<='",
    GreaterEqual "'>='",
    Less "'<'",
    Greater "'>'",
    Equal "'='",
    CompoundEqual "a compound assignment",
    OpenParen "'('",
    CloseParen "')'",
    OpenBrace "'{'",
    CloseBrace "'}'",
    OpenBracket "'['",
    CloseBracket "']'",
    Semicolon "';'",
    Colon "':'",
    DoubleColon "'::'",
    Comma "','",
    Dot "'.'",
    DoubleDot "'..'",
    TripleDot "'...'",
    Arrow "'->'",
    Question "'?'",
    At "'@'",
    Invalid "what is no token",
    EndOfFile "the end of the file",
}

/// The reserved words that every version has. `goto`, `global` and Luau's own
/// words are names elsewhere, so the parser tells them by what follows.
#[must_use]
pub fn keyword(text: &[u8]) -> Option<TokenKind> {
    Some(match text {
        b"and" => TokenKind::And,
        b"break" => TokenKind::Break,
        b"do" => TokenKind::Do,
        b"else" => TokenKind::Else,
        b"elseif" => TokenKind::Elseif,
        b"end" => TokenKind::End,
        b"false" => TokenKind::False,
        b"for" => TokenKind::For,
        b"function" => TokenKind::Function,
        b"if" => TokenKind::If,
        b"in" => TokenKind::In,
        b"local" => TokenKind::Local,
        b"nil" => TokenKind::Nil,
        b"not" => TokenKind::Not,
        b"or" => TokenKind::Or,
        b"repeat" => TokenKind::Repeat,
        b"return" => TokenKind::Return,
        b"then" => TokenKind::Then,
        b"true" => TokenKind::True,
        b"until" => TokenKind::Until,
        b"while" => TokenKind::While,
        _ => return None,
    })
}

/// Why a script is no Lua: the place, what is wrong there, and where a thing
/// begins that should have been closed.
#[derive(Debug, Clone, PartialEq, Eq)]
pub struct SyntaxError {
    pub span: Span,
    pub message: String,
    pub opened: Option<(&'static str, Span)>,
}

impl SyntaxError {
    #[must_use]
    pub fn new(span: Span, message: impl Into<String>) -> Self {
        Self { span, message: message.into(), opened: None }
    }
}
