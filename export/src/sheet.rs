//! A sheet and its use sheet, as document 01 lays them out.

use crate::token::Span;

/// The most that the unit takes.
pub const MOST_ITEMS: usize = 1_024;
pub const MOST_USES: usize = 1_024;
pub const MOST_DEPTH: usize = 64;

/// A LOCAL's argument where a call or `...` comes last.
pub const MANY_VALUES: u64 = 65_535;

#[derive(Debug, Clone, Copy, PartialEq, Eq)]
#[repr(u8)]
pub enum Kind {
    Do = 1,
    While = 2,
    Repeat = 3,
    For = 4,
    If = 5,
    Elseif = 6,
    Else = 7,
    End = 8,
    Until = 9,
    Local = 10,
    Name = 11,
    Label = 12,
    Goto = 13,
    Break = 14,
    Continue = 15,
    Return = 16,
    Call = 17,
    Plain = 18,
    Empty = 19,
}

#[derive(Debug, Clone, Copy, PartialEq, Eq)]
pub struct Item {
    pub kind: Kind,
    pub argument: u64,
    /// 0-0 for a kind without span.
    pub span: Span,
}

/// The statements of one block, a condition's number being 0 where the kind has none.
#[derive(Debug, Clone, PartialEq, Eq)]
pub struct Sheet {
    pub outer_end: u32,
    pub items: Vec<Item>,
}

#[derive(Debug, Clone, Copy, PartialEq, Eq)]
pub enum UseKind {
    Read = 0,
    Write = 1,
    ReadWrite = 2,
}

#[derive(Debug, Clone, Copy, PartialEq, Eq)]
pub struct Use {
    pub local: usize,
    pub kind: UseKind,
    pub is_crossing: bool,
    pub span: Span,
}

#[derive(Debug, Clone, PartialEq, Eq, Default)]
pub struct UseSheet {
    pub uses: Vec<Use>,
}

#[must_use]
pub const fn span_word(span: Span) -> u64 {
    span.start as u64 + ((span.end as u64) << 32)
}

/// Condition and scope end of the kinds 1 to 7 as one argument.
#[must_use]
pub const fn scope_argument(condition: u64, scope_end: u32) -> u64 {
    condition + 32 * scope_end as u64
}

impl Sheet {
    #[must_use]
    pub fn words(&self) -> Vec<u64> {
        let head = [self.items.len() as u64, u64::from(self.outer_end)];
        let items = self.items.iter().map(|item| item.kind as u64 + 256 * item.argument);
        let spans = self.items.iter().map(|item| span_word(item.span));
        head.into_iter().chain(items).chain(spans).collect()
    }
}

impl UseSheet {
    #[must_use]
    pub fn words(&self) -> Vec<u64> {
        let uses = self.uses.iter().map(|used| {
            let high = used.kind as u64 + 4 * u64::from(used.is_crossing);
            used.local as u64 + 65_536 * high
        });
        let spans = self.uses.iter().map(|used| span_word(used.span));
        std::iter::once(self.uses.len() as u64).chain(uses).chain(spans).collect()
    }
}
