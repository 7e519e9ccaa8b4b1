//! Scopes, locals and references of a script, with luck's names.

use std::collections::HashSet;

use crate::token::Span;

/// Ids are places in the tables of a [`ScopeTree`].
macro_rules! define_index_id {
    ($name:ident) => {
        #[derive(Debug, Clone, Copy, PartialEq, Eq, PartialOrd, Ord, Hash)]
        pub struct $name(u32);

        impl $name {
            pub(crate) fn from_index(index: usize) -> Self {
                Self(u32::try_from(index).expect("a script below 4 GiB has fewer names"))
            }

            #[must_use]
            pub const fn index(self) -> usize {
                self.0 as usize
            }
        }
    };
}

define_index_id!(ScopeId);
define_index_id!(SymbolId);
define_index_id!(ReferenceId);

#[derive(Debug, Default)]
pub struct ScopeTree<'source> {
    pub scopes: Vec<Scope>,
    pub symbols: Vec<Symbol<'source>>,
    /// In the order in which they are evaluated.
    pub references: Vec<Reference>,
    /// References of the name `error` by their start: the only ones that are asked for by place.
    pub(crate) error_references: Vec<(u32, ReferenceId)>,
    /// Globals that this script writes as free names.
    pub assigned_globals: HashSet<&'source [u8]>,
    /// Some assignment of the script writes to its `_ENV`: no free name is sure to be a global then.
    pub is_env_assigned: bool,
}

#[derive(Debug, Clone, Copy)]
pub struct Scope {
    pub parent: Option<ScopeId>,
    pub kind: ScopeKind,
}

#[derive(Debug, Clone, Copy, PartialEq, Eq)]
pub enum ScopeKind {
    Module,
    Function,
    /// What `do` opens, or an arm of an `if`.
    Block,
    /// The body of a loop.
    Loop,
}

#[derive(Debug)]
pub struct Symbol<'source> {
    pub name: &'source [u8],
    pub scope: ScopeId,
    pub kind: SymbolKind,
    pub definition_span: Span,
    pub reference_ids: Vec<ReferenceId>,
    /// A function nested in the one that declares it uses it.
    pub is_upvalue: bool,
    pub is_modified: bool,
}

#[derive(Debug, Clone, Copy, PartialEq, Eq)]
pub enum SymbolKind {
    Local,
    Parameter,
    IteratorVariable,
    NumericForVariable,
    FunctionName,
    /// What a method's `function t:m()` declares unsaid: `self`.
    ImplicitSelf,
}

#[derive(Debug, Clone, Copy)]
pub struct Reference {
    pub span: Span,
    pub kind: ReferenceKind,
    pub scope: ScopeId,
    /// The local that the name means; a free name means none.
    pub resolved: Option<SymbolId>,
    /// Where a local `_ENV` is in scope, that local: a free name is looked up in it.
    pub env: Option<SymbolId>,
}

#[derive(Debug, Clone, Copy, PartialEq, Eq)]
pub enum ReferenceKind {
    Read,
    Write,
    ReadWrite,
}

impl ReferenceKind {
    #[must_use]
    pub const fn is_write(self) -> bool {
        matches!(self, Self::Write | Self::ReadWrite)
    }
}

impl ScopeTree<'_> {
    #[must_use]
    pub fn symbol(&self, id: SymbolId) -> &Symbol<'_> {
        &self.symbols[id.index()]
    }

    #[must_use]
    pub fn reference(&self, id: ReferenceId) -> &Reference {
        &self.references[id.index()]
    }

    /// The reference of the name `error` that stands at `span`.
    #[must_use]
    pub fn error_reference_at(&self, span: Span) -> Option<&Reference> {
        let index =
            self.error_references.binary_search_by_key(&span.start, |(start, _)| *start).ok()?;
        Some(self.reference(self.error_references[index].1))
    }

    /// Whether a function lies between the scope `from` and the scope `to` around it.
    #[must_use]
    pub fn crosses_function_boundary(&self, from: ScopeId, to: ScopeId) -> bool {
        let mut current = Some(from);
        while let Some(id) = current
            && id != to
        {
            let scope = &self.scopes[id.index()];
            if scope.kind == ScopeKind::Function {
                return true;
            }
            current = scope.parent;
        }
        false
    }
}
