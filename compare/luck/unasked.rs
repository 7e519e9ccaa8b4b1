//! What luck's files name besides the flow: rules, configuration and the
//! standard library model. It has to compile, and nothing here is called.

use crate::CompactString;

#[derive(Debug, Default)]
pub struct LintConfig;

pub mod diagnostic {
    pub struct Category;
    pub struct Finding;
    pub struct Severity;
}

pub mod builder {
    use crate::{Block, LuaVersion, ScopeTree};

    pub fn build(_block: &Block, _version: LuaVersion) -> ScopeTree {
        unreachable!("scopes come from the sheet")
    }
}

pub mod resolve {
    use super::stdlib_model::{StdlibEntry, StdlibLibrary};
    use crate::{Block, CompactString, Expression, FxHashMap, ScopeTree, SymbolId};

    type Shapes = FxHashMap<SymbolId, CompactString>;

    pub struct ShapeResolver<'call>(&'call ScopeTree);

    impl<'call> ShapeResolver<'call> {
        pub fn new(tree: &'call ScopeTree, _: &'static StdlibLibrary, _: &'call Shapes) -> Self {
            Self(tree)
        }

        pub fn method_callee(
            &self,
            _callee: &'call Expression,
            _method: &str,
        ) -> Option<(&'call CompactString, &'call StdlibEntry)> {
            None
        }

        pub fn global_path(&self, _callee: &'call Expression) -> Option<Vec<&'call str>> {
            None
        }
    }

    pub fn symbol_shapes(_: &ScopeTree, _: &StdlibLibrary, _: &Block) -> Shapes {
        Shapes::default()
    }
}

pub mod stdlib_load {
    use super::stdlib_model::StdlibLibrary;
    use crate::{LuaVersion, StdlibEnvironment};

    pub fn library_for(_: LuaVersion, _: StdlibEnvironment) -> &'static StdlibLibrary {
        unreachable!("no standard library is asked for")
    }
}

pub mod stdlib_model {
    use crate::{CompactString, FxHashMap};

    #[derive(Debug)]
    pub enum StdlibEntry {
        Function(StdlibFunction),
        Value,
    }

    #[derive(Debug)]
    pub struct StdlibFunction {
        pub is_method: bool,
    }

    impl StdlibEntry {
        pub fn is_read_only(&self) -> bool {
            false
        }
    }

    #[derive(Debug)]
    pub struct StdlibLibrary {
        pub globals: FxHashMap<CompactString, StdlibEntry>,
    }

    impl StdlibLibrary {
        pub fn lookup(&self, _segments: &[&str]) -> Option<&StdlibEntry> {
            None
        }

        pub fn shape_member(&self, _shape: &str, _name: &str) -> Option<&StdlibEntry> {
            None
        }

        pub fn child<'a>(&'a self, _: &'a StdlibEntry, _: &str) -> Option<&'a StdlibEntry> {
            None
        }
    }
}
