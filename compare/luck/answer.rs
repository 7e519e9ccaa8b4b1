//! Scopes, symbols and references of an admitted pair, and luck's answers.

use std::hint::black_box;
use std::sync::OnceLock;

use crate::cfg::{Exit, FlowGraph, cells};
use crate::local_flow::LocalFlow;
use crate::rule::LintContext;
use crate::tree::{Item, TreeMaker, callee_span, each_stmt, items_of};
use crate::uninitialized::UninitializedLocals;
use crate::*;

/// The graph's columns in 01's forms.
#[derive(Debug, Clone, PartialEq, Eq)]
pub struct Graph {
    pub first: Vec<u64>,
    pub second: Vec<u64>,
    pub start: Vec<u64>,
    pub reachable: Vec<u64>,
    pub code_span: Vec<u64>,
    pub code_node: Vec<u64>,
    pub name_span: Vec<u64>,
    pub name_node: Vec<u64>,
    pub name_scope_end: Vec<u64>,
}

pub struct Flow {
    pub graph: Graph,
    pub exits: [bool; 5],
    pub finding_word: Vec<u64>,
    pub finding_span: Vec<u64>,
    flow_graph: FlowGraph,
}

impl Flow {
    /// The node of an offset and whether the code there can run.
    pub fn run(&self, offset: u32) -> (Option<u64>, bool) {
        let node = self.flow_graph.node_at(offset).map(|node| node as u64);
        (node, self.flow_graph.can_run(offset))
    }
}

/// luck's answers for a pair that 01 admits.
pub fn flow_of(sheet: &[u64], uses: &[u64]) -> Flow {
    Script::new(sheet, uses).flow()
}

/// The same where a scope sheet that 02 admits says which uses cross: luck
/// follows its chains itself, and the supplied bits are not looked at.
pub fn flow_in_scopes(sheet: &[u64], uses: &[u64], scopes: &[u64]) -> Flow {
    let items = items_of(sheet);
    let mut tree = scope_tree(&items, uses);
    put_scopes(&mut tree, scopes, uses[0] as usize);
    Script::of_tree(sheet, &items, tree).flow()
}

/// luck's scopes alone, for `crosses_function_boundary` of any two.
pub struct Chains(ScopeTree);

impl Chains {
    pub fn new(kinds: &[u64], parents: &[u64]) -> Self {
        let mut tree = scope_tree(&[], &[0]);
        tree.scopes = scopes_of(kinds, parents);
        Self(tree)
    }

    pub fn crosses(&self, of_use: u64, of_name: u64) -> bool {
        let [from, to] = [of_use, of_name].map(|scope| ScopeId::from_index(scope as usize));
        self.0.crosses_function_boundary(from, to)
    }
}

/// What luck has before it asks for the flow: the tree, its scopes, and the
/// names without a value.
pub struct Script {
    block: Block,
    semantic: SemanticAnalysis,
    uninitialized_locals: UninitializedLocals,
}

impl Script {
    pub fn new(sheet: &[u64], uses: &[u64]) -> Self {
        let items = items_of(sheet);
        let tree = scope_tree(&items, uses);
        Self::of_tree(sheet, &items, tree)
    }

    fn of_tree(sheet: &[u64], items: &[Item], scope_tree: ScopeTree) -> Self {
        let block = TreeMaker::whole(items, sheet[1] as u32);
        let semantic = SemanticAnalysis {
            scope_tree,
            extra_globals: FxHashSet::default(),
            version: LuaVersion,
            environment: StdlibEnvironment::Standalone,
            symbol_shapes: FxHashMap::default(),
        };
        let mut uninitialized_locals = UninitializedLocals::default();
        each_stmt(&block, &mut |stmt| uninitialized_locals.record(stmt));
        uninitialized_locals.sort();
        Self { block, semantic, uninitialized_locals }
    }

    fn local_flow(&self) -> LocalFlow {
        LocalFlow::compute(&LintContext {
            block: &self.block,
            blocks: &[&self.block],
            function_blocks: &[&self.block],
            uninitialized_locals: &self.uninitialized_locals,
            semantic: &self.semantic,
            source: "",
            comments: &[],
            config: &LintConfig,
            local_flow: OnceLock::new(),
        })
    }

    fn flow_graph(&self) -> FlowGraph {
        FlowGraph::of_block(&self.block, &self.semantic)
    }

    fn flow(&self) -> Flow {
        let (finding_word, finding_span) = findings(&self.local_flow(), &self.semantic.scope_tree);
        let flow_graph = self.flow_graph();
        let exits = [Exit::End, Exit::Break, Exit::ReturnValue, Exit::ReturnEmpty, Exit::Error]
            .map(|exit| flow_graph.reaches(exit));
        Flow { graph: cells::read(&flow_graph), exits, finding_word, finding_span, flow_graph }
    }

    /// `FlowGraph::of_block` alone, for its time. Gives the number of nodes.
    pub fn build_graph(&self) -> usize {
        black_box(self.flow_graph()).node_count()
    }

    /// `LocalFlow::compute` alone, for its time. Gives the number of findings.
    pub fn compute_flow(&self) -> usize {
        let flow = black_box(self.local_flow());
        flow.first_unassigned_uses.len() + flow.overwritten_values.len()
    }
}

fn findings(flow: &LocalFlow, tree: &ScopeTree) -> (Vec<u64>, Vec<u64>) {
    let unassigned = flow.first_unassigned_uses.iter().map(|&(symbol, reference)| {
        let word = 2 * symbol.index() as u64 + ((reference.index() as u64 + 1) << 32);
        (word, tree.reference(reference).span.word())
    });
    let overwritten = flow.overwritten_values.iter().map(|&(symbol, span)| {
        (1 + 2 * symbol.index() as u64 + (u64::from(span.tag) << 32), span.word())
    });
    unassigned.chain(overwritten).unzip()
}

const MODULE: usize = 0;
const CLOSURE: usize = 1;

fn scope_tree(items: &[Item], uses: &[u64]) -> ScopeTree {
    let module = ScopeId::from_index(MODULE);
    let mut tree = ScopeTree {
        version: LuaVersion,
        scopes: vec![
            Scope { parent: None, kind: ScopeKind::Module },
            Scope { parent: Some(module), kind: ScopeKind::Function },
        ],
        symbols: Vec::new(),
        references: Vec::new(),
        references_by_span: FxHashMap::default(),
        declared_globals: FxHashSet::default(),
        assigned_globals: FxHashSet::default(),
        is_env_assigned: false,
    };
    for name in items.iter().filter(|item| item.kind == 11) {
        tree.symbols.push(Symbol {
            id: SymbolId::from_index(tree.symbols.len()),
            name: if name.argument & 1 != 0 { "_name" } else { "name" }.to_owned(),
            scope: module,
            kind: SymbolKind::Local,
            definition_span: name.span,
            reference_ids: Vec::new(),
            is_upvalue: name.argument & 4 != 0,
            is_modified: name.argument & 2 != 0,
            is_exported: false,
            is_close: false,
            shadows: None,
        });
    }
    add_uses(&mut tree, uses);
    add_callees(&mut tree, items);
    tree
}

fn scopes_of(kinds: &[u64], parents: &[u64]) -> Vec<Scope> {
    let scope = |(kind, parent): (&u64, &u64)| Scope {
        parent: parent.checked_sub(1).map(|parent| ScopeId::from_index(parent as usize)),
        kind: match kind {
            0 => ScopeKind::Module,
            1 => ScopeKind::Function,
            2 => ScopeKind::Block,
            _ => ScopeKind::Loop,
        },
    };
    kinds.iter().zip(parents).map(scope).collect()
}

/// The scopes of the sheet in place of those for the supplied bits. A callee
/// keeps its scope's number, which luck does not ask.
fn put_scopes(tree: &mut ScopeTree, words: &[u64], uses: usize) {
    let (kinds, rest) = words[1..].split_at(words[0] as usize);
    let (parents, rest) = rest.split_at(kinds.len());
    let (of_names, of_uses) = rest.split_at(tree.symbols.len());
    tree.scopes = scopes_of(kinds, parents);
    for (symbol, scope) in tree.symbols.iter_mut().zip(of_names) {
        symbol.scope = ScopeId::from_index(*scope as usize);
    }
    for (reference, scope) in tree.references[..uses].iter_mut().zip(of_uses) {
        reference.scope = ScopeId::from_index(*scope as usize);
    }
}

/// Reference numbers are use numbers, as the uses come first.
fn add_uses(tree: &mut ScopeTree, uses: &[u64]) {
    let count = uses[0] as usize;
    for number in 0..count {
        let word = uses[1 + number];
        let local = (word % 65_536) as usize;
        let high = word / 65_536;
        tree.symbols[local].reference_ids.push(ReferenceId::from_index(number));
        tree.references.push(Reference {
            span: Span::of_word(uses[1 + count + number]).tagged(number as u32 + 1),
            name: tree.symbols[local].name.clone(),
            kind: match high % 4 {
                0 => ReferenceKind::Read,
                1 => ReferenceKind::Write,
                _ => ReferenceKind::ReadWrite,
            },
            scope: ScopeId::from_index(if high / 4 == 1 { CLOSURE } else { MODULE }),
            resolved: Some(SymbolId::from_index(local)),
            env: None,
            is_declared_global: false,
        });
    }
}

/// `_ENV` assigned and `error` assigned are facts of a whole chunk in luck.
/// Where the sheet's CALLs disagree, those that have the bit get a local
/// `_ENV` instead, which makes the name no global just as well.
fn add_callees(tree: &mut ScopeTree, items: &[Item]) {
    let calls = || items.iter().enumerate().filter(|(_, item)| item.kind == 17);
    let everywhere =
        |bit: u64| calls().next().is_some() && calls().all(|(_, item)| item.argument & bit != 0);
    let (env_assigned, error_assigned) = (everywhere(32), everywhere(64));
    tree.is_env_assigned = env_assigned;
    if error_assigned {
        tree.assigned_globals.insert("error".to_owned());
    }
    for (place, item) in calls() {
        let bits = item.argument;
        let holds_callee = bits & 4 != 0;
        // Without the bit the span holds nothing, or else another name.
        if !holds_callee && place % 2 == 0 {
            continue;
        }
        let stands_in = (bits & 32 != 0 && !env_assigned) || (bits & 64 != 0 && !error_assigned);
        let any_local = SymbolId::from_index(0);
        let id = ReferenceId::from_index(tree.references.len());
        let span = callee_span(item, place);
        tree.references_by_span.insert(span, id);
        tree.references.push(Reference {
            span,
            name: match (holds_callee, bits & 2 != 0) {
                (true, true) => "error",
                (true, false) => "print",
                (false, _) => "other",
            }
            .to_owned(),
            kind: ReferenceKind::Read,
            scope: ScopeId::from_index(MODULE),
            resolved: (bits & 8 != 0).then_some(any_local),
            env: (bits & 16 != 0 || stands_in).then_some(any_local),
            is_declared_global: false,
        });
    }
}
