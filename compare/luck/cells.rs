//! A child of luck's graph module, which may read the graph's fields.

use super::FlowGraph;
use crate::Graph;

pub const ABSENT: u64 = 4_294_967_295;

fn number(node: Option<usize>) -> u64 {
    node.map_or(ABSENT, |node| node as u64)
}

pub(crate) fn read(graph: &FlowGraph) -> Graph {
    Graph {
        first: graph.successors.iter().map(|edges| number(edges[0])).collect(),
        second: graph.successors.iter().map(|edges| number(edges[1])).collect(),
        start: graph.code_starts.iter().map(|start| u64::from(*start)).collect(),
        reachable: graph.is_reachable.iter().map(|flag| u64::from(*flag)).collect(),
        code_span: graph.code.iter().map(|(span, _)| span.word()).collect(),
        code_node: graph.code.iter().map(|(_, node)| *node as u64).collect(),
        name_span: graph.locals.iter().map(|local| local.name_span.word()).collect(),
        name_node: graph.locals.iter().map(|local| local.node as u64).collect(),
        name_scope_end: graph.locals.iter().map(|local| u64::from(local.scope_end)).collect(),
    }
}
