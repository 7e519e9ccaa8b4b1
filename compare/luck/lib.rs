//! luck's flow graph and local flow, asked from a sheet and a use sheet.
//!
//! luck's files name several crates. Here they are all one, so that they
//! compile unchanged over the stand-ins in `ast`, `token` and `unasked`.

#![allow(dead_code, unused_imports, unused_macros)]

extern crate self as luck_ast;
extern crate self as luck_core;
extern crate self as luck_semantic;
extern crate self as luck_token;
extern crate self as rustc_hash;

include!(concat!(env!("OUT_DIR"), "/luck.rs"));

mod answer;
mod ast;
mod token;
mod tree;
mod unasked;

pub(crate) use analysis::SemanticAnalysis;
pub use answer::{Chains, Flow, Graph, Script, flow_in_scopes, flow_of};
pub(crate) use ast::*;
pub(crate) use scope::*;
pub(crate) use token::*;
pub(crate) use unasked::*;
