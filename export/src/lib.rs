//! From a Lua script to the unit's sheets, and from the library's findings
//! back to the script.
//!
//! The way of a script: [`lexer`], [`parser`], [`resolver`], [`exporter`];
//! then the static library ([`library`]); then [`check`], [`labels`],
//! [`reach`] and [`graph`] say its answers in terms of the script.

pub mod ast;
pub mod check;
pub mod exporter;
pub mod files;
pub mod graph;
pub mod labels;
pub mod layout;
pub mod lexer;
pub mod library;
pub mod lines;
pub mod numeral;
pub mod parser;
pub mod plain_text;
pub mod reach;
pub mod report;
pub mod resolver;
pub mod scope;
pub mod sheet;
pub mod text;
pub mod token;
