//! Scripts by a seed. Each is a list of tokens, so that a test can also damage it by whole tokens.

use super::random::Random;

#[derive(Debug, Clone, Copy, PartialEq, Eq, PartialOrd, Ord)]
pub enum Version {
    Lua51,
    Lua53,
    Lua54,
    Lua55,
    Luau,
}

/// Few names, so that locals hide each other and functions capture them.
const NAMES: [&str; 7] = ["a", "b", "c", "d", "e", "_f", "self"];
const GLOBALS: [&str; 4] = ["print", "error", "g", "t"];
/// Declared with an attribute, and so never written.
const CONSTANTS: [&str; 2] = ["k", "l"];

pub fn script(random: &mut Random, version: Version, size: usize) -> Vec<String> {
    let mut generator = Generator {
        random,
        version,
        tokens: Vec::new(),
        room: size,
        depth: 0,
        loops: vec![0],
        is_vararg: vec![true],
        labels: 0,
    };
    generator.block();
    generator.tokens
}

pub fn text(tokens: &[String]) -> String {
    tokens.join(" ").replace(" \n ", "\n")
}

struct Generator<'random> {
    random: &'random mut Random,
    version: Version,
    tokens: Vec<String>,
    /// How many statements may still be made.
    room: usize,
    depth: usize,
    /// Open loops of each function around this place.
    loops: Vec<usize>,
    is_vararg: Vec<bool>,
    labels: usize,
}

impl Generator<'_> {
    fn put(&mut self, words: &str) {
        self.tokens.extend(words.split(' ').map(str::to_owned));
    }

    fn name(&mut self) -> &'static str {
        self.random.pick(&NAMES)
    }

    fn any_name(&mut self) -> &'static str {
        match self.random.below(10) {
            0..=6 => self.name(),
            7 | 8 => self.random.pick(&GLOBALS),
            _ => self.random.pick(&CONSTANTS),
        }
    }

    fn block(&mut self) {
        self.depth += 1;
        let count = 1 + self.random.below(5);
        for _ in 0..count {
            if self.room == 0 {
                break;
            }
            self.room -= 1;
            self.statement();
            if self.random.chance(15) {
                self.put(";");
            }
            self.put("\n");
        }
        self.last_statement();
        self.depth -= 1;
    }

    fn last_statement(&mut self) {
        let in_loop = self.loops.last().is_some_and(|count| *count > 0);
        match self.random.below(12) {
            0 => {
                self.put("return");
                if self.random.chance(60) {
                    self.expressions(2);
                }
                if self.random.chance(30) {
                    self.put(";");
                }
            }
            1 if in_loop => self.put("break"),
            2 if in_loop && self.version == Version::Luau => self.put("continue"),
            _ => {}
        }
        self.put("\n");
    }

    fn statement(&mut self) {
        let can_nest = self.depth < 6;
        match self.random.below(if can_nest { 22 } else { 10 }) {
            0..=3 => self.local(),
            4..=6 => self.assignment(),
            7..=9 => self.call_statement(),
            10 => self.nested("do", "end"),
            11 => self.while_loop(),
            12 => self.repeat_loop(),
            13 => self.numeric_for(),
            14 => self.generic_for(),
            15 | 16 => self.if_statement(),
            17 => self.local_function(),
            18 => self.function_statement(),
            19 => self.labelled_block(),
            20 => self.own_statement(),
            _ => self.loop_with_break(),
        }
    }

    fn nested(&mut self, open: &str, close: &str) {
        self.put(open);
        self.block();
        self.put(close);
    }

    fn loop_body(&mut self, open: &str) {
        self.put(open);
        *self.loops.last_mut().expect("a function") += 1;
        self.block();
        *self.loops.last_mut().expect("a function") -= 1;
    }

    fn while_loop(&mut self) {
        self.put("while");
        self.expression(1);
        self.loop_body("do");
        self.put("end");
    }

    fn repeat_loop(&mut self) {
        self.loop_body("repeat");
        self.put("until");
        self.expression(1);
    }

    fn numeric_for(&mut self) {
        let name = self.name();
        self.put(&format!("for {name} ="));
        self.expression(1);
        self.put(",");
        self.expression(1);
        self.loop_body("do");
        self.put("end");
    }

    fn generic_for(&mut self) {
        let (one, other) = (self.name(), self.name());
        self.put(&format!("for {one} , {other} in"));
        self.expressions(2);
        self.loop_body("do");
        self.put("end");
    }

    fn if_statement(&mut self) {
        self.put("if");
        self.expression(1);
        self.put("then");
        self.block();
        if self.random.chance(40) {
            self.put("elseif");
            self.expression(1);
            self.put("then");
            self.block();
        }
        if self.random.chance(40) {
            self.put("else");
            self.block();
        }
        self.put("end");
    }

    fn loop_with_break(&mut self) {
        self.put("while true do if");
        self.expression(1);
        self.put("then break end end");
    }

    fn local(&mut self) {
        if self.version == Version::Lua54 && self.random.chance(15) {
            let name = self.random.pick(&CONSTANTS);
            self.put(&format!("local {name} <const> = g ( )"));
            return;
        }
        self.put("local");
        let count = 1 + self.random.below(3);
        for place in 0..count {
            if place > 0 {
                self.put(",");
            }
            let name = self.name();
            self.put(name);
            if self.version == Version::Luau && self.random.chance(20) {
                self.put(": { x : number , [ string ] : t< number > } ?");
            }
        }
        if self.random.chance(60) {
            self.put("=");
            self.expressions(3);
        }
    }

    fn assignment(&mut self) {
        let count = 1 + self.random.below(3);
        for place in 0..count {
            if place > 0 {
                self.put(",");
            }
            self.target();
        }
        self.put("=");
        self.expressions(3);
    }

    fn target(&mut self) {
        match self.random.below(8) {
            0 => {
                let name = self.any_name();
                self.put(&format!("{name} . x"));
            }
            1 => {
                let name = self.any_name();
                self.put(&format!("{name} ["));
                self.expression(1);
                self.put("]");
            }
            2 => {
                let name = self.random.pick(&GLOBALS);
                self.put(name);
            }
            _ => {
                let name = self.name();
                self.put(name);
            }
        }
    }

    fn call_statement(&mut self) {
        let name = self.any_name();
        self.put(name);
        match self.random.below(6) {
            0 => self.put(". x"),
            1 => self.put(": m"),
            _ => {}
        }
        self.arguments();
    }

    fn arguments(&mut self) {
        match self.random.below(6) {
            0 => self.put("'s'"),
            1 => self.table(),
            2 => self.put("( )"),
            _ => {
                self.put("(");
                self.expressions(2);
                self.put(")");
            }
        }
    }

    fn table(&mut self) {
        self.put("{");
        self.expression(2);
        self.put(", x =");
        self.expression(2);
        self.put("; [");
        self.expression(2);
        self.put("] =");
        self.expression(2);
        self.put("}");
    }

    fn local_function(&mut self) {
        let name = self.name();
        self.put(&format!("local function {name}"));
        self.function_body();
    }

    fn function_statement(&mut self) {
        let name = if self.random.chance(70) { self.name() } else { "g" };
        self.put(&format!("function {name}"));
        match self.random.below(4) {
            0 => self.put(". x"),
            1 => self.put(". x : m"),
            _ => {}
        }
        self.function_body();
    }

    fn function_body(&mut self) {
        let names: Vec<&str> = (0..self.random.below(3)).map(|_| self.name()).collect();
        let is_vararg = self.random.chance(40);
        let mut parameters = names;
        if is_vararg {
            parameters.push("...");
        }
        self.put("(");
        let joined = parameters.join(" , ");
        if !joined.is_empty() {
            self.put(&joined);
        }
        self.put(")");
        self.loops.push(0);
        self.is_vararg.push(is_vararg);
        self.block();
        self.is_vararg.pop();
        self.loops.pop();
        self.put("end");
    }

    /// The label stands last, so that a goto enters no local's scope.
    fn labelled_block(&mut self) {
        if matches!(self.version, Version::Lua51 | Version::Luau) {
            return self.nested("do", "end");
        }
        self.labels += 1;
        let label = format!("l{}", self.labels);
        self.put("do");
        self.local();
        self.put("\n if");
        self.expression(1);
        self.put(&format!("then goto {label} end"));
        self.statement();
        self.put(&format!("; ::{label}:: end"));
    }

    /// What only one version has.
    fn own_statement(&mut self) {
        match self.version {
            Version::Lua53 | Version::Lua54 if self.random.chance(40) => self.put("local _ENV = t"),
            Version::Lua51 => self.call_statement(),
            Version::Lua53 => self.put(";"),
            Version::Lua54 => self.put("local k <close> = nil"),
            Version::Lua55 => self.global_statement(),
            Version::Luau => {
                let name = self.name();
                let operator = self.random.pick(&["+=", "..=", "//=", "^="]);
                self.put(&format!("{name} {operator}"));
                self.expression(1);
            }
        }
    }

    fn global_statement(&mut self) {
        match self.random.below(3) {
            0 => self.put("global a , g"),
            1 => {
                self.put("global b =");
                self.expression(1);
            }
            _ => {
                self.put("global function c");
                self.function_body();
            }
        }
    }

    fn expressions(&mut self, most: usize) {
        let count = 1 + self.random.below(most);
        for place in 0..count {
            if place > 0 {
                self.put(",");
            }
            self.expression(1);
        }
    }

    fn expression(&mut self, depth: usize) {
        let choice = if depth > 3 { self.random.below(8) } else { self.random.below(19) };
        match choice {
            0..=3 => {
                let name = self.any_name();
                self.put(name);
            }
            4 => {
                let literal =
                    self.random.pick(&["nil", "true", "false", "1", "0x1F", "'s'", "[[s]]"]);
                self.put(literal);
            }
            5 if self.is_vararg.last() == Some(&true) => self.put("..."),
            5..=7 => self.put("1.5e3"),
            8..=10 => {
                let operator = self.operator();
                self.expression(depth + 1);
                self.put(operator);
                self.expression(depth + 1);
            }
            11 => {
                self.put("not");
                self.expression(depth + 1);
            }
            12 => {
                self.put("(");
                self.expression(depth + 1);
                self.put(")");
            }
            13 | 14 => {
                let name = self.any_name();
                self.put(name);
                self.arguments();
            }
            15 => self.table(),
            16 if self.depth < 6 && self.room > 0 => {
                self.put("function");
                self.function_body();
            }
            17 if self.version == Version::Luau => {
                self.put("( if");
                self.expression(depth + 1);
                self.put("then");
                self.expression(depth + 1);
                self.put("else `s{");
                self.expression(depth + 1);
                self.put("}` :: number )");
            }
            _ => {
                let name = self.any_name();
                self.put(&format!("{name} . x"));
            }
        }
    }

    fn operator(&mut self) -> &'static str {
        const OLD: [&str; 12] = ["+", "-", "*", "/", "%", "^", "..", "==", "~=", "<", "and", "or"];
        const NEW: [&str; 5] = ["//", "&", "|", "<<", ">>"];
        let has_new = !matches!(self.version, Version::Lua51 | Version::Luau);
        if has_new && self.random.chance(20) {
            self.random.pick(&NEW)
        } else {
            self.random.pick(&OLD)
        }
    }
}
