//! The sheet of each construct and each trap. Offsets are counted by hand.

mod common;

use common::{exported, sheet_lines};
use waldimu::exporter::Limit;
use waldimu::sheet::Kind;
use waldimu::token::Dialect;

#[track_caller]
fn is(source: &str, expected: &str) {
    of_function(Dialect::Lua, source, 0, expected);
}

#[track_caller]
fn luau(source: &str, expected: &str) {
    of_function(Dialect::Luau, source, 0, expected);
}

/// Lines of the expected sheet are parted by `|`.
#[track_caller]
fn of_function(dialect: Dialect, source: &str, function: usize, expected: &str) {
    let expected: Vec<&str> = expected.split('|').map(str::trim).collect();
    assert_eq!(sheet_lines(source, dialect, function), expected, "{source}");
}

// ---- Statements ----

#[test]
fn nothing_at_all() {
    is("", "outer 0");
    is(" -- a comment\n", "outer 14");
    is("#!/usr/bin/lua\nf()", "outer 18 | call 0 15-18");
}

#[test]
fn printed_sheet_of_document_01() {
    is(
        "local x=1 x=2 print(x)",
        "outer 22 | local 1 0-9 | name m 6-7 | plain 10-13 | call 0 14-22
         | use write 0 10-11 | use read 0 20-21",
    );
}

#[test]
fn simple_statements() {
    is("x = 1", "outer 5 | plain 0-5");
    is("f()", "outer 3 | call 0 0-3");
    is("a.b:c {}", "outer 8 | call 1 0-8");
    is("function f() end", "outer 16 | plain 0-16");
    is("local function f() end", "outer 22 | plain 0-22");
    is(";", "outer 1 | empty");
    is("return", "outer 6 | return 0 0-6");
    is("return 1, 2", "outer 11 | return 1 0-11");
    is("do f() end", "outer 10 | do 7 | call 0 3-6 | end");
}

/// The `;` behind a return belongs to it: nothing may follow a RETURN.
#[test]
fn semicolon_behind_return() {
    is("return;", "outer 7 | return 0 0-7");
    is("do return 1 ; end", "outer 17 | do 14 | return 1 3-13 | end");
    is("f();return", "outer 10 | call 0 0-3 | empty | return 0 4-10");
}

/// A header reaches to its body's first statement, or to `end` where there is none.
#[test]
fn headers_reach_to_the_body() {
    is("while x do f() end", "outer 18 | while var 15 0-11 | call 0 11-14 | end");
    is("while x do end", "outer 14 | while var 11 0-11 | end");
    is("while x do -- c\n end", "outer 20 | while var 17 0-17 | end");
    is("for i=1,2 do f() end", "outer 20 | for 17 0-13 | call 0 13-16 | end");
    is("for k, v in p do end", "outer 20 | for 17 0-17 | end");
    is(
        "if a then f() elseif b then g() else h() end",
        "outer 44 | if 14 0-10 | call 0 10-13 | elseif 32 14-28 | call 0 28-31
         | else 41 | call 0 37-40 | end",
    );
}

/// A REPEAT's scope ends with its condition, which sees the body's locals.
#[test]
fn repeat_reaches_past_its_condition() {
    is(
        "repeat local x = f() until x",
        "outer 28 | repeat var 28 | local ... 7-20 | name - 13-14 | until 27-28 | use read 0 27-28",
    );
    is("repeat until (true) f()", "outer 23 | repeat true 19 | until 13-19 | call 0 20-23");
}

#[test]
fn conditions_by_number() {
    let kind = |condition: &str, dialect| {
        let source = format!("while {condition} do end");
        let line = sheet_lines(&source, dialect, 0)[1].clone();
        line.split(' ').nth(1).expect("a condition").to_owned()
    };
    for (condition, expected) in [
        ("nil", "nil"),
        ("false", "false"),
        ("true", "true"),
        ("1", "number"),
        ("'s'", "string"),
        ("[[s]]", "string"),
        ("{}", "table"),
        ("function() end", "function"),
        ("...", "vararg"),
        ("x", "var"),
        ("x.y", "var"),
        ("x[1]", "var"),
        ("x()", "call"),
        ("x.y:z()", "call"),
        ("((true))", "true"),
        ("(...)", "vararg"),
        ("not x", "unary"),
        ("-1", "unary"),
        ("-1^2", "unary"),
        ("not x == y", "binary"),
        ("1 and 2", "binary"),
    ] {
        assert_eq!(kind(condition, Dialect::Lua), expected, "{condition}");
    }
    for (condition, expected) in [
        ("1i", "integer"),
        ("`s {x}`", "interpolated"),
        ("`s`", "interpolated"),
        ("if a then b else c", "ifexpression"),
        ("x :: boolean", "cast"),
        ("(x :: any)", "cast"),
        ("f<<number>>", "instantiation"),
        ("f<<number>>()", "call"),
    ] {
        assert_eq!(kind(condition, Dialect::Luau), expected, "{condition}");
    }
}

#[test]
fn labels_and_jumps() {
    is(
        "::a:: goto b ::b:: goto a",
        "outer 25 | label 1 0-5 | goto 2 6-12 | label 2 13-18 | goto 1 19-25",
    );
    is(
        "while x do break f() end",
        "outer 24 | while var 21 0-11 | break 11-16 | call 0 17-20 | end",
    );
    is("while x do break; end", "outer 21 | while var 18 0-11 | break 11-16 | empty | end");
    luau("while x do continue end", "outer 23 | while var 20 0-11 | continue 11-19 | end");
    luau("while x do continue; end", "outer 24 | while var 21 0-11 | continue 11-20 | end");
}

/// In 5.1 `goto` is a name, and so are `global`, `continue` and Luau's words where nothing else fits.
#[test]
fn words_that_are_names_elsewhere() {
    is("goto = 1 goto() goto.x = goto", "outer 29 | plain 0-8 | call 0 9-15 | plain 16-29");
    is(
        "local goto = 1 f(goto)",
        "outer 22 | local 1 0-14 | name - 6-10 | call 0 15-22 | use read 0 17-21",
    );
    is("global = 1 global()", "outer 19 | plain 0-10 | call 0 11-19");
    is("continue = type", "outer 15 | plain 0-15");
    luau(
        "type = 1 type(x) continue = 2 export.x = 3",
        "outer 42 | plain 0-8 | call 0 9-16 | plain 17-29 | plain 30-42",
    );
}

#[test]
fn declarations_of_5_5() {
    is("global x, y", "outer 11 | plain 0-11");
    is("global <const> *", "outer 16 | plain 0-16");
    is("global *", "outer 8 | plain 0-8");
    is("global function f() end", "outer 23 | plain 0-23");
    is(
        "local x = 1 global x x = 2",
        "outer 26 | local 1 0-11 | name - 6-7 | plain 12-20 | plain 21-26",
    );
    is(
        "local x = 1 global x = x",
        "outer 24 | local 1 0-11 | name - 6-7 | plain 12-24 | use read 0 23-24",
    );
    // A collective declaration hides no local.
    is(
        "local x = 1 global * x = 2",
        "outer 26 | local 1 0-11 | name m 6-7 | plain 12-20 | plain 21-26 | use write 0 21-22",
    );
    of_function(
        Dialect::Lua,
        "function f(a, ...t) local x = t end",
        1,
        "outer 32 | local 1 20-31 | name - 26-27",
    );
}

// ---- Locals ----

#[test]
fn values_of_a_local() {
    is("local a", "outer 7 | local 0 0-7 | name - 6-7");
    is("local a, b = 1", "outer 14 | local 1 0-14 | name - 6-7 | name - 9-10");
    is("local a = 1, 2", "outer 14 | local 2 0-14 | name - 6-7");
    is("local a, b = f()", "outer 16 | local ... 0-16 | name - 6-7 | name - 9-10");
    is("local a, b = ...", "outer 16 | local ... 0-16 | name - 6-7 | name - 9-10");
    // One value each: parentheses cut a call short, and only the last value can be many.
    is("local a, b = (f())", "outer 18 | local 1 0-18 | name - 6-7 | name - 9-10");
    is("local a, b = f(), 1", "outer 19 | local 2 0-19 | name - 6-7 | name - 9-10");
    is("local a, b = f'', nil", "outer 21 | local 2 0-21 | name - 6-7 | name - 9-10");
    luau("local a, b = f() :: any", "outer 23 | local 1 0-23 | name - 6-7 | name - 9-10");
}

#[test]
fn attributes_are_no_part_of_the_name() {
    is("local a <const>, b <close> = 1, 2", "outer 33 | local 2 0-33 | name - 6-7 | name - 17-18");
    is("local <const> a, b = 1, 2", "outer 25 | local 2 0-25 | name - 14-15 | name - 17-18");
    luau("local a: number, b: {x: T} = 1", "outer 30 | local 1 0-30 | name - 6-7 | name - 17-18");
    luau("const a = 1", "outer 11 | local 1 0-11 | name - 6-7");
    luau("export local a = 1", "outer 18 | local 1 0-18 | name - 13-14");
}

#[test]
fn flags_of_a_name() {
    is(
        "local _a, b, c = 1, 2, 3 b = 4 f = function() return c end",
        "outer 58 | local 3 0-24 | name u 6-8 | name m 10-11 | name c 13-14 | plain 25-30 | plain 31-58
         | use write 1 25-26 | use read^ 2 53-54",
    );
    // A function statement writes its name, and a compound assignment does.
    is(
        "local f function f() end",
        "outer 24 | local 0 0-7 | name m 6-7 | plain 8-24 | use write 0 17-18",
    );
    luau("local x x+=1", "outer 12 | local 0 0-7 | name m 6-7 | plain 8-12 | use readwrite 0 8-9");
}

/// Only names of a `local` statement are on a sheet: no parameter, loop variable or local function.
#[test]
fn what_is_no_name_of_the_sheet() {
    is("for i = 1, 2 do i = 3 end", "outer 25 | for 22 0-16 | plain 16-21 | end");
    is("local function f() f = 1 end f()", "outer 32 | plain 0-28 | call 0 29-32");
    of_function(Dialect::Lua, "function t:m(a) a = self end", 1, "outer 25 | plain 16-24");
}

#[test]
fn a_local_is_not_in_scope_in_its_own_values() {
    is(
        "local x = 1 local x = x f(x)",
        "outer 28 | local 1 0-11 | name - 6-7 | local 1 12-23 | name - 18-19 | call 0 24-28
         | use read 0 22-23 | use read 1 26-27",
    );
    // A local function is: f inside is the new one.
    is(
        "local f local function f() f() end f()",
        "outer 38 | local 0 0-7 | name - 6-7 | plain 8-34 | call 0 35-38",
    );
}

// ---- Uses ----

/// The values, then what the targets read, then the written names from left to right.
#[test]
fn an_assignment_in_order() {
    is(
        "local a, b, c a, b[c], c = b, a",
        "outer 31 | local 0 0-13 | name m 6-7 | name - 9-10 | name m 12-13 | plain 14-31
         | use read 1 27-28 | use read 0 30-31 | use read 1 17-18 | use read 2 19-20
         | use write 0 14-15 | use write 2 23-24",
    );
    is(
        "local t t.f = function() t = 1 end",
        "outer 34 | local 0 0-7 | name mc 6-7 | plain 8-34 | use write^ 0 25-26 | use read 0 8-9",
    );
    luau(
        "local t, x t[x] += x",
        "outer 20 | local 0 0-10 | name - 6-7 | name - 9-10 | plain 11-20
         | use read 1 19-20 | use read 0 11-12 | use read 1 13-14",
    );
    luau(
        "local x x += x",
        "outer 14 | local 0 0-7 | name m 6-7 | plain 8-14 | use read 0 13-14 | use readwrite 0 8-9",
    );
}

/// A function statement reads what its name goes through, and writes the name behind its body.
#[test]
fn a_function_statement_in_order() {
    is(
        "local t function t.a.b() t() end",
        "outer 32 | local 0 0-7 | name c 6-7 | plain 8-32 | use read 0 17-18 | use read^ 0 25-26",
    );
    is(
        "local f function f() f() end",
        "outer 28 | local 0 0-7 | name mc 6-7 | plain 8-28 | use read^ 0 21-22 | use write 0 17-18",
    );
}

#[test]
fn expressions_in_order() {
    is(
        "local a, b f(a, b).x[a]:m(b)",
        "outer 28 | local 0 0-10 | name - 6-7 | name - 9-10 | call 1 11-28
         | use read 0 13-14 | use read 1 16-17 | use read 0 21-22 | use read 1 26-27",
    );
    is(
        "local a, b x = {b, [a] = b; a = a}",
        "outer 34 | local 0 0-10 | name - 6-7 | name - 9-10 | plain 11-34
         | use read 1 16-17 | use read 0 20-21 | use read 1 25-26 | use read 0 32-33",
    );
    is(
        "local a, b x = -b ^ a .. b and #a",
        "outer 33 | local 0 0-10 | name - 6-7 | name - 9-10 | plain 11-33
         | use read 1 16-17 | use read 0 20-21 | use read 1 25-26 | use read 0 32-33",
    );
    luau(
        "local a, b x = if a then b else `{a} {b}`",
        "outer 41 | local 0 0-10 | name - 6-7 | name - 9-10 | plain 11-41
         | use read 0 18-19 | use read 1 25-26 | use read 0 34-35 | use read 1 38-39",
    );
}

/// Types do not run: what they name is no use, and no function in them has a sheet.
#[test]
fn types_are_passed_over() {
    luau(
        "local a local b: typeof(a) = 1",
        "outer 30 | local 0 0-7 | name - 6-7 | local 1 8-30 | name - 14-15",
    );
    let source = "type T<U...> = {[string]: U, read x: (a: T, ...number) -> (T, U)} local x";
    luau(source, "outer 73 | plain 0-65 | local 0 66-73 | name - 72-73");
    let source = "local x: typeof(function() end) = 1";
    assert_eq!(exported(source, Dialect::Luau).len(), 1);
}

/// Loop headers are evaluated before the loop variables exist.
#[test]
fn loop_headers_see_the_outer_names() {
    is(
        "local i for i = i, 2 do f(i) end",
        "outer 32 | local 0 0-7 | name - 6-7 | for 29 8-24 | call 0 24-28 | end | use read 0 16-17",
    );
    is(
        "local k for k in k do end",
        "outer 25 | local 0 0-7 | name - 6-7 | for 22 8-22 | end | use read 0 17-18",
    );
}

// ---- Functions ----

/// Each body is a sheet of its own, by the script's offsets; uses in it are uses of the outer local too.
#[test]
fn a_function_body_is_a_sheet() {
    let source = "local x function f() local y = x x = y end";
    is(
        source,
        "outer 42 | local 0 0-7 | name mc 6-7 | plain 8-42 | use read^ 0 31-32 | use write^ 0 33-34",
    );
    of_function(
        Dialect::Lua,
        source,
        1,
        "outer 39 | local 1 21-32 | name - 27-28 | plain 33-38 | use read 0 37-38",
    );
}

/// Numbers go by the text, although the value's function is evaluated first.
#[test]
fn functions_are_numbered_by_the_text() {
    let source = "t[function() return 1 end] = function() return end";
    of_function(Dialect::Lua, source, 1, "outer 22 | return 1 13-21");
    of_function(Dialect::Lua, source, 2, "outer 47 | return 0 40-46");
}

/// A block inside a function crosses nothing; a function inside it does.
#[test]
fn crossing_by_scopes() {
    let source = "function f() local x do while x do g(function() return x end) end end end";
    of_function(
        Dialect::Lua,
        source,
        1,
        "outer 70 | local 0 13-20 | name c 19-20 | do 66 | while var 62 24-35 | call 0 35-61 | end | end
         | use read 0 30-31 | use read^ 0 55-56",
    );
}

// ---- Calls ----

#[test]
fn bits_of_a_call() {
    let last = |source: &str| {
        let lines = sheet_lines(source, Dialect::Lua, 0);
        let call = lines.iter().rev().find(|line| line.starts_with("call")).expect("a call");
        call.split(' ').nth(1).expect("its bits").parse::<u32>().expect("a number")
    };
    for (source, bits) in [
        ("error()", 6),
        ("error 'x'", 6),
        ("error {}", 6),
        ("error:x()", 7),
        ("(error)()", 0),
        ("error.x()", 0),
        ("error()()", 0),
        ("error():x()", 1),
        ("t.error()", 0),
        ("assert()", 0),
        ("local error error()", 14),
        ("local function error() end error()", 14),
        ("local _ENV = {} error()", 22),
        ("local _ENV = {} error = 1 error()", 22),
        ("do local _ENV = {} end error()", 6),
        ("local function f(_ENV) end error()", 6),
        ("_ENV = {} error()", 38),
        ("function f() _ENV = {} end error()", 38),
        ("error = 1 error()", 70),
        ("function error() end error()", 70),
        ("function f() error = 1 end error()", 70),
        ("global error = 1 error()", 70),
        ("global function error() end error()", 70),
        ("global error error()", 6),
        ("function error.x() end error()", 6),
        ("local error error = 1 error()", 14),
        ("do local error end error()", 6),
        ("error = 1 _ENV = 2 local _ENV, error = 1 error()", 110),
        ("error = 1 _ENV = 2 local _ENV = 1 error()", 118),
    ] {
        assert_eq!(last(source), bits, "{source}");
    }
    let source = "function f(_ENV) error() end";
    of_function(Dialect::Lua, source, 1, "outer 25 | call 22 17-24");
    // Luau has no _ENV.
    assert!(
        sheet_lines("_ENV = {} error()", Dialect::Luau, 0).contains(&"call 6 10-17".to_owned())
    );
}

// ---- Limits ----

fn limit(source: &str, function: usize) -> Option<Limit> {
    exported(source, Dialect::Lua)[function].as_ref().err().copied()
}

#[test]
fn blocks_at_the_limits() {
    assert_eq!(limit(&"f() ".repeat(1_024), 0), None);
    assert_eq!(limit(&"f() ".repeat(1_025), 0), Some(Limit::Items(1_025)));
    let nested = |depth| "do ".repeat(depth) + &"end ".repeat(depth);
    assert_eq!(limit(&nested(64), 0), None);
    assert_eq!(limit(&nested(65), 0), Some(Limit::Depth(65)));
    let uses = |count: usize| format!("local x f({}1)", "x,".repeat(count));
    assert_eq!(limit(&uses(1_024), 0), None);
    assert_eq!(limit(&uses(1_025), 0), Some(Limit::Uses(1_025)));
}

/// What can make no difference is left out where it does not fit.
#[test]
fn what_is_left_out_beyond_the_limits() {
    let many_empty = "f(); ".repeat(1_000);
    let sheets = exported(&many_empty, Dialect::Lua);
    let items = &sheets[0].as_ref().expect("fits without EMPTY").sheet.items;
    assert_eq!(items.len(), 1_000);
    assert!(items.iter().all(|item| item.kind == Kind::Call));
    assert_eq!(limit(&"f(); ".repeat(1_025), 0), Some(Limit::Items(1_025)));

    // `kept` is never written, so that no finding can name it; `empty` has no value.
    let source = format!("local kept, empty = 1 f({}empty)", "kept,".repeat(1_100));
    let sheets = exported(&source, Dialect::Lua);
    let uses = &sheets[0].as_ref().expect("fits without the uses of kept").uses.uses;
    assert_eq!(uses.iter().map(|used| used.local).collect::<Vec<_>>(), [1]);
}

/// Other blocks go on.
#[test]
fn a_large_block_stops_no_other() {
    let source =
        format!("function f() {} end function g() local x return x end", "g() ".repeat(1_025));
    assert_eq!(limit(&source, 0), None);
    assert_eq!(limit(&source, 1), Some(Limit::Items(1_025)));
    assert_eq!(limit(&source, 2), None);
}
