//! What a syntax error says, and where.

mod common;

use waldimu::lines::Lines;
use waldimu::parser::parse;
use waldimu::report::{line, syntax_error};
use waldimu::token::Dialect;

fn said(source: &str, dialect: Dialect) -> String {
    let error = parse(source.as_bytes(), dialect).expect_err(source);
    let lines = Lines::new(source.as_bytes());
    line("f", &syntax_error(&error, &lines), &lines).trim_end().to_owned()
}

#[track_caller]
fn lua(source: &str, expected: &str) {
    assert_eq!(said(source, Dialect::Lua), format!("f:{expected}"), "{source}");
}

#[track_caller]
fn luau(source: &str, expected: &str) {
    assert_eq!(said(source, Dialect::Luau), format!("f:{expected}"), "{source}");
}

#[test]
fn what_is_expected() {
    lua("local = 1", "1:7: expected a name, found '='");
    lua("x", "1:2: expected '=' or the arguments of a call, found the end of the file");
    lua("x y", "1:3: expected '=' or the arguments of a call, found 'y'");
    lua("f() = 1", "1:1: expected a variable to assign to");
    lua("x, f() = 1, 2", "1:4: expected a variable to assign to");
    lua("(x) = 1", "1:1: expected a variable to assign to");
    lua("x = ", "1:5: expected an expression, found the end of the file");
    lua("x = 1 +", "1:8: expected an expression, found the end of the file");
    lua("x = )", "1:5: expected an expression, found ')'");
    lua("end", "1:1: expected a statement or the end of the file, found 'end'");
    lua("1 = x", "1:1: expected a statement, found '1'");
    lua("'s':m()", "1:1: expected a statement, found a string");
    lua("if x do end", "1:6: expected 'then', found 'do'");
    lua("while x then", "1:9: expected 'do', found 'then'");
    lua("for i do", "1:7: expected '=' or 'in', found 'do'");
    lua("for i, j = 1 do", "1:10: expected 'in', found '='");
    lua("for i = 1 do", "1:11: expected ',', found 'do'");
    lua("function f(a,) end", "1:14: expected a parameter, found ')'");
    lua("function f(..., a) end", "1:15: expected ')', found ','");
    lua("function f(1) end", "1:12: expected a parameter or ')', found '1'");
    lua("function f:a.b() end", "1:13: expected '(', found '.'");
    lua("x = {a = 1 b = 2}", "1:12: expected '}' to close '{' at line 1, column 5, found 'b'");
    lua("f(1 2)", "1:5: expected ')' to close '(' at line 1, column 2, found '2'");
    lua("return 1 f()", "1:10: expected the end of the block after 'return', found 'f'");
    lua("::a", "1:4: expected '::', found the end of the file");
    lua("local x <foo> = 1", "1:10: expected 'const' or 'close', found 'foo'");
    lua("x.1 = 2", "1:2: expected '=' or the arguments of a call, found '.1'");
}

#[test]
fn what_should_have_been_closed() {
    lua(
        "if x then\n  f()\n",
        "3:1: expected 'end' to close 'if' at line 1, column 1, found the end of the file",
    );
    lua(
        "while x do\nrepeat\nend",
        "3:1: expected 'until' to close 'repeat' at line 2, column 1, found 'end'",
    );
    lua(
        "f(function()\n",
        "2:1: expected 'end' to close 'function' at line 1, column 3, found the end of the file",
    );
    lua("do", "1:3: expected 'end' to close 'do' at line 1, column 1, found the end of the file");
    lua(
        "for i = 1, 2 do",
        "1:16: expected 'end' to close 'for' at line 1, column 1, found the end of the file",
    );
}

#[test]
fn where_a_word_may_not_stand() {
    lua("break", "1:1: expected a loop around 'break'");
    lua("while x do f(function() break end) end", "1:25: expected a loop around 'break'");
    lua(
        "function f() return ... end",
        "1:21: expected '...' only in a function that has '...' as parameter",
    );
    luau("continue", "1:1: expected a loop around 'continue'");
    luau(
        "while x do continue f() end",
        "1:21: expected the end of the block after 'continue', found 'f'",
    );
}

#[test]
fn what_is_no_token() {
    lua("x = 3x", "1:5: expected a number, found '3x'");
    lua("x = 3x + 1", "1:5: expected a number, found '3x'");
    lua("f(3x)", "1:3: expected a number, found '3x'");
    lua("x = 3e", "1:5: expected a number, found '3e'");
    lua("f(3 x)", "1:5: expected ')' to close '(' at line 1, column 2, found 'x'");
    lua("x = 'abc\n'", "1:5: expected ' to close this string, found the end of the line");
    lua("x = \"abc", "1:5: expected \" to close this string, found the end of the file");
    lua("x = [[abc", "1:5: expected ']]' to close this long string");
    lua("--[==[ abc ]]", "1:1: expected ']==]' to close this long comment");
    lua("x = [=abc", "1:5: expected '[' after '[='");
    lua("x = '\\300'", "1:6: expected at most 255 in a decimal escape");
    lua("x = $", "1:5: expected a token, found '$'");
    lua("x = \u{e9}", "1:5: expected a token, found the byte 195");
    lua("x = `s`", "1:5: expected a token, found '`'");
    lua("x += 1", "1:3: expected '=' or the arguments of a call, found '+'");
    luau(
        "x = `a {b",
        "1:10: expected '}' to close an interpolated value, found the end of the file",
    );
    luau("x = `a", "1:5: expected ` to close this string, found the end of the file");
    luau("x = `{a b}`", "1:9: expected '}' to close an interpolated value, found 'b'");
    luau("goto a", "1:6: expected '=' or the arguments of a call, found 'a'");
    luau("x = a & b", "1:7: expected a statement, found '&'");
    luau("local x: = 1", "1:10: expected a type, found '='");
}

/// The first error counts, although a later one is in the tokens.
#[test]
fn the_first_error_is_the_one_that_is_said() {
    lua("x = = 1\ny = 'abc\n", "1:5: expected an expression, found '='");
}

#[test]
fn nesting_has_a_limit() {
    let source = format!("x = {}1{}", "(".repeat(300), ")".repeat(300));
    assert!(
        said(&source, Dialect::Lua)
            .ends_with("expected at most 200 levels of blocks and expressions")
    );
}
