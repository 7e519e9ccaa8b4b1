//! Numerals of Lua 5.1 to 5.5, LuaJIT and Luau.

use crate::token::{Dialect, TokenKind};

/// The kind of a numeral, or none where no version takes the text.
#[must_use]
pub fn numeral(text: &[u8], dialect: Dialect) -> Option<TokenKind> {
    match dialect {
        Dialect::Lua => {
            let (body, suffix) = without_suffix(text);
            let is_whole = is_numeral(body)?;
            // LuaJIT: 64-bit integers (1LL, 1ULL, 1LLU) have no fraction, imaginary parts (1i) may
            // have one.
            (is_whole || suffix != Suffix::Long).then_some(TokenKind::Number)
        }
        Dialect::Luau => luau_numeral(text),
    }
}

/// Whether 5.2 and 5.3 take it: no suffix and no binary digits.
#[must_use]
pub fn is_plain(text: &[u8]) -> bool {
    !matches!(text, [b'0', b'b' | b'B', ..]) && is_numeral(text).is_some()
}

/// Luau lets underscores stand between digits, and an `i` behind an integer.
fn luau_numeral(text: &[u8]) -> Option<TokenKind> {
    let plain: Vec<u8> = text.iter().copied().filter(|byte| *byte != b'_').collect();
    if let Some(body) = plain.strip_suffix(b"i") {
        return is_numeral(body)?.then_some(TokenKind::Integer);
    }
    is_numeral(&plain).map(|_| TokenKind::Number)
}

#[derive(PartialEq, Eq)]
enum Suffix {
    None,
    Long,
    Imaginary,
}

fn without_suffix(text: &[u8]) -> (&[u8], Suffix) {
    let ends = |suffix: &[u8]| {
        let start = text.len().checked_sub(suffix.len())?;
        text[start..].eq_ignore_ascii_case(suffix).then_some(&text[..start])
    };
    if let Some(body) = ends(b"ull").or_else(|| ends(b"llu")).or_else(|| ends(b"ll")) {
        (body, Suffix::Long)
    } else if let Some(body) = ends(b"i") {
        (body, Suffix::Imaginary)
    } else {
        (text, Suffix::None)
    }
}

/// Whether a well formed numeral without suffix has neither fraction nor exponent.
fn is_numeral(text: &[u8]) -> Option<bool> {
    match text {
        [b'0', b'x' | b'X', rest @ ..] => digits_and_exponent(rest, u8::is_ascii_hexdigit, b'p'),
        [b'0', b'b' | b'B', rest @ ..] => {
            let is_binary = !rest.is_empty() && rest.iter().all(|byte| matches!(byte, b'0' | b'1'));
            is_binary.then_some(true)
        }
        _ => digits_and_exponent(text, u8::is_ascii_digit, b'e'),
    }
}

fn digits_and_exponent(text: &[u8], is_digit: fn(&u8) -> bool, exponent: u8) -> Option<bool> {
    let whole = text.iter().take_while(|byte| is_digit(byte)).count();
    let mut rest = &text[whole..];
    let mut digits = whole;
    let mut is_whole = true;
    if let [b'.', fraction @ ..] = rest {
        let count = fraction.iter().take_while(|byte| is_digit(byte)).count();
        digits += count;
        rest = &fraction[count..];
        is_whole = false;
    }
    if digits == 0 {
        return None;
    }
    match rest {
        [] => Some(is_whole),
        [mark, power @ ..] if mark.eq_ignore_ascii_case(&exponent) => {
            let power = power.strip_prefix(b"+").or(power.strip_prefix(b"-")).unwrap_or(power);
            let is_power = !power.is_empty() && power.iter().all(u8::is_ascii_digit);
            is_power.then_some(false)
        }
        _ => None,
    }
}

#[cfg(test)]
mod tests {
    use super::*;

    #[test]
    fn numerals_of_lua_and_luajit() {
        for good in [
            "0",
            "3",
            "3.",
            ".5",
            "3.0",
            "3.1416",
            "314.16e-2",
            "0.31416E1",
            "34e1",
            "0xff",
            "0xBEBADA",
            "0x0.1E",
            "0xA23p-4",
            "0X1.921FB54442D18P+1",
            "0x.8",
            "42LL",
            "42ull",
            "0x2aULL",
            "42LLU",
            "0x2allu",
            "12.5i",
            "0xffll",
            "0b101",
            "0b1LL",
        ] {
            assert_eq!(numeral(good.as_bytes(), Dialect::Lua), Some(TokenKind::Number), "{good}");
        }
        for bad in [
            "3x", "3..2", "3e", "3e+", "0x", "0xg", "0xp1", ".", "1.5LL", "1e2ull", "1_000", "0b",
            "0b12", "1L", "1i2", "3.4.5", "0x1p", "LL", "1lll", "1llull", "1.5LLU", "LLU",
        ] {
            assert_eq!(numeral(bad.as_bytes(), Dialect::Lua), None, "{bad}");
        }
    }

    #[test]
    fn numerals_of_luau() {
        for (text, kind) in [
            ("1_000_000", Some(TokenKind::Number)),
            ("0b1010_0101", Some(TokenKind::Number)),
            ("0xFF_FF", Some(TokenKind::Number)),
            ("1e-5", Some(TokenKind::Number)),
            ("5i", Some(TokenKind::Integer)),
            ("5.5i", None),
            ("5LL", None),
        ] {
            assert_eq!(numeral(text.as_bytes(), Dialect::Luau), kind, "{text}");
        }
    }
}
