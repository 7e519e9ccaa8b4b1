//! Small things to print.

use crate::token::Span;

/// `1,024`
#[must_use]
pub fn grouped(number: usize) -> String {
    let digits = number.to_string();
    let mut grouped = String::new();
    for (place, digit) in digits.chars().enumerate() {
        if place > 0 && (digits.len() - place).is_multiple_of(3) {
            grouped.push(',');
        }
        grouped.push(digit);
    }
    grouped
}

/// `1 script`, `1,024 scripts`
#[must_use]
pub fn count(number: usize, what: &str) -> String {
    format!("{} {what}{}", grouped(number), if number == 1 { "" } else { "s" })
}

/// A span's text on one line, cut where it has more than so many letters.
#[must_use]
pub fn one_line(span: Span, source: &[u8], most: usize) -> String {
    let text = String::from_utf8_lossy(span.text(source));
    let words = text.split_whitespace().collect::<Vec<_>>().join(" ");
    if words.chars().count() <= most {
        return words;
    }
    let start: String = words.chars().take(most - 3).collect();
    format!("{} ..", start.trim_end())
}

#[cfg(test)]
mod tests {
    use super::*;

    #[test]
    fn counts_in_words() {
        assert_eq!(count(1, "script"), "1 script");
        assert_eq!(count(0, "script"), "0 scripts");
        assert_eq!(count(1_234_567, "block"), "1,234,567 blocks");
        assert_eq!(count(1_024, "block"), "1,024 blocks");
    }

    #[test]
    fn text_on_one_line() {
        let source = b"f(\n  1,\n  2)";
        let whole = Span::new(0, source.len() as u32);
        assert_eq!(one_line(whole, source, 20), "f( 1, 2)");
        assert_eq!(one_line(whole, source, 7), "f( 1 ..");
    }
}
