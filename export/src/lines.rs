//! Lines and columns of a script. Both count from 1, columns in bytes.

use crate::token::Span;

/// How much of a line is shown before a mark and from it on, in bytes. Some scripts are one line.
const SHOWN_BEFORE: u32 = 100;
const SHOWN_FROM: u32 = 100;

pub struct Lines<'source> {
    source: &'source [u8],
    starts: Vec<u32>,
}

#[derive(Debug, Clone, Copy, PartialEq, Eq)]
pub struct Position {
    pub line: u32,
    pub column: u32,
}

impl<'source> Lines<'source> {
    /// As Lua counts: `\n`, `\r` and the two together end one line.
    #[must_use]
    pub fn new(source: &'source [u8]) -> Self {
        let mut starts = vec![0];
        let mut at = 0;
        while let Some(found) = source[at..].iter().position(|byte| matches!(byte, b'\n' | b'\r')) {
            let end = at + found;
            at = match source[end..] {
                [b'\n', b'\r', ..] | [b'\r', b'\n', ..] => end + 2,
                _ => end + 1,
            };
            starts.push(at as u32);
        }
        Self { source, starts }
    }

    #[must_use]
    pub fn source(&self) -> &'source [u8] {
        self.source
    }

    #[must_use]
    pub fn position(&self, offset: u32) -> Position {
        let line = self.starts.partition_point(|start| *start <= offset);
        Position { line: line as u32, column: offset - self.starts[line - 1] + 1 }
    }

    /// The bytes of a line, from 1, without what ends it.
    #[must_use]
    pub fn line(&self, number: u32) -> Option<Span> {
        let at = (number as usize).checked_sub(1)?;
        let start = *self.starts.get(at)?;
        let next = self.starts.get(at + 1).map_or(self.source.len(), |next| *next as usize);
        let text = &self.source[start as usize..next];
        let length = text.iter().rposition(|byte| !matches!(byte, b'\n' | b'\r'));
        Some(Span::new(start, start + length.map_or(0, |last| last as u32 + 1)))
    }

    /// The line where a span starts, and under it marks for as much of the span as stands there.
    /// A long line is cut to what stands around the span.
    #[must_use]
    pub fn marked(&self, span: Span) -> String {
        let number = self.position(span.start).line;
        let line = self.line(number).unwrap_or_default();
        let shown = self.around(span.start, line);
        let before = Span::new(shown.start, span.start).text(self.source);
        let under =
            Span::new(span.start, span.end.min(shown.end).max(span.start)).text(self.source);
        let mut text = printable(shown.text(self.source));
        let mut pad: String = printable(before)
            .chars()
            .map(|letter| if letter == '\t' { '\t' } else { ' ' })
            .collect();
        if shown.start > line.start {
            text.insert_str(0, ".. ");
            pad.insert_str(0, "   ");
        }
        if shown.end < line.end {
            text.push_str(" ..");
        }
        let marks = "^".repeat(printable(under).chars().count().max(1));
        format!("{number:>6} | {text}\n       | {pad}{marks}\n")
    }

    /// As much of a line as is shown around an offset in it, with no letter cut in two.
    fn around(&self, offset: u32, line: Span) -> Span {
        let is_inside =
            |at: u32| self.source.get(at as usize).is_some_and(|byte| byte >> 6 == 0b10);
        let mut start = offset.saturating_sub(SHOWN_BEFORE).max(line.start);
        while start > line.start && start < offset && is_inside(start) {
            start += 1;
        }
        let mut end = offset.saturating_add(SHOWN_FROM).min(line.end);
        while end < line.end && end > offset && is_inside(end) {
            end -= 1;
        }
        Span::new(start, end)
    }
}

/// Text for a terminal, which control characters would steer.
fn printable(text: &[u8]) -> String {
    let is_shown = |letter: char| letter == '\t' || !letter.is_control();
    String::from_utf8_lossy(text)
        .chars()
        .map(|letter| if is_shown(letter) { letter } else { char::REPLACEMENT_CHARACTER })
        .collect()
}

#[cfg(test)]
mod tests {
    use super::*;

    #[test]
    fn line_ends_of_every_kind() {
        let lines = Lines::new(b"a\nb\r\nc\rd\n\re");
        let places: Vec<(u32, u32)> = [0, 2, 5, 7, 10, 11]
            .iter()
            .map(|offset| lines.position(*offset))
            .map(|place| (place.line, place.column))
            .collect();
        assert_eq!(places, [(1, 1), (2, 1), (3, 1), (4, 1), (5, 1), (5, 2)]);
        assert_eq!(lines.line(2), Some(Span::new(2, 3)));
        assert_eq!(lines.line(5), Some(Span::new(10, 11)));
        assert_eq!(lines.line(6), None);
        assert_eq!(lines.line(0), None);
    }

    #[test]
    fn marks_stand_under_the_name() {
        let source = "\tlocal é, name\n".as_bytes();
        let start = source.len() as u32 - 5;
        let marked = Lines::new(source).marked(Span::new(start, start + 4));
        assert_eq!(marked, "     1 | \tlocal é, name\n       | \t         ^^^^\n");
    }

    #[test]
    fn a_long_line_is_cut_around_the_mark() {
        let source = "é".repeat(10_000) + "name" + &"é".repeat(10_000);
        let marked = Lines::new(source.as_bytes()).marked(Span::new(20_000, 20_004));
        let side = |count| "é".repeat(count);
        let blanks = " ".repeat(3 + 50);
        assert_eq!(
            marked,
            format!("     1 | .. {}name{} ..\n       | {blanks}^^^^\n", side(50), side(48))
        );
        // A letter of two bytes on either edge is left out.
        let marked = Lines::new(source.as_bytes()).marked(Span::new(20_001, 20_002));
        let blanks = " ".repeat(3 + 50);
        assert_eq!(
            marked,
            format!("     1 | .. {}name{} ..\n       | {blanks}^\n", side(49), side(48))
        );
        // Marks end where the shown text does.
        let whole = Lines::new(source.as_bytes()).marked(Span::new(0, source.len() as u32));
        assert_eq!(whole, format!("     1 | {} ..\n       | {}\n", side(50), "^".repeat(50)));
    }

    #[test]
    fn marked_text_does_not_steer_a_terminal() {
        let marked = Lines::new(b"\x1b[2J x\x00\n").marked(Span::new(5, 6));
        assert_eq!(marked, "     1 | \u{fffd}[2J x\u{fffd}\n       |      ^\n");
    }
}
