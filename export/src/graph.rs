//! The flow graph of a function as SVG, with the source at its nodes.

use std::fmt::Write;

use crate::exporter::Exported;
use crate::layout::{Edge, Layout, Size, layout};
use crate::library::{Graph, Refusal, Unit};
use crate::lines::Lines;
use crate::sheet::Kind;
use crate::text::one_line;
use crate::token::Span;

const EXITS: [&str; 5] = ["End", "Break", "ReturnValue", "ReturnEmpty", "Error"];
const ENTRY: usize = 5;
const MARGIN: i64 = 20;
const BOX_HEIGHT: i64 = 26;
const FONT: i64 = 13;
const SMALL: i64 = 11;
/// How much of a node's source is shown.
const SHOWN: usize = 40;

const STYLE: &str = "
text{font-family:sans-serif;font-size:13px;fill:#1b1f24}
.small{font-size:11px;fill:#57606a}
.box{fill:#fff;stroke:#57606a}
.number{fill:#eaeef2}
.exit{fill:#ddf4ff;stroke:#0969da}
.off{fill:#f6f8fa;stroke:#8c959f;stroke-dasharray:4 3}
.line{fill:none;stroke:#424a53;stroke-width:1.3}
.second{fill:none;stroke:#bc4c00;stroke-width:1.3}
.offline{fill:none;stroke:#8c959f;stroke-width:1.3;stroke-dasharray:4 3}
";

const NOTES: [&str; 3] = [
    "Node number, source, line of the script. Nodes without code are bare numbers.",
    "Dark lines lead to the first successor, orange ones to the second.",
    "Dashed boxes and lines are unreachable: no path from the entry leads there.",
];

/// # Errors
///
/// The number with which the library refuses the sheet.
pub fn svg(
    exported: &Exported,
    lines: &Lines<'_>,
    title: &str,
    unit: &mut Unit,
) -> Result<String, Refusal> {
    let graph = unit.chart(&exported.sheet.words())?;
    let labels = node_labels(&graph, exported, lines);
    let sizes: Vec<Size> = labels.iter().map(NodeLabel::size).collect();
    let edges = edges(&graph);
    let mut pairs: Vec<(usize, usize)> =
        edges.iter().map(|(tail, head, _)| (*tail, *head)).collect();
    pairs.extend(below_the_code_before(&graph, &pairs));
    let exits: Vec<usize> = (0..EXITS.len()).collect();
    let layout = layout(&sizes, &pairs, &exits, ENTRY);
    Ok(picture(&layout, &labels, &edges, title))
}

/// What stands in a node's box.
struct NodeLabel {
    number: usize,
    words: String,
    note: String,
    style: &'static str,
}

impl NodeLabel {
    fn number_width(&self) -> i64 {
        text_width(&self.number.to_string(), SMALL) + 12
    }

    fn size(&self) -> Size {
        let words = if self.words.is_empty() { 0 } else { text_width(&self.words, FONT) + 16 };
        let note = if self.note.is_empty() { 0 } else { text_width(&self.note, SMALL) + 8 };
        Size { width: (self.number_width() + words + note).max(48), height: BOX_HEIGHT }
    }
}

/// Room for a text in any usual sans-serif, in pixels.
fn text_width(text: &str, size: i64) -> i64 {
    let hundredths: i64 = text
        .chars()
        .map(|letter| match letter {
            'i' | 'l' | 'j' | 't' | 'f' | 'r' | ' ' | '-' | '/' => 42,
            '.' | ',' | ':' | ';' | '\'' | '|' | '!' | '"' => 42,
            '(' | ')' | '[' | ']' | '{' | '}' => 42,
            'm' | 'w' | 'M' | 'W' | '@' | '%' => 98,
            '+' | '=' | '<' | '>' | '#' | '_' | '~' => 80,
            letter if letter.is_uppercase() || !letter.is_ascii() => 80,
            _ => 65,
        })
        .sum();
    (hundredths * size + 99) / 100
}

fn node_labels(graph: &Graph, exported: &Exported, lines: &Lines<'_>) -> Vec<NodeLabel> {
    let mut words = vec![String::new(); graph.nodes.len()];
    let mut notes = vec![String::new(); graph.nodes.len()];
    for (span, node) in code_spans(exported).zip(&graph.code_nodes) {
        if notes[*node].is_empty() {
            notes[*node] = format!("line {}", lines.position(span.start).line);
        } else {
            words[*node].push_str(" / ");
        }
        words[*node].push_str(&one_line(span, lines.source(), SHOWN));
    }
    let mut labels = Vec::new();
    for (number, (mut words, mut note)) in words.into_iter().zip(notes).enumerate() {
        let mut style = "box";
        if let Some(exit) = EXITS.get(number) {
            (words, style) = (format!("exit {exit}"), "exit");
        } else if number == ENTRY {
            "entry".clone_into(&mut words);
        }
        if !graph.nodes[number].is_reachable {
            style = "off";
            if !note.is_empty() {
                note.push_str(", unreachable");
            }
        }
        labels.push(NodeLabel { number, words, note, style });
    }
    labels
}

/// The spans of the items that are code, in the order in which chart numbers them.
fn code_spans(exported: &Exported) -> impl Iterator<Item = Span> + '_ {
    let is_code = |kind| {
        !matches!(kind, Kind::Do | Kind::Repeat | Kind::Else | Kind::End | Kind::Name | Kind::Empty)
    };
    exported.sheet.items.iter().filter(move |item| is_code(item.kind)).map(|item| item.span)
}

/// Each edge with its style: first successors before second ones.
fn edges(graph: &Graph) -> Vec<(usize, usize, &'static str)> {
    let mut edges = Vec::new();
    for (place, style) in [(0, "line"), (1, "second")] {
        for (tail, node) in graph.nodes.iter().enumerate() {
            let head = node.successors[place] as usize;
            if head < graph.nodes.len() {
                edges.push((tail, head, if node.is_reachable { style } else { "offline" }));
            }
        }
    }
    edges
}

/// A node that nothing leads to is laid below the code before it. These edges are not drawn.
fn below_the_code_before(graph: &Graph, pairs: &[(usize, usize)]) -> Vec<(usize, usize)> {
    let mut is_led_to = vec![false; graph.nodes.len()];
    for (_, head) in pairs {
        is_led_to[*head] = true;
    }
    let neighbours = graph.code_nodes.windows(2).map(|pair| (pair[0], pair[1]));
    neighbours.filter(|(_, node)| !is_led_to[*node]).collect()
}

fn escaped(text: &str) -> String {
    text.chars()
        .map(|letter| match letter {
            '&' => "&amp;".to_owned(),
            '<' => "&lt;".to_owned(),
            '>' => "&gt;".to_owned(),
            // XML has no other control characters, and not these two.
            control if control < ' ' && control != '\t' => "\u{fffd}".to_owned(),
            '\u{fffe}' | '\u{ffff}' => "\u{fffd}".to_owned(),
            other => other.to_string(),
        })
        .collect()
}

fn picture(
    layout: &Layout,
    labels: &[NodeLabel],
    edges: &[(usize, usize, &'static str)],
    title: &str,
) -> String {
    let note_width = NOTES.iter().map(|note| text_width(note, SMALL)).max().unwrap_or(0);
    let width = layout.width.max(note_width) + 2 * MARGIN + 30;
    let foot = layout.height + 2 * MARGIN;
    let height = foot + 16 * NOTES.len() as i64 + MARGIN / 2;
    let mut out = format!(
        "<svg xmlns=\"http://www.w3.org/2000/svg\" width=\"{width}\" height=\"{height}\" \
         viewBox=\"0 0 {width} {height}\" role=\"img\">\n<title>{}</title>\n<style>{STYLE}</style>\n{}\
         <rect width=\"{width}\" height=\"{height}\" fill=\"#fff\"/>\n",
        escaped(title),
        markers()
    );
    for (edge, (_, _, style)) in layout.edges.iter().zip(edges) {
        out.push_str(&edge_path(edge, layout, labels, style));
    }
    for (label, middle) in labels.iter().zip(&layout.middles) {
        out.push_str(&node_box(label, *middle));
    }
    for (place, note) in NOTES.iter().enumerate() {
        let y = foot + 16 * place as i64 + 4;
        out.push_str(&text(MARGIN, y, note, "small", "start"));
    }
    out.push_str("</svg>\n");
    out
}

fn markers() -> String {
    let mut out = String::from("<defs>\n");
    for (style, colour) in [("line", "#424a53"), ("second", "#bc4c00"), ("offline", "#8c959f")] {
        let _ = writeln!(
            out,
            "<marker id=\"{style}\" viewBox=\"0 0 8 8\" refX=\"8\" refY=\"4\" markerWidth=\"8\" \
             markerHeight=\"8\" markerUnits=\"userSpaceOnUse\" orient=\"auto\">\
             <path d=\"M0,0 L8,4 L0,8 z\" fill=\"{colour}\"/></marker>"
        );
    }
    out.push_str("</defs>\n");
    out
}

/// From the lower side of the tail to the upper side of the head; the other way where it leads upward.
fn edge_path(edge: &Edge, layout: &Layout, labels: &[NodeLabel], style: &str) -> String {
    let at = |node: usize| (layout.middles[node].0 + MARGIN, layout.middles[node].1 + MARGIN);
    let (x0, y0) = at(edge.tail);
    if edge.tail == edge.head {
        let x = x0 + labels[edge.tail].size().width / 2;
        return format!(
            "<path class=\"{style}\" marker-end=\"url(#{style})\" d=\"M{x},{} C{},{} {},{} {},{}\"/>\n",
            y0 - 6,
            x + 26,
            y0 - 18,
            x + 26,
            y0 + 18,
            x + 1,
            y0 + 6
        );
    }
    let (x1, y1) = at(edge.head);
    let side = if edge.is_upward { -BOX_HEIGHT / 2 } else { BOX_HEIGHT / 2 };
    // A second edge leaves beside the first, so that two to one node are told apart.
    let beside = if style == "second" { 10 } else { 0 };
    let mut d = format!("M{},{}", x0 + beside, y0 + side);
    let mut before = (x0 + beside, y0 + side);
    let inner = edge.points.iter().map(|(x, y)| (x + MARGIN, y + MARGIN));
    for (x, y) in inner.chain([(x1 + beside, y1 - side)]) {
        let middle = (before.1 + y) / 2;
        let _ = write!(d, " C{},{middle} {x},{middle} {x},{y}", before.0);
        before = (x, y);
    }
    format!("<path class=\"{style}\" marker-end=\"url(#{style})\" d=\"{d}\"/>\n")
}

fn node_box(label: &NodeLabel, middle: (i64, i64)) -> String {
    let width = label.size().width;
    let (x, y) = (middle.0 + MARGIN - width / 2, middle.1 + MARGIN - BOX_HEIGHT / 2);
    let left = if label.words.is_empty() { width } else { label.number_width() };
    let mut out = rectangle(x, y, width, BOX_HEIGHT, label.style, 5);
    if !label.words.is_empty() {
        out.push_str(&rectangle(x + 1, y + 1, left - 2, BOX_HEIGHT - 2, "number", 4));
        out.push_str(&text(x + left + 8, y + 18, &label.words, "", "start"));
    }
    out.push_str(&text(x + left / 2, y + 17, &label.number.to_string(), "small", "middle"));
    if !label.note.is_empty() {
        out.push_str(&text(x + width - 8, y + 17, &label.note, "small", "end"));
    }
    out
}

fn rectangle(x: i64, y: i64, width: i64, height: i64, style: &str, corner: i64) -> String {
    format!(
        "<rect x=\"{x}\" y=\"{y}\" width=\"{width}\" height=\"{height}\" rx=\"{corner}\" class=\"{style}\"/>\n"
    )
}

fn text(x: i64, y: i64, words: &str, style: &str, anchor: &str) -> String {
    let style = if style.is_empty() { String::new() } else { format!(" class=\"{style}\"") };
    format!("<text x=\"{x}\" y=\"{y}\" text-anchor=\"{anchor}\"{style}>{}</text>\n", escaped(words))
}

#[cfg(test)]
mod tests {
    use super::*;

    #[test]
    fn what_xml_does_not_take_is_replaced() {
        assert_eq!(
            escaped("a<b>&\u{1}\u{fffe}\u{ffff}\té"),
            "a&lt;b&gt;&amp;\u{fffd}\u{fffd}\u{fffd}\té"
        );
    }
}
