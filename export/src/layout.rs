//! Where the boxes of a graph stand: rows from top to bottom, each box below
//! what leads to it, with few crossings and lines as straight as they can be.
//! All sums are over whole numbers, so that every machine draws the same.

/// Between boxes of a row, and between rows.
const BOX_GAP: i64 = 26;
const ROW_GAP: i64 = 34;

/// How often rows are ordered and boxes are pulled towards their neighbours.
const TURNS: usize = 8;

pub struct Size {
    pub width: i64,
    pub height: i64,
}

/// An edge between two boxes. `points` are the middles of the places that it
/// passes between its boxes, from its tail to its head.
pub struct Edge {
    pub tail: usize,
    pub head: usize,
    pub points: Vec<(i64, i64)>,
    /// Laid from the bottom to the top, since it closes a circle.
    pub is_upward: bool,
}

pub struct Layout {
    /// The middle of each box.
    pub middles: Vec<(i64, i64)>,
    pub edges: Vec<Edge>,
    pub width: i64,
    pub height: i64,
}

/// Lays out boxes and the edges between them. Boxes in `last` share the lowest row.
#[must_use]
pub fn layout(sizes: &[Size], edges: &[(usize, usize)], last: &[usize], root: usize) -> Layout {
    let is_upward = upward_edges(sizes.len(), edges, root);
    let down: Vec<(usize, usize)> = edges
        .iter()
        .zip(&is_upward)
        .map(|(&(tail, head), up)| if *up { (head, tail) } else { (tail, head) })
        .collect();
    let row_of = rows_from_top(sizes.len(), &down, last);
    let mut grid = Grid::new(sizes, &down, &row_of);
    grid.order();
    grid.place();
    grid.finish(edges, &is_upward, sizes.len())
}

fn successors(count: usize, edges: &[(usize, usize)]) -> Vec<Vec<(usize, usize)>> {
    let mut out = vec![Vec::new(); count];
    for (edge, &(tail, head)) in edges.iter().enumerate() {
        out[tail].push((edge, head));
    }
    out
}

/// The edges that close a circle, found by a search from the root and then from the other boxes.
fn upward_edges(count: usize, edges: &[(usize, usize)], root: usize) -> Vec<bool> {
    #[derive(Clone, Copy, PartialEq)]
    enum State {
        Unseen,
        Open,
        Done,
    }
    let out = successors(count, edges);
    let mut state = vec![State::Unseen; count];
    let mut is_upward = vec![false; edges.len()];
    for start in std::iter::once(root).chain(0..count) {
        if state[start] != State::Unseen {
            continue;
        }
        state[start] = State::Open;
        let mut path = vec![(start, 0)];
        while let Some((node, next)) = path.last_mut() {
            let Some(&(edge, head)) = out[*node].get(*next) else {
                state[*node] = State::Done;
                path.pop();
                continue;
            };
            *next += 1;
            match state[head] {
                State::Open => is_upward[edge] = true,
                State::Done => {}
                State::Unseen => {
                    state[head] = State::Open;
                    path.push((head, 0));
                }
            }
        }
    }
    is_upward
}

/// The longest way to each box. An edge from a box to itself counts for nothing.
fn rows_from_top(count: usize, down: &[(usize, usize)], last: &[usize]) -> Vec<usize> {
    let out = successors(count, down);
    let mut waiting = vec![0; count];
    for (_, head) in down.iter().filter(|(tail, head)| tail != head) {
        waiting[*head] += 1;
    }
    let mut row = vec![0; count];
    let mut ready: Vec<usize> = (0..count).filter(|node| waiting[*node] == 0).collect();
    while let Some(node) = ready.pop() {
        for &(_, head) in out[node].iter().filter(|(_, head)| *head != node) {
            row[head] = row[head].max(row[node] + 1);
            waiting[head] -= 1;
            if waiting[head] == 0 {
                ready.push(head);
            }
        }
    }
    let deepest =
        row.iter().enumerate().filter(|(node, _)| !last.contains(node)).map(|(_, row)| row).max();
    let lowest = deepest.map_or(0, |row| row + 1);
    for node in last {
        row[*node] = lowest;
    }
    row
}

/// A box, or a place of width 0 that an edge passes.
struct Cell {
    width: i64,
    row: usize,
    x: i64,
    above: Vec<usize>,
    below: Vec<usize>,
}

struct Grid {
    cells: Vec<Cell>,
    rows: Vec<Vec<usize>>,
    row_heights: Vec<i64>,
    /// The cells of each edge from the upper box to the lower one.
    ways: Vec<Vec<usize>>,
}

impl Grid {
    fn new(sizes: &[Size], down: &[(usize, usize)], row_of: &[usize]) -> Self {
        let row_count = row_of.iter().max().map_or(0, |row| row + 1);
        let cell = |width, row| Cell { width, row, x: 0, above: Vec::new(), below: Vec::new() };
        let mut grid = Self {
            cells: sizes.iter().zip(row_of).map(|(size, row)| cell(size.width, *row)).collect(),
            rows: vec![Vec::new(); row_count],
            row_heights: vec![0; row_count],
            ways: Vec::new(),
        };
        for (node, row) in row_of.iter().enumerate() {
            grid.rows[*row].push(node);
            grid.row_heights[*row] = grid.row_heights[*row].max(sizes[node].height);
        }
        for &(upper, lower) in down {
            let mut way = vec![upper];
            for row in row_of[upper] + 1..row_of[lower] {
                way.push(grid.cells.len());
                grid.rows[row].push(grid.cells.len());
                grid.cells.push(cell(0, row));
            }
            if upper != lower {
                way.push(lower);
            }
            for pair in way.windows(2) {
                grid.cells[pair[0]].below.push(pair[1]);
                grid.cells[pair[1]].above.push(pair[0]);
            }
            grid.ways.push(way);
        }
        grid
    }

    fn places(&self) -> Vec<usize> {
        let mut place = vec![0; self.cells.len()];
        for row in &self.rows {
            for (at, cell) in row.iter().enumerate() {
                place[*cell] = at;
            }
        }
        place
    }

    /// Orders rows by the middle of their neighbours, down and up in turn, and keeps the best order.
    fn order(&mut self) {
        let mut best = (self.crossings(), self.rows.clone());
        for turn in 0..TURNS {
            let is_down = turn % 2 == 0;
            let count = self.rows.len();
            let mut place = self.places();
            for step in 0..count {
                let row = if is_down { step } else { count - 1 - step };
                self.order_row(row, is_down, &mut place);
            }
            let crossings = self.crossings();
            if crossings < best.0 {
                best = (crossings, self.rows.clone());
            }
        }
        self.rows = best.1;
    }

    fn order_row(&mut self, row: usize, is_down: bool, place: &mut [usize]) {
        let cells = &self.cells;
        let middle = |cell: &usize| {
            let near = if is_down { &cells[*cell].above } else { &cells[*cell].below };
            let sum: usize = near.iter().map(|other| place[*other]).sum();
            if near.is_empty() { 1_000 * place[*cell] } else { 1_000 * sum / near.len() }
        };
        self.rows[row].sort_by_cached_key(middle);
        for (at, cell) in self.rows[row].iter().enumerate() {
            place[*cell] = at;
        }
    }

    /// How many pairs of edges cross, counted row by row as pairs out of order.
    fn crossings(&self) -> usize {
        let place = self.places();
        let mut count = 0;
        for pair in self.rows.windows(2) {
            let mut seen = vec![0_usize; pair[1].len() + 1];
            let mut total = 0;
            for cell in &pair[0] {
                let mut ends: Vec<usize> =
                    self.cells[*cell].below.iter().map(|other| place[*other]).collect();
                ends.sort_unstable();
                for end in &ends {
                    count += total - sum_to(&seen, end + 1);
                }
                for end in ends {
                    add_at(&mut seen, end + 1);
                    total += 1;
                }
            }
        }
        count
    }

    /// Puts boxes side by side and pulls them towards the middle of their neighbours.
    fn place(&mut self) {
        for row in 0..self.rows.len() {
            let mut x = 0;
            for at in 0..self.rows[row].len() {
                let cell = self.rows[row][at];
                self.cells[cell].x = x + self.cells[cell].width / 2;
                x += self.cells[cell].width + BOX_GAP;
            }
        }
        for turn in 0..2 * TURNS {
            let is_down = turn % 2 == 0;
            let count = self.rows.len();
            for step in 0..count {
                let row = if is_down { step } else { count - 1 - step };
                self.pull_row(row, is_down);
            }
        }
    }

    fn pull_row(&mut self, row: usize, is_down: bool) {
        let wanted: Vec<i64> =
            self.rows[row].iter().map(|cell| self.wanted(*cell, is_down)).collect();
        let from_left = self.pushed(row, &wanted, false);
        let from_right = self.pushed(row, &wanted, true);
        for (at, cell) in self.rows[row].iter().enumerate() {
            self.cells[*cell].x = (from_left[at] + from_right[at]).div_euclid(2);
        }
    }

    fn wanted(&self, cell: usize, is_down: bool) -> i64 {
        let cell = &self.cells[cell];
        let near = if is_down { &cell.above } else { &cell.below };
        let mut xs: Vec<i64> = near.iter().map(|other| self.cells[*other].x).collect();
        xs.sort_unstable();
        match xs.len() {
            0 => cell.x,
            count => (xs[(count - 1) / 2] + xs[count / 2]).div_euclid(2),
        }
    }

    /// Each box where it wants to be, or as near as the boxes on one side let it.
    fn pushed(&self, row: usize, wanted: &[i64], is_from_right: bool) -> Vec<i64> {
        let row = &self.rows[row];
        let mut x = wanted.to_vec();
        let gap = |one: usize, other: usize| {
            (self.cells[row[one]].width + self.cells[row[other]].width) / 2 + BOX_GAP
        };
        for step in 1..row.len() {
            if is_from_right {
                let at = row.len() - 1 - step;
                x[at] = x[at].min(x[at + 1] - gap(at, at + 1));
            } else {
                x[step] = x[step].max(x[step - 1] + gap(step - 1, step));
            }
        }
        x
    }

    fn finish(mut self, edges: &[(usize, usize)], is_upward: &[bool], box_count: usize) -> Layout {
        let left = self.cells.iter().map(|cell| cell.x - cell.width / 2).min().unwrap_or(0);
        for cell in &mut self.cells {
            cell.x -= left;
        }
        let width = self.cells.iter().map(|cell| cell.x + cell.width / 2).max().unwrap_or(0);
        let mut row_y = Vec::new();
        let mut y = 0;
        for height in &self.row_heights {
            row_y.push(y + height / 2);
            y += height + ROW_GAP;
        }
        let middle = |cell: usize| (self.cells[cell].x, row_y[self.cells[cell].row]);
        let middles = (0..box_count).map(middle).collect();
        let edges = edges.iter().enumerate().map(|(edge, &(tail, head))| {
            let way = &self.ways[edge];
            let inner = way.get(1..way.len().saturating_sub(1)).unwrap_or_default();
            let mut points: Vec<(i64, i64)> = inner.iter().map(|cell| middle(*cell)).collect();
            if is_upward[edge] {
                points.reverse();
            }
            Edge { tail, head, points, is_upward: is_upward[edge] }
        });
        let edges = edges.collect();
        Layout { middles, edges, width, height: (y - ROW_GAP).max(0) }
    }
}

/// A tree of sums over places from 1.
fn add_at(sums: &mut [usize], mut place: usize) {
    while place < sums.len() {
        sums[place] += 1;
        place += place & place.wrapping_neg();
    }
}

fn sum_to(sums: &[usize], mut place: usize) -> usize {
    let mut sum = 0;
    while place > 0 {
        sum += sums[place];
        place -= place & place.wrapping_neg();
    }
    sum
}

#[cfg(test)]
mod tests {
    use super::*;

    /// A loop with a branch in it, a box that leads to itself, and one that nothing leads to.
    const EDGES: [(usize, usize); 9] =
        [(1, 2), (2, 3), (2, 4), (3, 5), (4, 5), (5, 2), (5, 0), (6, 6), (7, 0)];

    fn laid() -> (Vec<Size>, Layout) {
        let size = |width| Size { width, height: 26 };
        let sizes: Vec<Size> = [40, 60, 200, 90, 310, 50, 48, 70].map(size).into();
        let laid = layout(&sizes, &EDGES, &[0], 1);
        (sizes, laid)
    }

    #[test]
    fn edges_lead_down_but_for_those_that_close_a_circle() {
        let (_, laid) = laid();
        for (edge, (tail, head)) in laid.edges.iter().zip(EDGES) {
            assert_eq!((edge.tail, edge.head), (tail, head));
            let (from, to) = (laid.middles[tail].1, laid.middles[head].1);
            match (tail, head) {
                (5, 2) => assert!(edge.is_upward && from > to),
                (6, 6) => assert!(edge.points.is_empty()),
                _ => assert!(!edge.is_upward && from < to, "{tail} to {head}"),
            }
        }
    }

    #[test]
    fn boxes_stand_apart_and_inside() {
        let (sizes, laid) = laid();
        for (one, (x, y)) in laid.middles.iter().enumerate() {
            let half = sizes[one].width / 2;
            assert!(x - half >= 0 && x + half <= laid.width, "{one}");
            assert!(y - 13 >= 0 && y + 13 <= laid.height, "{one}");
            for (other, (x1, y1)) in laid.middles.iter().enumerate().skip(one + 1) {
                let apart = (x - x1).abs() >= half + sizes[other].width / 2;
                assert!(y != y1 || apart, "{one} and {other}");
            }
        }
    }
}
