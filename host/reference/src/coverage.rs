//! Coverage: how many of a pixel's sixteen samples are inside a path, and the scissors.

use crate::path::Edge;

/// The sample positions within a pixel on both axes, in 1/256.
const SAMPLES: [i64; 4] = [32, 96, 160, 224];

#[derive(Clone, Copy, Debug, PartialEq, Eq)]
pub enum FillRule {
    EvenOdd,
    NonZero,
}

impl FillRule {
    /// Whether a sample with this winding number is inside.
    pub fn holds(self, winding: i64) -> bool {
        match self {
            FillRule::EvenOdd => winding % 2 != 0,
            FillRule::NonZero => winding != 0,
        }
    }
}

/// Pixels x to x + width - 1 and y to y + height - 1 as whole numbers; empty unless both sizes are above 0.
#[derive(Clone, Copy, Debug)]
pub struct Scissor {
    pub x: i64,
    pub y: i64,
    pub width: i64,
    pub height: i64,
}

impl Scissor {
    pub fn holds(&self, x: i64, y: i64) -> bool {
        self.x <= x && x < self.x + self.width && self.y <= y && y < self.y + self.height
    }
}

/// Whether the scissors let a pixel through; None is scissoring off.
pub fn in_scissors(scissors: Option<&[Scissor]>, x: i64, y: i64) -> bool {
    match scissors {
        None => true,
        Some(rectangles) => rectangles.iter().any(|r| r.holds(x, y)),
    }
}

/// The number of samples of pixel (x, y) inside the path, 0 to 16.
pub fn coverage(edges: &[Edge], rule: FillRule, x: i64, y: i64) -> i64 {
    samples(x, y).filter(|&(x, y)| rule.holds(winding(edges, x, y))).count() as i64
}

/// The samples of pixel (x, y) in surface units, row by row from the lowest.
pub fn samples(x: i64, y: i64) -> impl Iterator<Item = (i64, i64)> {
    SAMPLES.into_iter().flat_map(move |up| SAMPLES.map(|across| (256 * x + across, 256 * y + up)))
}

/// The edges that can count for a sample of pixel row y: the others span none of its sample rows.
pub fn edges_of_row(edges: &[Edge], y: i64) -> Vec<Edge> {
    let (first, last) = (256 * y + SAMPLES[0], 256 * y + SAMPLES[3]);
    let spans = |e: &&Edge| e.from.y.min(e.to.y) <= last && e.from.y.max(e.to.y) > first;
    edges.iter().filter(spans).copied().collect()
}

/// The sum over the edges that count for a sample: +1 going up, -1 going down.
pub fn winding(edges: &[Edge], x: i64, y: i64) -> i64 {
    edges.iter().map(|edge| counts(edge, x, y)).sum()
}

/// What an edge counts for a sample.
pub fn counts(edge: &Edge, x: i64, y: i64) -> i64 {
    let upward = edge.from.y < edge.to.y;
    let (lower, upper) = if upward { (edge.from, edge.to) } else { (edge.to, edge.from) };
    if lower.y > y || upper.y <= y {
        return 0;
    }
    // The crossing lies at lower.x + (upper.x - lower.x) * (y - lower.y) / (upper.y - lower.y).
    let at_or_left = (upper.x - lower.x) * (y - lower.y) <= (x - lower.x) * (upper.y - lower.y);
    match (at_or_left, upward) {
        (false, _) => 0,
        (true, true) => 1,
        (true, false) => -1,
    }
}
