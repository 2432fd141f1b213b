//! Whether a scene is another one with its draws rearranged, every two draws whose boxes share a pixel in their order.
//!
//! Of such a pair the crate `order` proves that both are drawn to the same bytes, under one mask or none: makers need
//! no second inspection. Files are read by the reference's rules, and boxes are the reference's.
#![forbid(unsafe_code)]

use std::fmt;

use reference::redraw::{bounds, Bounds};
use reference::rules::Scene;

/// What the second of two accepted scenes is to the first.
#[derive(Clone, Debug, PartialEq, Eq)]
pub enum Verdict {
    /// The same draws, each two whose boxes share a pixel in their order. `places` has for each draw of the first scene
    /// its number in the second.
    Rearranged { places: Vec<usize> },
    /// The same draws, but two whose boxes share a pixel changed their order.
    OrderChanged(Turned),
    /// No rearrangement.
    Other(Difference),
}

/// Two draws of the first scene, the earlier one first, of which the second scene has the later one first.
#[derive(Clone, Copy, Debug, PartialEq, Eq)]
pub struct Turned {
    pub draws: [usize; 2],
    /// Their numbers in the second scene.
    pub places: [usize; 2],
    /// x and y of the lowest and leftmost pixel in both boxes.
    pub pixel: [u32; 2],
}

/// Why the second scene is no rearrangement of the first: what is met first of these.
#[derive(Clone, Copy, Debug, PartialEq, Eq)]
pub enum Difference {
    /// Widths and heights of both.
    Size([[u32; 2]; 2]),
    Count([usize; 2]),
    Edition,
    Background([[u8; 4]; 2]),
    /// A draw of the second scene that the first does not have, or not as often.
    Draw(usize),
}

/// What the second scene is to the first.
pub fn judge(first: &Scene, second: &Scene) -> Verdict {
    if let Some(difference) = header_difference(first, second) {
        return Verdict::Other(difference);
    }
    let places = match matched(first, second) {
        Ok(places) => places,
        Err(draw) => return Verdict::Other(Difference::Draw(draw)),
    };
    match first_turned(first, &places) {
        Some(turned) => Verdict::OrderChanged(turned),
        None => Verdict::Rearranged { places },
    }
}

/// What block 0 of an accepted scene says, field by field: all else in it is zero.
fn header_difference(first: &Scene, second: &Scene) -> Option<Difference> {
    let sizes = [first, second].map(|scene| [scene.width, scene.height]);
    let counts = [first, second].map(|scene| scene.draws.len());
    if sizes[0] != sizes[1] {
        Some(Difference::Size(sizes))
    } else if counts[0] != counts[1] {
        Some(Difference::Count(counts))
    } else if first.edition != second.edition {
        Some(Difference::Edition)
    } else if first.background != second.background {
        Some(Difference::Background([first.background, second.background]))
    } else {
        None
    }
}

/// For each draw of the first scene its number in the second, which has as many; or the first draw of the second that
/// is left without one.
///
/// Draws are matched by their bytes, and equal ones in order: if any other matching keeps the order of all draws whose
/// boxes share a pixel, so does this one.
fn matched(first: &Scene, second: &Scene) -> Result<Vec<usize>, usize> {
    let mut places = vec![None; first.draws.len()];
    for (place, draw) in second.draws.iter().enumerate() {
        let found = (0..places.len()).find(|&i| places[i].is_none() && first.draws[i].bytes == draw.bytes);
        places[found.ok_or(place)?] = Some(place);
    }
    Ok(places.into_iter().flatten().collect())
}

/// The first two draws, in the order of the first scene, whose boxes share a pixel and whose order changed.
fn first_turned(first: &Scene, places: &[usize]) -> Option<Turned> {
    let boxes: Vec<Option<Bounds>> = first.draws.iter().map(|draw| bounds(draw, first.width, first.height)).collect();
    let pairs = (0..places.len()).flat_map(|i| (i + 1..places.len()).map(move |j| (i, j)));
    pairs.filter(|&(i, j)| places[j] < places[i]).find_map(|(i, j)| {
        let shared = boxes[i]?.meet(boxes[j]?)?.rectangle();
        Some(Turned { draws: [i, j], places: [places[i], places[j]], pixel: [shared.x, shared.y] })
    })
}

impl fmt::Display for Verdict {
    fn fmt(&self, f: &mut fmt::Formatter) -> fmt::Result {
        match self {
            Verdict::Rearranged { places } => {
                writeln!(f, "rearranged: both scenes are drawn to the same bytes, under one mask or none")?;
                let moved: Vec<_> = places.iter().enumerate().filter(|(draw, place)| draw != *place).collect();
                if moved.is_empty() {
                    writeln!(f, "no draw moved")?;
                }
                moved.iter().try_for_each(|(draw, place)| writeln!(f, "draw {draw} went to {place}"))
            }
            Verdict::OrderChanged(Turned { draws: [a, b], places: [p, q], pixel: [x, y] }) => {
                writeln!(
                    f,
                    "order changed: draws {a} and {b}, now {p} and {q}, both have the pixel {x}, {y} in their boxes"
                )
            }
            Verdict::Other(difference) => writeln!(f, "no rearrangement: {difference}"),
        }
    }
}

impl fmt::Display for Difference {
    fn fmt(&self, f: &mut fmt::Formatter) -> fmt::Result {
        match self {
            Difference::Size([[w, h], [v, g]]) => write!(f, "{w} by {h} pixels and {v} by {g}"),
            Difference::Count([n, m]) => write!(f, "{n} draws and {m}"),
            Difference::Edition => write!(f, "two editions"),
            Difference::Background([a, b]) => write!(f, "the backgrounds {a:?} and {b:?}"),
            Difference::Draw(draw) => write!(f, "draw {draw} of the second scene is not in the first, or not as often"),
        }
    }
}
