//! A pixel of an accepted scene in words: a block for each draw that covers it, a line for those that do not.

use std::fmt::Write;

use library::explain::{Line, COVERED, OUTSIDE};
use library::Pixel;
use reference::coverage::{counts, samples, winding, FillRule, Scissor};
use reference::file::draw;
use reference::number::u16_at;
use reference::path::Edge;
use reference::rules::{self, Draw, Scene};

use reference::words::names;

use crate::swatch::pixel;
use crate::Question;

/// What the lines say of the pixel, from the background on.
pub fn told(question: &Question, name: &str, background: Pixel, lines: &[Line], swatches: bool) -> String {
    let scene = rules::scene(question.scene, question.mask.is_some()).expect("a scene that the library accepts");
    let story = Story { scene: &scene, x: question.x, y: question.y, lines, swatches };
    let last = lines.last().map_or(background, |line| line.after);
    let edition = u16_at(question.scene, reference::file::header::EDITION);
    let (width, height, draws) = (scene.width, scene.height, lines.len());
    let mut text = format!("{name}: {width} by {height} pixels, edition {edition}, {draws} draws\n");
    let _ = writeln!(text, "pixel ({}, {}), row 0 the lowest; colours premultiplied\n", question.x, question.y);
    let _ = writeln!(text, "background       {}", pixel(background, swatches));
    text += &story.draws();
    let _ = writeln!(text, "\nthe pixel        {}", pixel(last, swatches));
    text
}

struct Story<'a> {
    scene: &'a Scene,
    x: i64,
    y: i64,
    lines: &'a [Line],
    swatches: bool,
}

/// A line of a block: what is told, and its words.
fn item(what: &str, words: &str) -> String {
    format!("    {what:<12} {words}\n")
}

/// Draws by their numbers.
fn numbered(from: usize, end: usize) -> String {
    match end - from {
        1 => format!("draw {from}"),
        2 => format!("draws {from}, {}", end - 1),
        _ => format!("draws {from} to {}", end - 1),
    }
}

fn plural(count: usize, one: &str) -> String {
    if count == 1 {
        format!("1 {one}")
    } else {
        format!("{count} {one}s")
    }
}

impl Story<'_> {
    fn draws(&self) -> String {
        let mut text = String::new();
        let mut i = 0;
        let mut in_block = true;
        while i < self.lines.len() {
            if self.lines[i].kind == COVERED {
                let _ = write!(text, "\n{}", self.covering(i));
                in_block = true;
                i += 1;
                continue;
            }
            if in_block {
                text.push('\n');
            }
            in_block = false;
            let next = self.run_of_far_draws(i);
            if next > i {
                let words = if next - i == 1 { "its box is elsewhere" } else { "their boxes are elsewhere" };
                let _ = writeln!(text, "{:<16} {words}", numbered(i, next));
                i = next;
            } else {
                let _ = writeln!(text, "{:<16} {}", numbered(i, i + 1), self.missing(i));
                i += 1;
            }
        }
        text
    }

    /// The end of the draws from i on that are told in one line: their boxes do not hold the pixel.
    fn run_of_far_draws(&self, i: usize) -> usize {
        let far = |&n: &usize| {
            let kind = self.lines[n].kind;
            kind != COVERED && kind != OUTSIDE && !self.in_box(&self.scene.draws[n])
        };
        (i..self.lines.len()).take_while(far).last().map_or(i, |last| last + 1)
    }

    /// Whether the pixel is in the box of a draw's edges.
    fn in_box(&self, draw: &Draw) -> bool {
        let within = |pixel: i64, of: fn(&Edge) -> [i64; 2]| {
            let ends = || draw.edges.iter().flat_map(of).map(|end| end.div_euclid(256));
            ends().min() <= Some(pixel) && ends().max() >= Some(pixel)
        };
        !draw.edges.is_empty()
            && within(self.x, |edge| [edge.from.x, edge.to.x])
            && within(self.y, |edge| [edge.from.y, edge.to.y])
    }

    /// Why a draw leaves the pixel.
    fn missing(&self, i: usize) -> String {
        let draw = &self.scene.draws[i];
        if self.lines[i].kind != OUTSIDE {
            return format!("its box holds the pixel, but no sample is inside: {}", self.crossings(draw));
        }
        match draw.scissors.as_deref() {
            Some([]) | None => "scissoring is on, and there is no scissor".to_string(),
            Some(scissors) => {
                let rectangles: Vec<String> = scissors.iter().map(rectangle).collect();
                format!("outside its {}: {}", plural(scissors.len(), "scissor"), rectangles.join("; "))
            }
        }
    }

    /// How many edges count at a sample of the pixel.
    fn crossings(&self, draw: &Draw) -> String {
        let counting = draw.edges.iter().filter(|edge| samples(self.x, self.y).any(|(x, y)| counts(edge, x, y) != 0));
        format!("{} of {} cross at or left of a sample", counting.count(), plural(draw.edges.len(), "edge"))
    }

    /// What a draw that covers the pixel does.
    fn covering(&self, i: usize) -> String {
        let (draw, line) = (&self.scene.draws[i], &self.lines[i]);
        let number = |place| u16_at(&draw.bytes, place);
        let name = |names: &[&'static str], first, place| names::of(names, first, number(place)).unwrap_or("unknown");
        let mut text = format!("draw {i:<11} covers {} of 16 samples\n", line.coverage);
        text += &item("blend", name(&names::BLENDS, 0x2000, draw::BLEND));
        let mut paint = name(&names::PAINTS, 0x1B00, draw::PAINT).to_string();
        if number(draw::PAINT) != 0x1B00 {
            let _ = write!(paint, ", spread {}", name(&names::SPREADS, 0x1C00, draw::SPREAD));
        }
        if draw.transform.is_some() {
            paint += ", by its colour transformation";
        }
        text += &item("paint", &paint);
        text += &item("", &pixel(line.paint, self.swatches));
        text += &self.samples(draw);
        text += &self.scissor(draw);
        if line.masked == 1 {
            text += &item("mask", &format!("{} of 255", line.mask));
        }
        text += &item("before", &pixel(line.before, self.swatches));
        text += &item("after", &pixel(line.after, self.swatches));
        text
    }

    /// The 16 samples, the top row first: inside or not, and their winding numbers; in one line where all are alike.
    fn samples(&self, draw: &Draw) -> String {
        let rule = match draw.fill_rule {
            FillRule::EvenOdd => "even-odd rule",
            FillRule::NonZero => "non-zero rule",
        };
        let mut text = item("path", &format!("{rule}, {}", self.crossings(draw)));
        let all: Vec<(i64, i64)> = samples(self.x, self.y).collect();
        let first = winding(&draw.edges, all[0].0, all[0].1);
        if all.iter().all(|&(x, y)| winding(&draw.edges, x, y) == first) {
            return text + &item("samples", &format!("all inside, winding number {first}"));
        }
        for (row, samples) in all.chunks(4).rev().enumerate() {
            let numbers: Vec<i64> = samples.iter().map(|&(x, y)| winding(&draw.edges, x, y)).collect();
            let marks: String = numbers.iter().map(|&n| if draw.fill_rule.holds(n) { '#' } else { '.' }).collect();
            let numbers: Vec<String> = numbers.iter().map(|n| format!("{n:2}")).collect();
            let what = if row == 0 { "samples" } else { "" };
            text += &item(what, &format!("{marks}   winding {}", numbers.join(" ")));
        }
        text
    }

    /// The scissor that lets the pixel through, where scissoring is on.
    fn scissor(&self, draw: &Draw) -> String {
        let scissors = match &draw.scissors {
            Some(scissors) => scissors,
            None => return String::new(),
        };
        match scissors.iter().position(|scissor| scissor.holds(self.x, self.y)) {
            Some(i) => {
                item("scissor", &format!("number {i} of {} holds it: {}", scissors.len(), rectangle(&scissors[i])))
            }
            None => String::new(),
        }
    }
}

/// A scissor in words.
fn rectangle(scissor: &Scissor) -> String {
    let Scissor { x, y, width, height } = *scissor;
    if width <= 0 || height <= 0 {
        return format!("empty, {width} by {height}");
    }
    format!("columns {x} to {}, rows {y} to {}", x + width - 1, y + height - 1)
}
