//! What the programs print: a picture, an explanation, a replay's answers or a refusal, as text. Of those that print pictures
//! none lends a mask; here one may be lent.

use std::fmt::Write;

use crate::answer::{Answer, ACCEPTED, FIRST_SCENE};
use crate::explain::{explain, Kind, Line};
use crate::paint::Pixel;
use crate::picture::SCRATCH_NUMBERS;
use crate::replay::ANSWER_NUMBERS;
use crate::rules;
use crate::{draw, redraw, replay, Context};

/// The drawing program's output for a scene file.
pub fn drawing(scene: &[u8], mask: Option<&[u8]>) -> String {
    let mut surface = surface_for(scene, mask);
    let answer = draw(scene, mask, &mut surface, &mut vec![0; SCRATCH_NUMBERS]);
    if answer.code != ACCEPTED {
        return format!("refused {:04x} {}\n", answer.code, answer.draw);
    }
    picture(answer.width as usize, &surface)
}

/// The redraw program's output: the old scene drawn in full, then redrawn to the new.
pub fn redrawing(old: &[u8], new: &[u8], mask: Option<&[u8]>) -> String {
    let mut surface = surface_for(old, mask);
    let mut scratch = vec![0; SCRATCH_NUMBERS];
    let first = draw(old, mask, &mut surface, &mut scratch);
    if first.code != ACCEPTED {
        return refusal_of_redraw(&first, FIRST_SCENE);
    }
    let answer = redraw(old, new, mask, &mut surface, &mut scratch);
    if answer.code != ACCEPTED {
        return refusal_of_redraw(&answer, answer.scene);
    }
    format!("{} {} {} {}\n{}", answer.x, answer.y, answer.width, answer.height, picture(first.width as usize, &surface))
}

/// The replay program's output: the code of the whole, a line for each scene, what a context keeps, and the picture that is
/// shown at the end. The surface has the size of the first scene that passes the scene rules.
pub fn replaying(scenes: &[Vec<u8>]) -> String {
    let size = scenes.iter().find_map(|scene| rules::scene(scene, false).ok()).map(|scene| (scene.width, scene.height));
    let (width, height) = size.unwrap_or((0, 0));
    let lengths: Vec<u32> = scenes.iter().map(|scene| scene.len() as u32).collect();
    let mut surface = vec![0; 4 * width as usize * height as usize];
    let mut answers = vec![0; ANSWER_NUMBERS * scenes.len()];
    let mut context = Context::default();
    let mut scratch = vec![0; SCRATCH_NUMBERS];
    let code = replay(&mut context, &scenes.concat(), &lengths, None, &mut surface, &mut scratch, &mut answers);
    let answers = if code == ACCEPTED { answers } else { Vec::new() };
    let mut text = format!("code {code:04x}\n");
    for a in answers.chunks(ANSWER_NUMBERS) {
        writeln!(text, "{:04x} {} {} {} {} {} {}", a[0], a[1], a[2], a[3], a[4], a[5], a[6])
            .expect("a string takes all");
    }
    writeln!(text, "context {:04x}", context.take()).expect("a string takes all");
    if let Some(last) = answers.chunks(ANSWER_NUMBERS).rposition(|answer| answer[0] == ACCEPTED) {
        write!(text, "last {last}\n{}", picture(width as usize, &surface)).expect("a string takes all");
    }
    text
}

fn refusal_of_redraw(answer: &Answer, scene: u32) -> String {
    format!("refused {:04x} {} {scene}\n", answer.code, answer.draw)
}

/// A surface of the scene's size, or an empty one if the scene is refused.
fn surface_for(scene: &[u8], mask: Option<&[u8]>) -> Vec<u8> {
    vec![0; rules::scene(scene, mask.is_some()).map_or(0, |scene| scene.surface_bytes())]
}

/// Width and height, then the rows from the top one down, each pixel as 8 hex digits.
pub fn picture(width: usize, surface: &[u8]) -> String {
    let rows = surface.chunks(4 * width);
    let mut text = format!("{width} {}\n", rows.len());
    for row in rows.rev() {
        for (x, pixel) in row.chunks(4).enumerate() {
            let gap = if x == 0 { "" } else { " " };
            let [r, g, b, a] = [pixel[0], pixel[1], pixel[2], pixel[3]];
            write!(text, "{gap}{r:02x}{g:02x}{b:02x}{a:02x}").expect("a string takes all");
        }
        text.push('\n');
    }
    text
}

/// The explaining program's output for a pixel of a scene file.
pub fn explanation(scene: &[u8], mask: Option<&[u8]>, x: u64, y: u64) -> String {
    match explain(scene, mask, x, y) {
        Err(fault) => format!("refused {:04x} {} offset {}\n", fault.code, fault.draw, fault.offset),
        Ok(explained) => {
            let lines: String = explained.lines.iter().enumerate().map(|(i, line)| explained_draw(i, line)).collect();
            lines + &format!("pixel {}\n", hex(explained.pixel()))
        }
    }
}

fn explained_draw(draw: usize, line: &Line) -> String {
    let step = format!("before {} after {}", hex(line.before), hex(line.after));
    match line.kind {
        Kind::Outside => format!("draw {draw} outside {step}\n"),
        Kind::Uncovered => format!("draw {draw} uncovered {step}\n"),
        Kind::Covered { coverage, mask, paint } => {
            let mask = mask.map_or(String::new(), |byte| format!(" mask {byte}"));
            format!("draw {draw} covered {step} k {coverage}{mask} paint {}\n", hex(paint))
        }
    }
}

fn hex([r, g, b, a]: Pixel) -> String {
    format!("{r:02x}{g:02x}{b:02x}{a:02x}")
}
