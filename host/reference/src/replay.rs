//! Many scenes in one call, and the context that keeps the first code (paper 02, P13): the single calls, one by one.

use crate::answer::{Answer, ACCEPTED, BAD_LENGTH, OUT_OF_MEMORY};
use crate::picture::draw;
use crate::redraw::redraw;

/// The most scenes of a replay.
pub const MOST_SCENES: usize = 600;

/// The numbers of an answer.
pub const ANSWER_NUMBERS: usize = 7;

/// The first code other than 0 since it was last asked for.
#[derive(Clone, Copy, Debug, Default, PartialEq, Eq)]
pub struct Context {
    pub code: u32,
}

impl Context {
    pub fn note(&mut self, code: u32) {
        if self.code == ACCEPTED {
            self.code = code;
        }
    }

    /// Asking sets 0.
    pub fn take(&mut self) -> u32 {
        std::mem::take(&mut self.code)
    }
}

/// Shows the scenes one after the other: each redrawn from the one accepted last, or drawn in full while there is none.
///
/// Refused as a whole it writes nothing but the context. Else seven numbers for each scene go to the answers, and later
/// places are not written.
pub fn replay(
    context: &mut Context,
    scenes: &[u8],
    lengths: &[u32],
    mask: Option<&[u8]>,
    surface: &mut [u8],
    scratch: &mut [i32],
    answers: &mut [u32],
) -> u32 {
    let code = refusal(scenes, lengths, answers);
    if code != ACCEPTED {
        context.note(code);
        return code;
    }
    let mut rest = scenes;
    let mut last: Option<&[u8]> = None;
    for (&length, place) in lengths.iter().zip(answers.chunks_mut(ANSWER_NUMBERS)) {
        let (scene, behind) = rest.split_at(length as usize);
        rest = behind;
        let answer = match last {
            None => draw(scene, mask, surface, scratch),
            Some(old) => redraw(old, scene, mask, surface, scratch),
        };
        if answer.code == ACCEPTED {
            last = Some(scene);
        }
        place.copy_from_slice(&numbers(answer));
        context.note(answer.code);
    }
    ACCEPTED
}

/// The code of the whole call.
fn refusal(scenes: &[u8], lengths: &[u32], answers: &[u32]) -> u32 {
    let sum: u128 = lengths.iter().map(|&length| u128::from(length)).sum();
    if lengths.len() > MOST_SCENES || sum != scenes.len() as u128 {
        BAD_LENGTH
    } else if answers.len() < ANSWER_NUMBERS * lengths.len() {
        OUT_OF_MEMORY
    } else {
        ACCEPTED
    }
}

/// Code, draw, scene and the area.
pub fn numbers(answer: Answer) -> [u32; ANSWER_NUMBERS] {
    [answer.code, answer.draw, answer.scene, answer.x, answer.y, answer.width, answer.height]
}
