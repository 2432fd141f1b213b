//! A scene with spoiled blocks, written again (paper 02, P14): each draw is judged by itself, with a mask lent.

use std::fmt::Write;

use crate::answer::OUT_OF_MEMORY;
use crate::file::{self, draw};
use crate::rules::{self, Rules};

/// The empty draw's numbers that are not zero, with their places.
const EMPTY: [(usize, u16); 3] = [(draw::BLEND, 0x2001), (draw::PAINT, 0x1B00), (draw::SPREAD, 0x1C00)];

/// A draw that was replaced, and the code that the rules gave it.
#[derive(Clone, Copy, Debug, PartialEq, Eq)]
pub struct Replaced {
    pub draw: u32,
    pub code: u32,
}

/// Writes the salvaged scene to the start of `place` and returns the replaced draws in order, or the code of the refusal,
/// and then nothing is written.
pub fn salvage(scene: &[u8], place: &mut [u8]) -> Result<Vec<Replaced>, u32> {
    let front = rules::front(scene).map_err(|fault| fault.code)?;
    if place.len() < scene.len() {
        return Err(OUT_OF_MEMORY);
    }
    place[..scene.len()].copy_from_slice(scene);
    let rules = Rules { mask_lent: true, edition: front.edition };
    let judged = (0..front.draws).map(|index| (index, rules.numbered_draw(scene, index)));
    let refused = judged.filter_map(|(index, verdict)| verdict.err().map(|fault| (index, fault.code)));
    Ok(refused
        .map(|(index, code)| {
            write_empty(place, index);
            Replaced { draw: index as u32, code }
        })
        .collect())
}

/// What the program prints for a scene file.
pub fn printed(scene: &[u8]) -> String {
    match salvage(scene, &mut vec![0; scene.len()]) {
        Err(code) => format!("refused {code:04x}\n"),
        Ok(replaced) => {
            let mut text = format!("replaced {}\n", replaced.len());
            for Replaced { draw, code } in replaced {
                writeln!(text, "{draw} {code:04x}").expect("a string takes all");
            }
            text
        }
    }
}

/// Writes the empty draw as draw `index` of a file, with fresh checks.
pub fn write_empty(file: &mut [u8], index: usize) {
    let mut bytes = [0; file::DRAW_BYTES];
    for (at, number) in EMPTY {
        bytes[at..at + 2].copy_from_slice(&number.to_le_bytes());
    }
    for (block, payload) in (file::first_block(index)..).zip(bytes.chunks(file::PAYLOAD)) {
        let (sum, weighted) = file::checksum(block, payload);
        let written = [payload, &sum.to_le_bytes(), &weighted.to_le_bytes()].concat();
        file[file::BLOCK * block..][..file::BLOCK].copy_from_slice(&written);
    }
}
