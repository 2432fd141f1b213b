//! Calls the proved library and the reference on the same input and compares all that they leave: the answer, every
//! byte of the surface, every number of the scratch, the scenes, the mask, the proposed rectangles, and guards round
//! each of them.
#![forbid(unsafe_code)]

use std::fmt::Debug;
use std::path::{Path, PathBuf};
use std::process::Command;
use std::{env, fs};

use generate::{masks, Random};
use reference::picture::SCRATCH_NUMBERS;

/// A buffer between two guards, at an offset from where it was allocated.
pub struct Guarded<T> {
    items: Vec<T>,
    start: usize,
    end: usize,
    guard: T,
}

impl<T: Copy + PartialEq + Debug> Guarded<T> {
    const GUARD: usize = 64;

    /// `shift` below 16 moves the buffer, for bytes off every alignment.
    pub fn new(content: &[T], guard: T, shift: usize) -> Guarded<T> {
        let start = Self::GUARD + shift;
        let mut items = vec![guard; start];
        items.extend_from_slice(content);
        let end = items.len();
        items.resize(end + Self::GUARD, guard);
        Guarded { items, start, end, guard }
    }

    pub fn content(&self) -> &[T] {
        &self.items[self.start..self.end]
    }

    pub fn content_mut(&mut self) -> &mut [T] {
        &mut self.items[self.start..self.end]
    }

    pub fn guards_hold(&self) -> bool {
        let outside = self.items[..self.start].iter().chain(&self.items[self.end..]);
        outside.into_iter().all(|&item| item == self.guard)
    }
}

/// What a call is given besides its scenes.
#[derive(Clone)]
pub struct Buffers {
    /// 0 if no mask is lent, and then its bytes must not count.
    pub mask_lent: u32,
    pub mask: Vec<u8>,
    pub surface: Vec<u8>,
    pub scratch: Vec<i32>,
}

/// Numbers that lend a mask: all but 0 do.
const LENT: [u32; 5] = [1, 2, 256, 0x8000_0000, u32::MAX];

impl Buffers {
    /// Rubbish of these lengths, and no mask, but bytes in its place.
    pub fn rubbish(random: &mut Random, surface: usize, scratch: usize) -> Buffers {
        let mask = random.pick(&[0, 1, surface / 4, surface / 4 + 1]);
        let mut buffers =
            Buffers { mask_lent: 0, mask: vec![0; mask], surface: vec![0; surface], scratch: vec![0; scratch] };
        random.fill_bytes(&mut buffers.mask);
        random.fill_bytes(&mut buffers.surface);
        random.fill_numbers(&mut buffers.scratch);
        buffers
    }

    /// Rubbish as a scene of this size needs it, with a mask lent.
    pub fn masked(random: &mut Random, width: u16, height: u16) -> Buffers {
        let mask = masks::mask(random, width, height);
        let buffers = Buffers::rubbish(random, 4 * mask.len(), SCRATCH_NUMBERS);
        Buffers { mask_lent: random.pick(&LENT), mask, ..buffers }
    }

    /// Mostly what a scene of this size needs, at times too little or more; with a mask more often than not.
    pub fn for_scene(random: &mut Random, width: u16, height: u16) -> Buffers {
        let right = Buffers::masked(random, width, height);
        let surface = match random.range(0, 19) {
            0 => right.surface.len().saturating_sub(1),
            1 => right.surface.len() + 1,
            2 => random.pick(&[0, 1, right.mask.len(), right.surface.len() + 3, 2 * right.surface.len()]),
            _ => right.surface.len(),
        };
        let scratch = match random.range(0, 19) {
            0 => SCRATCH_NUMBERS - 1,
            1 => random.pick(&[0, 1, 8_196]),
            2 => random.pick(&[SCRATCH_NUMBERS + 1, 16_384, 20_011]),
            _ => SCRATCH_NUMBERS,
        };
        let other = Buffers::rubbish(random, surface, scratch);
        match random.range(0, 19) {
            // A mask of another length.
            0 => {
                let mut mask = right.mask;
                mask.resize(random.pick(&[0, mask.len() - 1, mask.len() + 1, 4 * mask.len()]), 255);
                Buffers { mask_lent: right.mask_lent, mask, ..other }
            }
            1 | 2 => other,
            _ => Buffers { mask_lent: right.mask_lent, mask: right.mask, ..other },
        }
    }

    pub fn lent_mask(&self) -> Option<&[u8]> {
        (self.mask_lent != 0).then_some(&self.mask[..])
    }
}

/// A call: its scenes, and the rectangles that are proposed for a redraw by them.
#[derive(Clone, Copy)]
pub enum Call<'a> {
    Draw(&'a [u8]),
    /// By the plain engine.
    DrawPlain(&'a [u8]),
    Redraw(&'a [u8], &'a [u8]),
    Regions(&'a [u8], &'a [u8], &'a [i32]),
}

impl Call<'_> {
    fn scenes(&self) -> Vec<&[u8]> {
        match self {
            Call::Draw(scene) | Call::DrawPlain(scene) => vec![scene],
            Call::Redraw(old, new) | Call::Regions(old, new, _) => vec![old, new],
        }
    }

    fn rectangles(&self) -> &[i32] {
        match self {
            Call::Regions(_, _, rectangles) => rectangles,
            _ => &[],
        }
    }
}

/// Compares a call of both on the same buffers, and returns the answer with what the buffers then hold.
///
/// Panics on the first difference, with the scenes and a lent mask saved in the folder for temporary files.
pub fn compare(name: &str, call: Call, buffers: &Buffers) -> (library::Answer, Buffers) {
    let lent = buffers.lent_mask();
    let mut expected = buffers.clone();
    let expected_answer = match call {
        Call::Draw(scene) | Call::DrawPlain(scene) => {
            reference::draw(scene, lent, &mut expected.surface, &mut expected.scratch)
        }
        Call::Redraw(old, new) => reference::redraw(old, new, lent, &mut expected.surface, &mut expected.scratch),
        Call::Regions(old, new, rectangles) => {
            reference::redraw_regions(old, new, lent, rectangles, &mut expected.surface, &mut expected.scratch)
        }
    };

    // The lengths decide the shift, so that a case fails the same way again.
    let shift = (buffers.surface.len() + buffers.scratch.len() + call.scenes()[0].len() / 512) % 16;
    let scenes: Vec<Guarded<u8>> =
        call.scenes().iter().enumerate().map(|(i, scene)| Guarded::new(scene, 0xA5, (shift + 3 * i) % 16)).collect();
    let guarded_mask = Guarded::new(&buffers.mask, 0xC3, (shift + 11) % 16);
    let mask = library::Mask { lent: buffers.mask_lent, bytes: guarded_mask.content() };
    let rectangles = Guarded::new(call.rectangles(), 0x3C3C_3C3C, (shift + 1) % 4);
    let mut surface = Guarded::new(&buffers.surface, 0x5A, (shift + 7) % 16);
    let mut scratch = Guarded::new(&buffers.scratch, 0x5A5A_5A5A, shift % 4);
    let (first, last) = (scenes[0].content(), scenes[scenes.len() - 1].content());
    let (lent_surface, lent_scratch) = (surface.content_mut(), scratch.content_mut());
    // A context that keeps nothing yet, or a code that no call gives. The plain engine has none.
    let kept = if shift % 2 == 0 { 0 } else { 7 };
    let mut context = library::Context { code: kept };
    let answer = match call {
        Call::Draw(_) => library::draw(&mut context, first, mask, lent_surface, lent_scratch),
        Call::DrawPlain(_) => library::draw_plain(first, mask, lent_surface, lent_scratch),
        Call::Redraw(..) => library::redraw(&mut context, first, last, mask, lent_surface, lent_scratch),
        Call::Regions(..) => {
            let rectangles = rectangles.content();
            library::redraw_regions(&mut context, first, last, mask, rectangles, lent_surface, lent_scratch)
        }
    };

    let check = |what: &str, holds: bool| {
        if !holds {
            save(name, &call, lent);
            panic!("{name}: {what} (library {answer:?}, reference {expected_answer:?})");
        }
    };
    check("the answer differs", numbers(answer) == reference::replay::numbers(expected_answer));
    let noted = if matches!(call, Call::DrawPlain(_)) { 0 } else { expected_answer.code };
    check("the context differs", context.code == if kept == 0 { noted } else { kept });
    let difference = first_difference(surface.content(), &expected.surface);
    check(&format!("the surface differs, first at byte {difference:?}"), difference.is_none());
    let difference = first_difference(scratch.content(), &expected.scratch);
    check(&format!("the scratch differs, first at number {difference:?}"), difference.is_none());
    check("a guard of the surface was written", surface.guards_hold());
    check("a guard of the scratch was written", scratch.guards_hold());
    for (guarded, scene) in scenes.iter().zip(call.scenes()) {
        check("a scene was written", guarded.content() == scene && guarded.guards_hold());
    }
    check("a rectangle was written", rectangles.content() == call.rectangles() && rectangles.guards_hold());
    check("the mask was written", guarded_mask.content() == buffers.mask && guarded_mask.guards_hold());
    if answer.code == 0 {
        check("an accepted call left the scratch not zero", scratch.content().iter().all(|&number| number == 0));
    } else {
        check("a refused call wrote the surface", surface.content() == buffers.surface);
        check("a refused call wrote the scratch", scratch.content() == buffers.scratch);
    }
    let (surface, scratch) = (surface.content().to_vec(), scratch.content().to_vec());
    (answer, Buffers { mask_lent: buffers.mask_lent, mask: buffers.mask.clone(), surface, scratch })
}

/// The seven numbers of an answer.
pub fn numbers(answer: library::Answer) -> [u32; 7] {
    [answer.code, answer.draw, answer.scene, answer.x, answer.y, answer.width, answer.height]
}

fn first_difference<T: PartialEq>(left: &[T], right: &[T]) -> Option<usize> {
    left.iter().zip(right).position(|(a, b)| a != b)
}

/// Keeps the scenes of a call that failed, and its mask, under the name of its case.
fn save(name: &str, call: &Call, mask: Option<&[u8]>) {
    let name: String = name.chars().map(|c| if c.is_ascii_alphanumeric() { c } else { '-' }).collect();
    let scenes = call.scenes().into_iter().enumerate().map(|(i, scene)| (format!("{i}.scene"), scene));
    for (ending, bytes) in scenes.chain(mask.map(|mask| ("mask".to_string(), mask))) {
        let path = env::temp_dir().join(format!("wayramesh-{name}-{ending}"));
        match fs::write(&path, bytes) {
            Ok(()) => eprintln!("saved as {}", path.display()),
            Err(error) => eprintln!("{}: {error}", path.display()),
        }
    }
}

/// How many times the usual number of cases to try, from WAYRAMESH_ROUNDS.
pub fn rounds() -> u64 {
    env::var("WAYRAMESH_ROUNDS").map_or(1, |text| text.parse().expect("WAYRAMESH_ROUNDS is a whole number"))
}

/// Compiles a C program of the folder examples with the library, as its first comment says, into a folder.
pub fn compiled_example(name: &str, folder: &str) -> PathBuf {
    let root = Path::new(env!("CARGO_MANIFEST_DIR")).join("../..");
    let archive = env::var_os("WAYRAMESH_LIB_DIR").map_or(root.join("crates/wayramesh/out"), PathBuf::from);
    let program = Path::new(folder).join(name);
    let status = Command::new("cc")
        .args(["-std=c99", "-pthread", "-Wall", "-Wextra", "-Wpedantic", "-Wconversion", "-Werror", "-I"])
        .arg(root.join("include"))
        .arg(root.join("examples").join(name).with_extension("c"))
        .arg(archive.join("libwayramesh.a"))
        .arg("-o")
        .arg(&program)
        .status()
        .expect("a C compiler");
    assert!(status.success(), "{name}.c");
    program
}
