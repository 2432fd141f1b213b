//! The floating-point environment is a condition of use: round to nearest, as C programs start. A colour's channel is
//! the one place where the library computes with floats.

use std::arch::asm;

use library::{Context, Mask};
use reference::picture::SCRATCH_NUMBERS;
use scene::{Draw, Path, Scene};

/// The rounding bits of the SSE control register, and its modes: to nearest, down, up, towards zero.
const ROUNDING: u32 = 0x6000;
const NEAREST: u32 = 0x0000;
const OTHERS: [(&str, u32); 3] = [("down", 0x2000), ("up", 0x4000), ("towards zero", 0x6000)];

fn control() -> u32 {
    let mut register: u32 = 0;
    // SAFETY: stmxcsr stores the register, of 32 bits, where the pointer leads.
    unsafe { asm!("stmxcsr [{}]", in(reg) &mut register, options(nostack)) };
    register
}

fn set_rounding(mode: u32) {
    let register = control() & !ROUNDING | mode;
    // SAFETY: only the rounding bits change, and every test sets them back before it computes with floats.
    unsafe { asm!("ldmxcsr [{}]", in(reg) &register, options(nostack)) };
}

/// The pixel that the library draws in this rounding mode, and the mode after the call.
fn drawn(scene: &[u8], mode: u32) -> ([u8; 4], u32) {
    let (mut surface, mut scratch) = ([0; 4], vec![0; SCRATCH_NUMBERS]);
    set_rounding(mode);
    let answer = library::draw(&mut Context::default(), scene, Mask::NONE, &mut surface, &mut scratch);
    let after = control() & ROUNDING;
    set_rounding(NEAREST);
    assert_eq!(answer.code, 0);
    (surface, after)
}

/// Scenes of one pixel in colours where the fraction changes sides: (c + 1/2) / 255 and its neighbours.
fn scenes() -> Vec<Vec<u8>> {
    let one_pixel = |channel: f32| {
        let mut scene = Scene::new(1, 1, [0, 0, 0, 255]);
        let color = [channel, channel, channel, 1.0];
        scene.draws.push(Draw { color, path: Path::new().rectangle(0, 0, 1, 1), ..Draw::default() });
        scene.bytes()
    };
    let middles = (0..255u8).map(|c| ((f32::from(c) + 0.5) / 255.0).to_bits());
    middles.flat_map(|bits| (0..5).map(move |i| one_pixel(f32::from_bits(bits + i - 2)))).collect()
}

/// A program starts in round to nearest, and a call leaves the mode as it is.
#[test]
fn rounding_is_kept() {
    assert_eq!(control() & ROUNDING, NEAREST);
    let scene = &scenes()[0];
    for (name, mode) in OTHERS {
        assert_eq!(drawn(scene, mode).1, mode, "{name}");
    }
}

/// In every other mode some colour differs, by 1, so the condition is needed; with the mode set back none does.
#[test]
fn rounding_matters() {
    let scenes = scenes();
    for (name, mode) in OTHERS {
        let mut differ = 0;
        for scene in &scenes {
            let (nearest, _) = drawn(scene, NEAREST);
            let (other, _) = drawn(scene, mode);
            let (back, _) = drawn(scene, NEAREST);
            let mut expected = [0; 4];
            reference::draw(scene, None, &mut expected, &mut vec![0; SCRATCH_NUMBERS]);
            assert_eq!((nearest, back), (expected, expected), "rounding {name}");
            assert!(nearest[0].abs_diff(other[0]) <= 1, "rounding {name}: {nearest:?} and {other:?}");
            differ += usize::from(nearest != other);
        }
        println!("rounding {name}: {differ} of {} colours differ", scenes.len());
        assert!(differ > 0, "rounding {name} changes no colour: is the condition still needed?");
    }
}
