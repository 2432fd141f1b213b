//! Every fault of the rules has words: the field, its value and a rule that the file does break.

use generate::{damage, rules as sides, scenes, Random};
use reference::file::BLOCK;
use reference::words::{broken, Broken};
use reference::{answer, rules, Fault};
use scene::{Draw, PaintType, Path, Scene};

/// The broken rule of a refused scene, which has words; none where it is accepted.
fn found(name: &str, scene: &[u8], mask_lent: bool) -> Option<Broken> {
    let fault = rules::scene(scene, mask_lent).err()?;
    let broken = broken(scene, mask_lent, &fault);
    let broken = broken.unwrap_or_else(|| panic!("{name}: no words for {fault:?}"));
    assert!(!broken.field.is_empty() && !broken.value.is_empty() && !broken.rule.is_empty(), "{name}: {broken}");
    Some(broken)
}

/// Words of every rule. A part of each must be told of some scene.
const RULES: [&str; 36] = [
    "has a block of 512 bytes at least",
    "a whole number of blocks",
    "as block 0 says",
    "the two sums of its payload",
    "the width is from",
    "the height is from",
    "at most 64 draws",
    "the edition is 0",
    "bytes 12 to 507 of block 0",
    "flag bits 5 to 15",
    "is for edition 1",
    "asks for a mask, and none is lent",
    "the blend mode is one of",
    "the paint type is one of",
    "the spread is one of",
    "at most 128 segments",
    "at most 4 scissors",
    "at most 32 stops",
    "at most 31 stops of a radial draw",
    "byte 11 of a draw",
    "sx, shy, shx, sy are finite and at most 256",
    "tx, ty are finite and at most 32768",
    "the colour's R, G, B, A are numbers",
    "x0, y0, x1, y1 are finite and at most 4096",
    "scissors that are used",
    "cx, cy, fx, fy, r are finite and at most 1024",
    "the focal point lies inside",
    "offset, R, G, B, A are numbers",
    "stops that are used",
    "the colour transformation's bias of R, G, B, A are numbers",
    "no flat matrix",
    "arcs, bytes 18 to 25",
    "a segment byte is 0 to 17",
    "this segment needs one more",
    "stays in -32,768 to 32,767",
    "at most 8,388,608 in size",
];

/// Both sides of every rule, in both editions, with a mask and without one.
#[test]
fn every_rule_has_words() {
    let mut told = Vec::new();
    for (mask_lent, edition) in [(false, 0), (false, 1), (true, 0), (true, 1)] {
        for case in sides::cases(mask_lent, edition) {
            let found = found(&case.name, &case.bytes, mask_lent);
            assert_eq!(found.is_some(), case.fault.is_some(), "{}", case.name);
            told.extend(found.map(|found| found.rule));
        }
    }
    for rule in RULES {
        assert!(told.iter().any(|told| told.contains(rule)), "no scene breaks it: {rule}");
    }
    for told in told {
        let behind = told.starts_with("behind the ");
        assert!(
            behind || RULES.iter().any(|rule| told.contains(rule)) || told.contains("scale of R"),
            "not listed: {told}"
        );
    }
}

/// Random scenes, spoiled in a few places.
#[test]
fn spoiled_scenes_have_words() {
    let mut random = Random::new(99);
    let mut refused = 0;
    for round in 0..3_000 {
        let scene = scenes::scene(&mut random, 6, 4);
        let bytes = damage::damaged(&mut random, &scene);
        refused += usize::from(found(&format!("round {round}"), &bytes, round % 2 == 0).is_some());
    }
    assert!(refused >= 1_000, "{refused} refused");
}

fn refused_words(change: impl FnOnce(&mut Scene)) -> String {
    let draw = Draw { path: Path::new().rectangle(0, 0, 2, 2), ..Draw::default() };
    let mut scene = Scene { draws: vec![draw; 2], ..Scene::new(4, 4, [0; 4]) };
    change(&mut scene);
    found("a changed scene", &scene.bytes(), false).expect("a refused scene").to_string()
}

#[test]
fn what_is_said() {
    assert_eq!(refused_words(|scene| scene.width = 1_025), "the width is 1025; the width is from 1 to 1,024");
    let sy = "the matrix's sy is -300.5 (bytes 00 40 96 c3); the matrix's sx, shy, shx, sy are finite and at most 256 in size";
    assert_eq!(refused_words(|scene| scene.draws[1].matrix[3] = -300.5), sy);
    let focus = refused_words(|scene| {
        scene.draws[0].paint = PaintType::Radial;
        scene.draws[0].radial = [1.0, 2.0, 1.5, 2.0, 0.5];
    });
    let expected =
        "the radial gradient is centre (16, 32), focal point (24, 32), r 8 as whole numbers, in 1/16 pixel; where r \
                    is above 0, the focal point lies inside the circle, not on it and not outside";
    assert_eq!(focus, expected);
    let mask = "the flag word is 0x0008; flag bit 3 asks for a mask, and none is lent";
    assert_eq!(refused_words(|scene| scene.draws[0].masked = true), mask);
}

/// Files of any bytes, and faults that they do not have.
#[test]
fn any_bytes_and_any_fault() {
    let mut random = Random::new(7);
    let codes = [answer::BAD_LENGTH, answer::BAD_CHECKSUM, answer::ILLEGAL_ARGUMENT, answer::UNSUPPORTED_PATH_FORMAT];
    let mut told = 0;
    for length in [0, 1, 3, 7, 512, 600, 1_024, 2_560, 4_608] {
        let mut file = vec![0; length];
        random.fill_bytes(&mut file);
        if let Some(edition) = file.get_mut(6..8) {
            edition.copy_from_slice(&[1, 0]);
        }
        for offset in 0..length + 2 * BLOCK {
            for code in codes {
                for draw in [0, 1, 63, 64, 65, u32::MAX] {
                    told += usize::from(broken(&file, false, &Fault { code, draw, offset }).is_some());
                }
            }
        }
    }
    assert!(told >= 10_000, "{told} told");
}
