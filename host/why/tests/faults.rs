//! Every fault of the rules has words: the field, its value and a rule that the file does break.

use std::fs;
use std::path::{Path, PathBuf};

use generate::{damage, rules, scenes, Random};
use library::explain;
use library::Mask;
use reference::words::Broken;
use why::{fault, Question};

fn vectors() -> PathBuf {
    Path::new(env!("CARGO_MANIFEST_DIR")).join("../../tests/vectors")
}

fn question<'a>(scene: &'a [u8], mask: Option<&'a [u8]>) -> Question<'a> {
    Question { scene, mask, x: 0, y: 0 }
}

/// The broken rule of a refused scene, which has words; none where it is accepted.
fn broken(name: &str, scene: &[u8], mask: Option<&[u8]>) -> Option<Broken> {
    let refusal = explain::explain(scene, mask.map_or(Mask::NONE, Mask::of), 0, 0);
    if refusal.code == 0 {
        return None;
    }
    let asked = question(scene, mask);
    let found = fault::rule(&asked, &refusal);
    let told = fault::told(&asked, name, &refusal);
    match found {
        Some(found) => {
            for part in [&found.field, &found.value, &found.rule] {
                assert!(!part.is_empty() && told.contains(part.as_str()), "{name}: {told}");
            }
            Some(found)
        }
        None => panic!("{name}: no words for {refusal:?}"),
    }
}

/// The edge cases of tests/vectors, none of which is given a mask.
#[test]
fn every_edge_case_has_words() {
    let edges = fs::read_to_string(vectors().join("edges.txt")).expect("the edge cases");
    let mut refused = 0;
    for line in edges.lines() {
        let words: Vec<&str> = line.split_whitespace().collect();
        let scene = fs::read(vectors().join(format!("draw/edge-{}.scene", words[0]))).expect("a scene");
        let found = broken(line, &scene, None);
        assert_eq!(found.is_some(), words[1] != "0000", "{line}");
        refused += usize::from(found.is_some());
    }
    assert_eq!(refused, 163);
}

/// Both sides of every rule, in both editions, with a mask and without one.
#[test]
fn every_rule_has_words() {
    for (mask_lent, edition) in [(false, 0), (false, 1), (true, 0), (true, 1)] {
        for case in rules::cases(mask_lent, edition) {
            let mask = mask_lent.then(|| mask_for(&case.bytes));
            let found = broken(&case.name, &case.bytes, mask.as_deref());
            assert_eq!(found.is_some(), case.fault.is_some(), "{}", case.name);
        }
    }
}

/// A mask of the scene's size, if it has one.
fn mask_for(scene: &[u8]) -> Vec<u8> {
    let side = |at: usize| scene.get(at..at + 2).map_or(0, |word| usize::from(word[0]) + 256 * usize::from(word[1]));
    vec![255; (side(0) * side(2)).min(1 << 20)]
}

/// Random scenes, spoiled in a few places.
#[test]
fn spoiled_scenes_have_words() {
    let mut random = Random::new(99);
    let mut refused = 0;
    for round in 0..3_000 {
        let scene = scenes::scene(&mut random, 6, 4);
        let bytes = damage::damaged(&mut random, &scene);
        let mask = (round % 2 == 0).then(|| mask_for(&bytes));
        refused += usize::from(broken(&format!("round {round}"), &bytes, mask.as_deref()).is_some());
    }
    assert!(refused >= 1_000, "{refused} refused");
}

/// A mask of another length, and pixels outside the picture, any numbers.
#[test]
fn wrong_masks_and_pixels() {
    let scene = fs::read(vectors().join("draw/edge-0.scene")).expect("a scene");
    let (text, refused) = Question { mask: Some(&[1, 2, 3]), ..question(&scene, None) }.answer("base", false);
    assert!(refused && text.contains("code 1004") && text.contains("3 bytes"), "{text}");
    for (x, y) in [(-1, 0), (0, -1), (1_024, 0), (0, 1_024), (i64::MAX, 0), (0, i64::MIN), (1 << 32, 0)] {
        let (text, refused) = Question { x, y, ..question(&scene, None) }.answer("base", false);
        assert!(refused && text.contains("code 1001") && text.contains(&format!("({x}, {y})")), "{text}");
    }
}
