//! Any bytes end with an answer, as a file or as a text.

use generate::{scenes, Random};
use wayramesh_text::{to_file, to_scene, to_text};

#[test]
fn any_file_has_a_text() {
    for seed in 0..300 {
        let mut random = Random::new(seed);
        let length =
            random.pick(&[0, 1, 5, 7, 11, 12, 511, 512, 513, 1_000, 2_559, 2_560, 2_561, 4_609, 131_584, 140_000]);
        let mut file = vec![0; length];
        random.fill_bytes(&mut file);
        let written = to_text(&file);
        let fault = written.fault.expect("a file of any bytes is refused");
        assert!(written.text.contains(&fault.to_string()));
        // The words of the text are right ones, whatever the bytes were.
        let read = to_file(written.text.as_bytes());
        assert!(read.is_ok(), "seed {seed}: {read:?}");
    }
}

#[test]
fn any_bytes_as_a_text() {
    for seed in 0..2_000 {
        let mut random = Random::new(seed);
        let mut text = vec![0; random.index(300)];
        random.fill_bytes(&mut text);
        if random.once_in(2) {
            text.iter_mut().for_each(|byte| *byte &= 0x7F);
        }
        let errors = to_scene(&text).expect_err("no scene");
        assert!(errors.iter().all(|error| error.line >= 1 && error.column >= 1));
    }
}

/// Texts of scenes with some bytes exchanged, taken out or repeated, or with words of others in them.
#[test]
fn spoiled_texts() {
    let words =
        ["draw", "size", "stop", "#ff", "bits:", "0x", "-", "inf", "M", "1e999", "bytes", "segment", "//", "\n", "é"];
    let (mut sound, mut wrong) = (0, 0);
    for seed in 0..2_000 {
        let mut random = Random::new(seed);
        let scene = scenes::scene(&mut random, 32, 3);
        let mut text = to_text(&scene.bytes()).text.into_bytes();
        for _ in 0..random.range(1, 4) {
            let at = random.index(text.len());
            let end = (at + random.index(20)).min(text.len());
            let word = random.pick(&words).as_bytes().to_vec();
            let (any, repeated) = (random.byte(), text[at..end].to_vec());
            match random.range(0, 3) {
                0 => text[at] = random.pick(&[b'0', b'1', b'7', b'.', b'-', b' ', any]),
                1 => drop(text.drain(at..end)),
                2 => drop(text.splice(at..at, repeated)),
                _ => drop(text.splice(at..end, word)),
            }
            if text.is_empty() {
                break;
            }
        }
        match to_scene(&text) {
            Ok(file) => {
                sound += 1;
                assert!(to_text(&file).fault.is_none());
            }
            Err(errors) => {
                wrong += 1;
                let lines = String::from_utf8_lossy(&text).split('\n').count();
                assert!(!errors.is_empty() && errors.iter().all(|error| (1..=lines).contains(&error.line)));
            }
        }
    }
    assert!(sound >= 50 && wrong >= 500, "{sound} sound, {wrong} wrong");
}
