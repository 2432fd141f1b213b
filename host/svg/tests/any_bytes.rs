//! Any bytes end with an answer, and a scene that is given is one that the rules accept.

use std::fs;
use std::path::Path;

use generate::Random;
use wayramesh_svg::{convert, Options};

/// Whether a document has a scene, which is then accepted.
fn has_scene(document: &[u8]) -> bool {
    match convert(document, &Options::default()) {
        Ok(converted) => {
            assert!(reference::rules::scene(&converted.scene.bytes(), false).is_ok());
            true
        }
        Err(problem) => {
            assert!(problem.at.line >= 1 && problem.at.column >= 1);
            false
        }
    }
}

#[test]
fn any_bytes() {
    for seed in 0..2_000 {
        let mut random = Random::new(seed);
        let mut document = vec![0; random.index(200)];
        random.fill_bytes(&mut document);
        document
            .iter_mut()
            .for_each(|byte| *byte = random.pick(&[*byte & 0x7F, b'<', b'>', b'/', b'"', b'=', b'&', b' ']));
        assert!(!has_scene(&document));
    }
}

/// The dial with some bytes exchanged, taken out, repeated or replaced.
#[test]
fn spoiled_documents() {
    let path = Path::new(env!("CARGO_MANIFEST_DIR")).join("../../scenes/dial.svg");
    let dial = fs::read(path).expect("the dial");
    let words = [
        "1e308", "-1e308", "nan", "url(#", "%", "NaN", "0", "M", "z", "scale(0)", "<g>", "</g>", "'", "\"", "99999999",
        "é", "#",
    ];
    let mut scenes = 0;
    for seed in 0..1_500 {
        let mut random = Random::new(seed);
        let mut document = dial.clone();
        for _ in 0..random.range(1, 6) {
            let at = random.index(document.len());
            let end = (at + random.index(12)).min(document.len());
            let word = random.pick(&words).as_bytes().to_vec();
            let (any, repeated) = (random.byte() & 0x7F, document[at..end].to_vec());
            match random.range(0, 3) {
                0 => document[at] = random.pick(&[b'0', b'9', b'-', b'.', b'e', any]),
                1 => drop(document.drain(at..end)),
                2 => drop(document.splice(at..at, repeated)),
                _ => drop(document.splice(at..end, word)),
            }
        }
        scenes += usize::from(has_scene(&document));
    }
    assert!(scenes >= 300, "{scenes}");
}

/// A document with places for numbers.
const TEMPLATE: &str = "\
<svg width='60' height='40' viewBox='? ? 60 40'>
  <linearGradient id='a' x1='?' y1='?' x2='?' gradientTransform='matrix(? ? ? ? ? ?)'>
    <stop/><stop offset='?' stop-color='red'/>
  </linearGradient>
  <radialGradient id='b' cx='?' cy='?' r='?' fx='?' gradientUnits='userSpaceOnUse' gradientTransform='scale(?)'>
    <stop/><stop offset='1' stop-color='red'/>
  </radialGradient>
  <clipPath id='c'><rect x='?' width='?' height='?'/></clipPath>
  <g transform='matrix(? ? ? ? ? ?)'>
    <rect x='?' y='?' width='?' height='?' rx='?' fill='url(#a)' clip-path='url(#c)'/>
  </g>
  <ellipse cx='?' cy='?' rx='?' ry='?' fill='url(#b)' opacity='?'/>
  <path d='M? ? c? ? ? ? ? ? t? ? z'/>
</svg>";

/// Shapes, transforms and gradients of any numbers, huge ones and none among them.
#[test]
fn any_numbers() {
    let numbers = ["0", "1", "-1", "7.5", "33", "1e-300", "1e9", "-1e30", "1e300", "32767", "-32768", "4e-7", "50%"];
    let mut scenes = 0;
    for seed in 0..2_000 {
        let mut random = Random::new(seed);
        let mut parts = TEMPLATE.split('?');
        let mut document = parts.next().unwrap_or("").to_string();
        for part in parts {
            document.push_str(random.pick(&numbers[..if seed % 2 == 0 { 12 } else { 13 }]));
            document.push_str(part);
        }
        scenes += usize::from(has_scene(document.as_bytes()));
    }
    assert!(scenes >= 500, "{scenes}");
}
