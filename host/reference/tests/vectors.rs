//! The vectors of tests/vectors: what the programs print, what they would print if they lent a mask, and the offset of each
//! edge case's fault.

use std::fs;
use std::path::{Path, PathBuf};

use reference::{print, rules, salvage};

fn vectors() -> PathBuf {
    Path::new(env!("CARGO_MANIFEST_DIR")).join("../../tests/vectors")
}

/// The files of a folder with this extension, in order.
fn files(folder: &str, extension: &str) -> Vec<PathBuf> {
    let mut files: Vec<PathBuf> = fs::read_dir(vectors().join(folder))
        .expect("the folder of vectors")
        .map(|entry| entry.expect("an entry").path())
        .filter(|path| path.extension().map_or(false, |e| e == extension))
        .collect();
    files.sort();
    files
}

fn read(path: &Path) -> Vec<u8> {
    fs::read(path).unwrap_or_else(|e| panic!("{}: {e}", path.display()))
}

fn check(path: &Path, printed: &str) {
    let expected = fs::read_to_string(path.with_extension("out")).expect("an expected output");
    let differs = printed.lines().zip(expected.lines()).position(|(a, b)| a != b);
    assert!(printed == expected, "{}: printed text differs, first at line {differs:?}", path.display());
}

#[test]
fn draws() {
    let scenes = files("draw", "scene");
    assert_eq!(scenes.len(), 316);
    for scene in scenes {
        check(&scene, &print::drawing(&read(&scene), None));
    }
}

#[test]
fn redraws() {
    let pairs = files("redraw", "old");
    assert_eq!(pairs.len(), 56);
    for old in pairs {
        let new = read(&old.with_extension("new"));
        check(&old, &print::redrawing(&read(&old), &new, None));
    }
}

#[test]
fn draws_with_a_mask() {
    let scenes = files("mask", "scene");
    assert_eq!(scenes.len(), 40);
    for scene in scenes {
        check(&scene, &print::drawing(&read(&scene), Some(&read(&scene.with_extension("mask")))));
    }
}

#[test]
fn redraws_with_a_mask() {
    let pairs = files("mask", "old");
    assert_eq!(pairs.len(), 20);
    for old in pairs {
        let (new, mask) = (read(&old.with_extension("new")), read(&old.with_extension("mask")));
        check(&old, &print::redrawing(&read(&old), &new, Some(&mask)));
    }
}

/// A vector of explain/ asks for pixels, "? X Y", and has behind each what the program prints of it. Its scene is beside it
/// or in draw/, and where it has a mask, that is lent.
#[test]
fn explanations() {
    let mut pixels = 0;
    for path in files("explain", "out") {
        let beside = path.with_extension("scene");
        let name = beside.file_name().expect("a name");
        let scene = if beside.exists() { read(&beside) } else { read(&vectors().join("draw").join(name)) };
        let mask = fs::read(path.with_extension("mask")).ok();
        let text = fs::read_to_string(&path).expect("a vector");
        for asked in text.split("? ").skip(1) {
            let (pixel, expected) = asked.split_once('\n').expect("a line");
            let (x, y) = pixel.split_once(' ').expect("two numbers");
            let (x, y) = (x.parse().expect("x"), y.parse().expect("y"));
            assert_eq!(print::explanation(&scene, mask.as_deref(), x, y), expected, "{} {pixel}", path.display());
            pixels += 1;
        }
    }
    assert_eq!(pixels, 274);
}

/// replay/N-0.scene, N-1.scene, .. in order, and N.out.
#[test]
fn replays() {
    let printed = files("replay", "out");
    assert_eq!(printed.len(), 12);
    for out in printed {
        let number = out.file_stem().expect("a name").to_string_lossy().into_owned();
        let scenes: Vec<Vec<u8>> = (0..)
            .map(|i| out.with_file_name(format!("{number}-{i}.scene")))
            .take_while(|path| path.exists())
            .map(|path| read(&path))
            .collect();
        assert!(!scenes.is_empty());
        check(&out, &print::replaying(&scenes));
    }
}

/// regions/NAME.out has two lines for each proposal: `? X,Y,W,H ..`, and what the call answers.
#[test]
fn redraws_by_rectangles() {
    let mut proposals = 0;
    for path in files("regions", "out") {
        let (old, new) = (read(&path.with_extension("old")), read(&path.with_extension("new")));
        let bytes = rules::scene(&old, false).map_or(0, |scene| scene.surface_bytes());
        let text = fs::read_to_string(&path).expect("the answers");
        let lines: Vec<&str> = text.lines().collect();
        for pair in lines.chunks(2) {
            let numbers = pair[0].strip_prefix("? ").expect("a proposal").split(|c| c == ',' || c == ' ');
            let proposal: Vec<i32> =
                numbers.filter(|word| !word.is_empty()).map(|word| word.parse().expect("a number")).collect();
            let (mut surface, mut scratch) = (vec![0; bytes], vec![1; 12_300]);
            let answer = reference::redraw_regions(&old, &new, None, &proposal, &mut surface, &mut scratch);
            let said = match answer.code {
                0 => format!("accepted {} {} {} {}", answer.x, answer.y, answer.width, answer.height),
                code => format!("refused {code:04x} {} {}", answer.draw, answer.scene),
            };
            assert_eq!(said, pair[1], "{} {}", path.display(), pair[0]);
            proposals += 1;
        }
    }
    assert_eq!(proposals, 216);
}

/// edges.txt has a line for each edge case: number, code, draw, "offset", the offset, and its name.
#[test]
fn faults_of_the_edge_cases() {
    let edges = fs::read_to_string(vectors().join("edges.txt")).expect("the edge cases");
    let mut cases = 0;
    for line in edges.lines() {
        let words: Vec<&str> = line.split_whitespace().collect();
        let (number, code, draw, offset) = match words[..] {
            [number, code, draw, "offset", offset, ..] => (number, code, draw, offset),
            _ => panic!("no edge case: {line}"),
        };
        let code = u32::from_str_radix(code, 16).expect("a code");
        let scene = read(&vectors().join(format!("draw/edge-{number}.scene")));
        let found = rules::scene(&scene, false).map(|_| ());
        let expected = match code {
            0 => Ok(()),
            code => Err(reference::Fault {
                code,
                draw: draw.parse().expect("a draw number"),
                offset: offset.parse().expect("an offset"),
            }),
        };
        assert_eq!(found, expected, "{line}");
        cases += 1;
    }
    assert_eq!(cases, files_with_prefix("edge-"));
}

fn files_with_prefix(prefix: &str) -> usize {
    let named = |path: &&PathBuf| path.file_name().map_or(false, |name| name.to_string_lossy().starts_with(prefix));
    files("draw", "scene").iter().filter(named).count()
}

/// What the program prints, and the file that it writes; none where the scene is refused.
#[test]
fn salvages() {
    let scenes = files("salvage", "scene");
    assert_eq!(scenes.len(), 30);
    for path in scenes {
        let scene = read(&path);
        check(&path, &salvage::printed(&scene));
        let mut place = vec![0; scene.len()];
        let written = salvage::salvage(&scene, &mut place).is_ok();
        assert_eq!(written, path.with_extension("salvaged").exists(), "{}", path.display());
        assert!(!written || place == read(&path.with_extension("salvaged")), "{}", path.display());
    }
}
