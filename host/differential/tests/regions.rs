//! Redraws by proposed rectangles, good and bad ones, on generated scenes and on the vectors. WAYRAMESH_ROUNDS multiplies
//! the number of generated ones.

use std::fs;
use std::path::Path;

use differential::{compare, rounds, Buffers, Call};
use generate::{proposals, scenes, Random};
use reference::picture::SCRATCH_NUMBERS;

/// What a test has seen.
#[derive(Default)]
struct Seen {
    accepted: u64,
    rejected: u64,
    several: u64,
}

/// Draws the old scene, proposes rectangles and redraws by them to the new one; an accepted call ends in the new scene's
/// full drawing.
fn redraw(seen: &mut Seen, seed: u64, old: &scene::Scene, random: &mut Random) {
    let name = format!("seed {seed}");
    let new = scenes::next_scene(random, old);
    let rubbish = if random.once_in(3) {
        Buffers::rubbish(random, new.surface_bytes(), SCRATCH_NUMBERS)
    } else {
        Buffers::masked(random, new.width, new.height)
    };
    let (width, height) = (new.width, new.height);
    let (old, new) = (old.bytes(), new.bytes());
    let (first, mut drawn) = compare(&name, Call::Draw(&old), &rubbish);
    let (area, _) = compare(&name, Call::Redraw(&old, &new), &drawn);
    if first.code != 0 || area.code != 0 {
        return;
    }
    let area = [area.x as i32, area.y as i32, area.width as i32, area.height as i32];
    let proposal = proposals::proposal(random, width, height, area);
    random.fill_numbers(&mut drawn.scratch);
    let (answer, redrawn) = compare(&name, Call::Regions(&old, &new, &proposal), &drawn);
    if answer.code == 0 {
        let (_, full) = compare(&name, Call::Draw(&new), &rubbish);
        assert!(redrawn.surface == full.surface, "{name}: the redraw is not the full drawing");
        seen.accepted += 1;
        seen.several += u64::from(proposal.len() > 4);
    } else {
        assert_eq!((answer.code, answer.draw, answer.scene), (0x1001, 64, 0), "{name}");
        seen.rejected += 1;
    }
}

#[test]
fn small_scenes() {
    let count = 6_000 * rounds();
    let mut seen = Seen::default();
    for seed in 120_000_000..120_000_000 + count {
        let mut random = Random::new(seed);
        let old = scenes::scene(&mut random, 24, 6);
        redraw(&mut seen, seed, &old, &mut random);
    }
    let Seen { accepted, rejected, several } = seen;
    assert!(accepted > count / 4 && rejected > count / 10 && several > count / 8, "{accepted}, {rejected}, {several}");
}

#[test]
fn wide_and_high_scenes() {
    let count = 40 * rounds();
    let mut seen = Seen::default();
    for seed in 130_000_000..130_000_000 + count {
        let mut random = Random::new(seed);
        let (width, height) = random.pick(&[(1_024, 3), (3, 1_024), (1_023, 7), (5, 1_023)]);
        let old = scenes::sized_scene(&mut random, width, height, 5);
        redraw(&mut seen, seed, &old, &mut random);
    }
    assert!(seen.accepted > 0 && seen.rejected > 0);
}

/// 64 draws of 2,049 edges each, all of them changed.
#[test]
fn largest_scene() {
    let mut random = Random::new(140_000_000);
    let (old, new) = (scenes::largest(&mut random, 40, 40), scenes::largest(&mut random, 40, 40));
    let buffers = Buffers::rubbish(&mut random, old.surface_bytes(), SCRATCH_NUMBERS);
    let (old, new) = (old.bytes(), new.bytes());
    let (_, drawn) = compare("largest", Call::Draw(&old), &buffers);
    let quarters = [0, 0, 20, 20, 20, 0, 20, 20, 0, 20, 20, 20, 20, 20, 20, 20];
    let (answer, _) = compare("largest by quarters", Call::Regions(&old, &new, &quarters), &drawn);
    assert_eq!((answer.code, answer.width, answer.height), (0, 40, 40));
    let (answer, _) = compare("largest by a pixel", Call::Regions(&old, &new, &[7, 9, 1, 1]), &drawn);
    assert_eq!(answer.code, 0x1001);
}

/// Too little lent, scenes that are refused and others than the rules accept, each with a proposal that would be rejected too.
#[test]
fn refused_before_the_proposal() {
    let count = 800 * rounds();
    let mut other = 0;
    for seed in 150_000_000..150_000_000 + count {
        let mut random = Random::new(seed);
        let old = scenes::scene(&mut random, 12, 3);
        let new =
            if random.once_in(4) { scenes::scene(&mut random, 12, 3) } else { scenes::next_scene(&mut random, &old) };
        let buffers = Buffers::for_scene(&mut random, new.width, new.height);
        let (old, new) = (old.bytes(), new.bytes());
        let (answer, _) = compare(&format!("seed {seed}"), Call::Regions(&old, &new, &[-1]), &buffers);
        assert_ne!(answer.code, 0);
        other += u64::from(answer.code != 0x1001);
    }
    assert!(other > count / 20, "{other} of {count} refused by another rule");
}

/// tests/vectors/regions: in NAME.out a line `? X,Y,W,H ..` for each proposal, then what the call answers.
#[test]
fn vectors() {
    let folder = Path::new(env!("CARGO_MANIFEST_DIR")).join("../../tests/vectors/regions");
    let mut random = Random::new(160_000_000);
    let mut cases = 0;
    for entry in fs::read_dir(folder).expect("the folder of vectors") {
        let path = entry.expect("an entry").path();
        if path.extension().map_or(true, |extension| extension != "out") {
            continue;
        }
        let read = |extension: &str| fs::read(path.with_extension(extension)).expect("a scene");
        let (old, new) = (read("old"), read("new"));
        let size = reference::rules::scene(&old, false).map_or(4, |scene| scene.surface_bytes());
        let text = fs::read_to_string(&path).expect("the answers");
        let lines: Vec<&str> = text.lines().collect();
        for pair in lines.chunks(2) {
            let name = format!("{} {}", path.display(), pair[0]);
            let numbers = pair[0].strip_prefix("? ").expect("a proposal").split(|c| c == ',' || c == ' ');
            let proposal: Vec<i32> =
                numbers.filter(|word| !word.is_empty()).map(|word| word.parse().expect("a number")).collect();
            let buffers = Buffers::rubbish(&mut random, size, SCRATCH_NUMBERS);
            let (_, drawn) = compare(&name, Call::Draw(&old), &buffers);
            let (answer, _) = compare(&name, Call::Regions(&old, &new, &proposal), &drawn);
            let said = match answer.code {
                0 => format!("accepted {} {} {} {}", answer.x, answer.y, answer.width, answer.height),
                code => format!("refused {code:04x} {} {}", answer.draw, answer.scene),
            };
            assert_eq!(said, pair[1], "{name}");
            cases += 1;
        }
    }
    assert_eq!(cases, 216);
}
