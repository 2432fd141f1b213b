//! The planner on generated scenes: its proposals are accepted by the library and by the reference, keep to what is asked
//! of them, and redraw what a full drawing draws. WAYRAMESH_ROUNDS multiplies the number of generated ones.

use std::process::Command;

use differential::{compare, compiled_example, rounds, Buffers, Call};
use generate::{scenes, Random};
use library::{Context, Mask};
use reference::picture::SCRATCH_NUMBERS;
use scene::{Draw, Path, Scene};

/// How many plans had no rectangle, one, two, three, four.
type Counts = [u64; 5];

/// The plan from one accepted scene to another, checked; places past it are as they were.
fn plan(name: &str, old: &[u8], new: &[u8], mask: Mask) -> Vec<i32> {
    let mut places = [-7; 20];
    let answer = library::plan(old, new, mask, &mut places);
    assert_eq!((answer.code, answer.draw, answer.scene), (0, 64, 0), "{name}");
    let numbers = 4 * answer.count as usize;
    assert!(places[numbers..].iter().all(|&place| place == -7), "{name}: a later place was written");
    let proposal = places[..numbers].to_vec();
    assert_eq!(reference::plan::fault(old, new, mask.lent != 0, &proposal), None, "{name}: {proposal:?}");
    proposal
}

/// The plan, and the redraw by it: the picture of the new scene, and the answer of a redraw.
fn planned(counts: &mut Counts, name: &str, random: &mut Random, old: &Scene, new: &Scene) {
    let rubbish = if random.once_in(3) {
        Buffers::rubbish(random, new.surface_bytes(), SCRATCH_NUMBERS)
    } else {
        Buffers::masked(random, new.width, new.height)
    };
    let (old, new) = (old.bytes(), new.bytes());
    let (first, drawn) = compare(name, Call::Draw(&old), &rubbish);
    let (area, redrawn) = compare(name, Call::Redraw(&old, &new), &drawn);
    let mask = Mask { lent: rubbish.mask_lent, bytes: &rubbish.mask };
    if first.code != 0 || area.code != 0 {
        let mut places = [3; 16];
        let answer = library::plan(&old, &new, mask, &mut places);
        assert!(answer.count == 0 && (first.code != 0 || answer.code == area.code), "{name}");
        assert!(places == [3; 16], "{name}: a refused plan wrote");
        return;
    }
    let proposal = plan(name, &old, &new, mask);
    counts[proposal.len() / 4] += 1;
    let (mut surface, mut scratch) = (drawn.surface.clone(), drawn.scratch.clone());
    random.fill_numbers(&mut scratch);
    let answer = library::redraw_planned(&mut Context::default(), &old, &new, mask, &mut surface, &mut scratch);
    assert_eq!(answer, area, "{name}: another answer than a redraw");
    assert!(surface == redrawn.surface, "{name}: another picture than a redraw");
    assert!(scratch.iter().all(|&number| number == 0), "{name}: the scratch is not zero");
    if !proposal.is_empty() {
        let (mut surface, mut scratch) = (drawn.surface.clone(), drawn.scratch);
        let answer =
            library::redraw_regions(&mut Context::default(), &old, &new, mask, &proposal, &mut surface, &mut scratch);
        assert_eq!(answer, area, "{name}: another answer by the proposal");
        assert!(surface == redrawn.surface, "{name}: another picture by the proposal");
    }
}

#[test]
fn small_scenes() {
    let count = 6_000 * rounds();
    let mut counts = Counts::default();
    for seed in 150_000_000..150_000_000 + count {
        let mut random = Random::new(seed);
        let old = scenes::scene(&mut random, 24, 6);
        let new = scenes::next_scene(&mut random, &old);
        planned(&mut counts, &format!("seed {seed}"), &mut random, &old, &new);
    }
    assert!(counts[..3].iter().all(|&plans| plans > count / 200), "{counts:?}");
}

/// Small bars here and there, of which some change their colour or go elsewhere.
#[test]
fn scattered_bars() {
    let count = 2_000 * rounds();
    let mut counts = Counts::default();
    for seed in 170_000_000..170_000_000 + count {
        let mut random = Random::new(seed);
        let mut old = Scene::new(48, 40, [0, 0, 0, 255]);
        for _ in 0..random.range(1, 8) {
            old.draws.push(scattered(&mut random));
        }
        let mut new = old.clone();
        for draw in &mut new.draws {
            match random.range(0, 3) {
                0 => draw.color[1] = 1.0,
                1 => *draw = scattered(&mut random),
                _ => {}
            }
        }
        planned(&mut counts, &format!("seed {seed}"), &mut random, &old, &new);
    }
    assert!(counts.iter().all(|&plans| plans > count / 50), "{counts:?}");
}

/// A small bar anywhere, in part outside the surface at times.
fn scattered(random: &mut Random) -> Draw {
    let (x, y) = (random.range(-3, 46) as i16, random.range(-3, 38) as i16);
    bar(x, y, x + random.range(0, 6) as i16, y + random.range(1, 6) as i16, 1.0)
}

#[test]
fn wide_and_high_scenes() {
    let mut counts = Counts::default();
    for seed in 160_000_000..160_000_000 + 40 * rounds() {
        let mut random = Random::new(seed);
        let (width, height) = random.pick(&[(1_024, 3), (3, 1_024), (1_023, 7), (5, 1_023)]);
        let old = scenes::sized_scene(&mut random, width, height, 5);
        let new = scenes::next_scene(&mut random, &old);
        planned(&mut counts, &format!("seed {seed}"), &mut random, &old, &new);
    }
    assert!(counts.iter().sum::<u64>() > 0);
}

/// A rectangle of one colour.
fn bar(x0: i16, y0: i16, x1: i16, y1: i16, red: f32) -> Draw {
    Draw { color: [red, 0.0, 0.0, 1.0], path: Path::new().rectangle(x0, y0, x1, y1), ..Draw::default() }
}

/// The pixels of a proposal.
fn pixels(proposal: &[i32]) -> i32 {
    proposal.chunks(4).map(|r| r[2] * r[3]).sum()
}

/// The plan where each of these bars changes its colour.
fn plan_of(bars: &[[i16; 4]]) -> Vec<i32> {
    let scene = |red| {
        let mut scene = Scene::new(200, 100, [0, 0, 0, 255]);
        scene.draws = bars.iter().map(|&[x0, y0, x1, y1]| bar(x0, y0, x1, y1, red)).collect();
        scene.bytes()
    };
    plan("bars", &scene(0.0), &scene(1.0), Mask::NONE)
}

/// A needle at the left, a lamp at the right and a bar below: three small rectangles, and no pixel more than their boxes.
#[test]
fn needle_lamp_and_bar() {
    let proposal = plan_of(&[[10, 40, 14, 90], [180, 60, 190, 70], [20, 5, 160, 9]]);
    assert_eq!(proposal.len(), 12, "{proposal:?}");
    assert_eq!(pixels(&proposal), 5 * 51 + 11 * 11 + 141 * 5, "{proposal:?}");
}

/// Boxes that overlap are cut too: an angle is covered by two rectangles, a cross by three.
#[test]
fn angle_and_cross() {
    let angle = plan_of(&[[0, 0, 9, 99], [0, 0, 199, 9]]);
    assert_eq!((angle.len(), pixels(&angle)), (8, 10 * 100 + 190 * 10), "{angle:?}");
    let cross = plan_of(&[[90, 0, 99, 99], [0, 40, 199, 49]]);
    assert_eq!((cross.len(), pixels(&cross)), (12, 10 * 100 + 190 * 10), "{cross:?}");
}

/// Five far apart: four rectangles, the two that lie nearest together in one.
#[test]
fn five_lamps() {
    let proposal = plan_of(&[[0, 0, 4, 4], [190, 0, 194, 4], [0, 90, 4, 94], [190, 90, 194, 94], [180, 90, 184, 94]]);
    assert_eq!((proposal.len(), pixels(&proposal)), (16, 3 * 25 + 15 * 5), "{proposal:?}");
}

/// Where nothing changed nothing is proposed, and nothing is drawn.
#[test]
fn nothing() {
    let scene = Scene::new(3, 2, [1, 2, 3, 255]).bytes();
    assert_eq!(plan("nothing", &scene, &scene, Mask::NONE), []);
    let (mut surface, mut scratch) = (vec![9; 24], vec![5; SCRATCH_NUMBERS]);
    let answer =
        library::redraw_planned(&mut Context::default(), &scene, &scene, Mask::NONE, &mut surface, &mut scratch);
    assert_eq!((answer.code, answer.x, answer.y, answer.width, answer.height), (0, 0, 0, 0, 0));
    assert!(surface.iter().all(|&byte| byte == 9) && scratch.iter().all(|&number| number == 0));
}

/// A run of 15 numbers is too short, after all other checks.
#[test]
fn places() {
    let scene = Scene::new(3, 2, [1, 2, 3, 255]).bytes();
    let mut places = [4; 16];
    let codes = |places: &mut [i32], old: &[u8]| library::plan(old, &scene, Mask::NONE, places).code;
    assert_eq!(codes(&mut places[..15], &scene), library::OUT_OF_MEMORY);
    assert_eq!(codes(&mut places[..15], &scene[..511]), 0xB002);
    assert_eq!(codes(&mut places, &scene), 0);
    assert_eq!(places, [4; 16]);
}

/// examples/planned.c compiles as it stands: two rectangles, both redraws leave the new picture, and the context keeps the
/// first code of two refusals.
#[test]
fn c_example() {
    let program = compiled_example("planned", env!("CARGO_TARGET_TMPDIR"));
    let output = Command::new(program).output().expect("the example runs");
    assert!(output.status.success());
    let expected = "2 rectangles\n10 4 7 33\n140 12 15 15\nplanned: the new picture\nproposed: the new picture\n\
        code 0000\ncode 1002\ncode 0000\n";
    assert_eq!(String::from_utf8_lossy(&output.stdout), expected);
}
