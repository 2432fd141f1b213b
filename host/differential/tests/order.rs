//! What `order` says of two scenes, held against what the library draws of them: thousands of rearrangements at random.
//! WAYRAMESH_ROUNDS multiplies their number.

use differential::rounds;
use generate::orders::{order, reordered, scattered};
use generate::{masks, scenes, Random};
use library::{Context, Mask, SCRATCH_NUMBERS};
use order::{judge, Turned, Verdict};
use reference::rules;
use scene::Scene;

/// The library's full drawing of an accepted scene, on rubbish.
fn drawn(random: &mut Random, scene: &Scene, mask: Mask) -> Vec<u8> {
    let mut surface = vec![0; scene.surface_bytes()];
    random.fill_bytes(&mut surface);
    let mut scratch = vec![-1; SCRATCH_NUMBERS];
    assert_eq!(library::draw(&mut Context::default(), &scene.bytes(), mask, &mut surface, &mut scratch).code, 0);
    surface
}

/// Whether both scenes are drawn to the same bytes: under a mask, and without one if none of the draws asks for it.
fn same_drawing(random: &mut Random, first: &Scene, second: &Scene) -> bool {
    let bytes = masks::mask(random, first.width, first.height);
    let lent = Mask::of(&bytes);
    let masked = drawn(random, first, lent) == drawn(random, second, lent);
    let asking = first.draws.iter().any(|draw| draw.masked);
    masked && (asking || drawn(random, first, Mask::NONE) == drawn(random, second, Mask::NONE))
}

/// Each draw's box as x, y, width, height, by the library alone: the area between a scene of this draw and one of none.
fn boxes(scene: &Scene) -> Vec<[u32; 4]> {
    let bytes = vec![0; scene.mask_bytes()];
    let with = |draws| Scene { draws, ..scene.clone() }.bytes();
    let area = |draw: &scene::Draw| {
        let (mut surface, mut scratch) = (vec![0; scene.surface_bytes()], vec![0; SCRATCH_NUMBERS]);
        let (old, new) = (with(vec![draw.clone()]), with(Vec::new()));
        let answer = library::redraw(&mut Context::default(), &old, &new, Mask::of(&bytes), &mut surface, &mut scratch);
        assert_eq!(answer.code, 0);
        [answer.x, answer.y, answer.width, answer.height]
    };
    scene.draws.iter().map(area).collect()
}

fn holds([x, y, width, height]: [u32; 4], [px, py]: [u32; 2]) -> bool {
    (x..x + width).contains(&px) && (y..y + height).contains(&py)
}

/// Whether two boxes share a pixel, pixel by pixel.
fn meet(a: [u32; 4], b: [u32; 4]) -> bool {
    let pixels = (a[1]..a[1] + a[3]).flat_map(|y| (a[0]..a[0] + a[2]).map(move |x| [x, y]));
    pixels.into_iter().any(|pixel| holds(b, pixel))
}

fn verdict(first: &Scene, second: &Scene) -> Verdict {
    let read = |scene: &Scene| rules::scene(&scene.bytes(), true).expect("an accepted scene");
    judge(&read(first), &read(second))
}

/// Places as they must be of a rearrangement: each once, and each with the draw's bytes.
fn check_places(name: &str, first: &Scene, second: &Scene, places: &[usize]) {
    let mut sorted = places.to_vec();
    sorted.sort_unstable();
    assert!(sorted.into_iter().eq(0..first.draws.len()), "{name}: {places:?}");
    for (draw, &place) in first.draws.iter().zip(places) {
        assert!(draw.bytes(first.edition) == second.draws[place].bytes(second.edition), "{name}: {places:?}");
    }
}

/// The places to which an order moves the draws, equal draws taken in order.
fn places_of(scene: &Scene, order: &[usize]) -> Vec<usize> {
    let bytes: Vec<_> = scene.draws.iter().map(|draw| draw.bytes(scene.edition)).collect();
    let equal = |i: usize| (0..i).filter(|&j| bytes[j] == bytes[i]).count();
    let place = |i: usize| (0..order.len()).filter(|&place| bytes[order[place]] == bytes[i]).nth(equal(i));
    (0..order.len()).map(|i| place(i).expect("as many equal draws in both")).collect()
}

/// Every pair that is accepted draws the same bytes, and a pair is rejected exactly if two draws whose boxes share a
/// pixel changed their order.
#[test]
fn rearrangements() {
    let count = 12_000 * rounds();
    let (mut moved, mut turned, mut visible, mut skipped) = (0, 0, 0, 0);
    for seed in 0..count {
        let mut random = Random::new(90_000_000 + seed);
        let first = scattered(&mut random, 28, 9);
        if rules::scene(&first.bytes(), true).is_err() {
            skipped += 1;
            continue;
        }
        let order = order(&mut random, first.draws.len());
        let second = reordered(&first, &order);
        let name = format!("seed {seed}, order {order:?}");
        let same = same_drawing(&mut random, &first, &second);
        let places = places_of(&first, &order);
        let boxes = boxes(&first);
        let pairs = || (0..places.len()).flat_map(|i| (i + 1..places.len()).map(move |j| (i, j)));
        let changed = pairs().find(|&(i, j)| places[j] < places[i] && meet(boxes[i], boxes[j]));
        match (verdict(&first, &second), changed) {
            (Verdict::Rearranged { places: told }, None) => {
                assert_eq!(told, places, "{name}");
                check_places(&name, &first, &second, &told);
                assert!(same, "{name}: accepted, but not drawn to the same bytes");
                moved += u64::from(!told.into_iter().eq(0..order.len()));
            }
            (Verdict::OrderChanged(Turned { draws: [a, b], places: [p, q], pixel }), Some(pair)) => {
                assert_eq!((a, b), pair, "{name}");
                assert_eq!([p, q], [places[a], places[b]], "{name}");
                assert!(holds(boxes[a], pixel) && holds(boxes[b], pixel), "{name}: {pixel:?}");
                turned += 1;
                visible += u64::from(!same);
            }
            (told, changed) => panic!("{name}: {told:?}, but {changed:?} changed their order"),
        }
    }
    println!(
        "{moved} moved and the same, {turned} turned, {visible} of them to be seen, {skipped} refused, of {count}"
    );
    assert!(moved > count / 4 && turned > count / 6 && visible > count / 40 && skipped < count / 3);
}

/// Scenes in which more or less than the order changed: whatever is accepted is drawn to the same bytes.
#[test]
fn other_changes() {
    let count = 6_000 * rounds();
    let (mut accepted, mut other) = (0, 0);
    for seed in 0..count {
        let mut random = Random::new(95_000_000 + seed);
        let first = scattered(&mut random, 20, 6);
        let changed = scenes::next_scene(&mut random, &first);
        let second = reordered(&changed, &order(&mut random, changed.draws.len()));
        if [&first, &second].iter().any(|scene| rules::scene(&scene.bytes(), true).is_err()) {
            continue;
        }
        match verdict(&first, &second) {
            Verdict::Rearranged { places } => {
                check_places(&format!("seed {seed}"), &first, &second, &places);
                assert!(same_drawing(&mut random, &first, &second), "seed {seed}");
                accepted += 1;
            }
            Verdict::Other(_) => other += 1,
            Verdict::OrderChanged(_) => {}
        }
    }
    println!("{accepted} accepted, {other} no rearrangement, of {count}");
    assert!(accepted > count / 20 && other > count / 4);
}
