//! Both sides of every scene rule, drawn, and as either scene of a redraw, in both editions, with a mask lent and with none.

use differential::{compare, Buffers, Call};
use generate::{rules, Random};
use reference::picture::SCRATCH_NUMBERS;

/// Whether a mask is lent, and the edition.
const WAYS: [(bool, u16); 4] = [(false, 0), (true, 0), (false, 1), (true, 1)];

/// Buffers as a scene asks for them, if its block 0 is long enough to say, with a mask or none.
fn buffers_for(random: &mut Random, scene: &[u8], mask_lent: bool) -> Buffers {
    let (width, height) = match scene {
        [w0, w1, h0, h1, ..] => {
            let side = |low: u8, high: u8| u16::from_le_bytes([low, high]).min(1_025);
            (side(*w0, *w1), side(*h0, *h1))
        }
        _ => (1, 1),
    };
    if mask_lent && width > 0 {
        Buffers::masked(random, width, height)
    } else {
        let lent = Buffers::rubbish(random, 4 * usize::from(width) * usize::from(height), SCRATCH_NUMBERS);
        Buffers { mask_lent: mask_lent.into(), ..lent }
    }
}

#[test]
fn draws() {
    let mut random = Random::new(1);
    for (mask_lent, edition) in WAYS {
        for case in rules::cases(mask_lent, edition) {
            let buffers = buffers_for(&mut random, &case.bytes, mask_lent);
            let (answer, _) = compare(&case.name, Call::Draw(&case.bytes), &buffers);
            let expected = case.fault.map_or((0, 64), |fault| (fault.code, fault.draw));
            assert_eq!((answer.code, answer.draw), expected, "{}", case.name);
        }
    }
}

/// Each case against the next one of the list.
#[test]
fn redraws() {
    let mut random = Random::new(2);
    for (mask_lent, edition) in WAYS {
        for two in rules::cases(mask_lent, edition).windows(2) {
            let name = format!("from {} to {}", two[0].name, two[1].name);
            let buffers = buffers_for(&mut random, &two[0].bytes, mask_lent);
            let (answer, _) = compare(&name, Call::Redraw(&two[0].bytes, &two[1].bytes), &buffers);
            if let Some(fault) = two[0].fault {
                assert_eq!((answer.code, answer.draw, answer.scene), (fault.code, fault.draw, 0), "{name}");
            } else if let Some(fault) = two[1].fault {
                assert_eq!((answer.code, answer.draw, answer.scene), (fault.code, fault.draw, 1), "{name}");
            }
        }
    }
}

/// A surface, mask or scratch of another length, in a draw and in a redraw: the surface, then a mask that is lent, then the
/// scratch, all after the scenes.
#[test]
fn buffers() {
    let mut random = Random::new(3);
    let scene = |width, height, masked| {
        let mut scene = scene::Scene::new(width, height, [1, 2, 3, 4]);
        scene.draws = vec![scene::Draw { masked, ..scene::Draw::default() }];
        scene.bytes()
    };
    let (good, bad, other, asking) = (scene(7, 5, false), scene(7, 0, false), scene(5, 7, false), scene(7, 5, true));
    let lengths = [0, 1, 34, 35, 36, 70, 140];
    let masks = [0, 1, 0x100, u32::MAX].into_iter().flat_map(|lent| lengths.map(|length| (lent, length)));
    let surfaces = [0, 1, 35, 138, 139, 140, 141, 142, 280];
    for (surface, (mask_lent, mask)) in surfaces.into_iter().flat_map(|s| masks.clone().map(move |mask| (s, mask))) {
        for scratch in [0, 1, 12_298, 12_299, 12_300, 12_301, 30_000] {
            let rubbish = Buffers::rubbish(&mut random, surface, scratch);
            let buffers = Buffers { mask_lent, mask: vec![77; mask], ..rubbish };
            let name = format!("surface {surface}, mask {mask_lent} {mask}, scratch {scratch}");
            let expected = match (surface, mask_lent, mask, scratch) {
                (140, 0, _, 12_300..) | (140, _, 35, 12_300..) => 0,
                (140, 0, _, _) | (140, _, 35, _) => 0x1002,
                _ => 0x1004,
            };
            let asked = if mask_lent == 0 { 0x1001 } else { expected };
            let calls = [
                (Call::Draw(&good), expected, 64, 0),
                (Call::Redraw(&good, &good), expected, 64, 0),
                (Call::Draw(&asking), asked, if mask_lent == 0 { 0 } else { 64 }, 0),
                (Call::Redraw(&asking, &good), asked, if mask_lent == 0 { 0 } else { 64 }, 0),
                (Call::Redraw(&good, &asking), asked, if mask_lent == 0 { 0 } else { 64 }, u32::from(mask_lent == 0)),
                (Call::Draw(&bad), 0x1001, 64, 0),
                (Call::Redraw(&bad, &good), 0x1001, 64, 0),
                (Call::Redraw(&good, &bad), 0x1001, 64, 1),
                (Call::Redraw(&good, &other), 0x1001, 64, 1),
            ];
            for (call, code, draw, scene) in calls {
                let (answer, _) = compare(&name, call, &buffers);
                assert_eq!((answer.code, answer.draw, answer.scene), (code, draw, scene), "{name}");
            }
        }
    }
}
