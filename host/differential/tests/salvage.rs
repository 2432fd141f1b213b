//! Spoiled scenes written again, by the library and by the reference. WAYRAMESH_ROUNDS multiplies the number of generated
//! scenes.

use std::collections::BTreeSet;
use std::fs;
use std::path::Path;
use std::process::{Command, Stdio};

use differential::{compiled_example, rounds, Guarded};
use generate::{damage, rules, scenes, Random};
use library::Salvaged;
use reference::salvage::Replaced;
use scene::{seal_block, Draw, Scene, BLOCK};

/// The numbers of a list with a place for every draw.
const ALL: usize = 128;
/// Lengths of lists on both sides of what the list of a few draws takes.
const LISTS: [usize; 8] = [0, 1, 2, 3, 4, 5, ALL, ALL + 3];

/// Compares a call of both on places of these lengths, full of rubbish and between guards.
///
/// What the paper promises is looked at too: a refused call writes nothing; the written scene passes the scene rules with
/// a mask lent, and salvaging it again replaces nothing and gives the same bytes.
fn check(name: &str, scene: &[u8], place: usize, list: usize) -> Salvaged {
    let shift = (scene.len() / BLOCK + place + list) % 16;
    let given = Guarded::new(scene, 0xA5, shift);
    let rubbish: Vec<u8> = (0..place).map(|i| (i * 7 + 3) as u8).collect();
    let numbers: Vec<u32> = (0..list).map(|i| 0xDEAD_0000 + i as u32).collect();
    let mut written = Guarded::new(&rubbish, 0x5A, (shift + 7) % 16);
    let mut listed = Guarded::new(&numbers, 0x5A5A_5A5A, shift % 4);
    let answer = library::salvage(given.content(), written.content_mut(), listed.content_mut());

    let mut expected = rubbish.clone();
    let mut expected_list = numbers.clone();
    let expected_answer = match reference::salvage::salvage(scene, &mut expected) {
        Err(code) => Salvaged { code, replaced: 0 },
        Ok(replaced) => {
            for (two, &Replaced { draw, code }) in expected_list.chunks_exact_mut(2).zip(&replaced) {
                two.copy_from_slice(&[draw, code]);
            }
            Salvaged { code: 0, replaced: replaced.len() as u32 }
        }
    };
    assert_eq!(answer, expected_answer, "{name}: the answer, place {place}, list {list}");
    assert!(written.content() == expected, "{name}: the place of {place} bytes");
    assert!(listed.content() == expected_list, "{name}: the list of {list} numbers");
    assert!(written.guards_hold() && listed.guards_hold(), "{name}: a guard was written");
    assert!(given.content() == scene && given.guards_hold(), "{name}: the scene was written");

    if answer.code != 0 {
        assert!(written.content() == rubbish && listed.content() == numbers, "{name}: a refused call has written");
        return answer;
    }
    let (salvaged, rest) = written.content().split_at(scene.len());
    assert!(rest == &rubbish[scene.len()..], "{name}: places past the end");
    assert!(salvaged[..BLOCK] == scene[..BLOCK], "{name}: block 0");
    assert!(reference::rules::scene(salvaged, true).is_ok(), "{name}: the salvaged scene is refused");
    let mut again = vec![0; salvaged.len()];
    let second = library::salvage(salvaged, &mut again, &mut []);
    assert_eq!(second, Salvaged { code: 0, replaced: 0 }, "{name}: again");
    assert!(again == salvaged, "{name}: again, other bytes");
    assert!(answer.replaced > 0 || salvaged == scene, "{name}: nothing was wrong");
    answer
}

/// Scenes of an edition: two generated ones, and one whose draws ask for the mask.
fn sound(edition: u16) -> Vec<Vec<u8>> {
    let mut random = Random::new(60 + u64::from(edition));
    let generated = std::iter::repeat_with(|| {
        let mut scene = scenes::sized_scene(&mut random, 9, 7, 3);
        scene.edition = edition;
        scene.draws.iter_mut().for_each(|draw| draw.transformed &= edition == 1);
        scene.bytes()
    });
    let mut asking = Scene::new(3, 2, [1, 2, 3, 4]);
    asking.edition = edition;
    asking.draws = vec![Draw { masked: true, ..Draw::default() }; 2];
    generated.filter(|bytes| reference::rules::scene(bytes, true).is_ok()).take(2).chain([asking.bytes()]).collect()
}

/// Every byte of every block, checks too, changed in three ways, under the old check and, in a payload, under a fresh one.
#[test]
fn every_byte_of_every_block() {
    let mut codes = BTreeSet::new();
    for (i, scene) in [0, 1].into_iter().flat_map(sound).enumerate() {
        assert_eq!(check("sound", &scene, scene.len(), ALL), Salvaged { code: 0, replaced: 0 });
        for at in 0..scene.len() {
            for change in [0x01, 0x80, 0xFF] {
                let mut spoiled = scene.clone();
                spoiled[at] ^= change;
                let name = format!("scene {i}, byte {at} by {change:02x}");
                let answer = check(&name, &spoiled, spoiled.len(), LISTS[at % LISTS.len()]);
                let stale = if at < BLOCK { (0xB001, 0) } else { (0, 1) };
                assert_eq!((answer.code, answer.replaced), stale, "{name}");
                codes.insert((answer.code, answer.replaced));
                if at % BLOCK < 508 {
                    seal_block(&mut spoiled, at / BLOCK);
                    let answer = check(&format!("{name}, sealed"), &spoiled, spoiled.len(), ALL);
                    // Another edition spoils more than one draw.
                    assert!(answer.replaced <= 1 || at == 6, "{name}");
                    codes.insert((answer.code, answer.replaced.min(1)));
                }
            }
        }
    }
    let met: Vec<(u32, u32)> = codes.into_iter().collect();
    assert_eq!(met, [(0, 0), (0, 1), (0x1001, 0), (0xB001, 0), (0xB002, 0)]);
}

/// Damage of a whole block, in every block, and in every two blocks at once.
#[test]
fn every_kind_in_every_block() {
    let mut most = 0;
    for scene in [0, 1].into_iter().flat_map(sound) {
        let blocks = scene.len() / BLOCK;
        for (a, (first, spoil)) in (0..blocks).flat_map(|a| damage::OF_A_BLOCK.map(|kind| (a, kind))) {
            let mut once = scene.clone();
            spoil(&mut once, a);
            check(&format!("block {a}: {first}"), &once, scene.len(), ALL);
            for b in a + 1..once.len() / BLOCK {
                for (second, spoil) in damage::OF_A_BLOCK {
                    let mut twice = once.clone();
                    spoil(&mut twice, b);
                    let answer = check(&format!("block {a}: {first}, block {b}: {second}"), &twice, scene.len(), b % 6);
                    most = answer.replaced.max(most);
                }
            }
        }
    }
    assert_eq!(most, 2);
}

/// Both sides of every scene rule, with a mask lent and with none, in both editions: a salvage refuses what the rules refuse
/// before the draws, and replaces every other draw that they refuse.
#[test]
fn every_rule() {
    for (mask_lent, edition) in [(false, 0), (true, 0), (false, 1), (true, 1)] {
        for case in rules::cases(mask_lent, edition) {
            let answer = check(&case.name, &case.bytes, case.bytes.len(), ALL);
            match case.fault {
                Some(fault) if fault.draw == 64 => assert_eq!(answer.code, fault.code, "{}", case.name),
                Some(_) if mask_lent => assert!(answer.code == 0 && answer.replaced > 0, "{}", case.name),
                Some(_) => assert_eq!(answer.code, 0, "{}", case.name),
                None => assert_eq!(answer, Salvaged { code: 0, replaced: 0 }, "{}", case.name),
            }
        }
    }
}

/// Places of every length about the scene's, and lists of every length up to more than the longest.
#[test]
fn lengths() {
    let mut scene = Scene::new(1, 1, [9; 4]);
    scene.draws = vec![Draw::default(); 64];
    let mut bytes = scene.bytes();
    for draw in 0..64 {
        bytes[BLOCK * (1 + 4 * draw) + 20 * draw] ^= 0x40;
    }
    for list in 0..=ALL + 8 {
        assert_eq!(check("64 draws", &bytes, bytes.len(), list), Salvaged { code: 0, replaced: 64 });
    }
    for scene in [0, 1].into_iter().flat_map(sound) {
        let mut spoiled = scene.clone();
        spoiled[BLOCK + 2] ^= 1;
        for place in (0..4).chain(scene.len() - 600..scene.len() + 600) {
            let answer = check("a place", &spoiled, place, LISTS[place % LISTS.len()]);
            let expected = if place < scene.len() { (0x1002, 0) } else { (0, 1) };
            assert_eq!((answer.code, answer.replaced), expected, "{place}");
        }
        // The place is judged after block 0 and the length.
        spoiled[BLOCK - 1] ^= 1;
        assert_eq!(check("block 0 and no place", &spoiled, 0, ALL).code, 0xB001);
        assert_eq!(check("the length and no place", &scene[..scene.len() - BLOCK], 0, ALL).code, 0xB002);
        assert_eq!(check("a ragged length and no place", &scene[..scene.len() - 1], 0, ALL).code, 0xB002);
    }
}

/// Generated scenes, spoiled in a few places, and bytes that are no scene at all.
#[test]
fn generated() {
    let mut met = BTreeSet::new();
    for seed in 0..3_000 * rounds() {
        let mut random = Random::new(seed);
        let scene = scenes::scene(&mut random, 12, 8);
        let bytes = damage::damaged(&mut random, &scene);
        let place = match random.range(0, 5) {
            0 => random.index(bytes.len() + 2),
            1 => bytes.len() + random.index(3_000),
            _ => bytes.len(),
        };
        let answer = check(&format!("seed {seed}"), &bytes, place, random.pick(&LISTS));
        met.insert((answer.code, answer.replaced.min(2)));
        let mut any = vec![0; random.index(3_000)];
        random.fill_bytes(&mut any);
        check(&format!("seed {seed}, any bytes"), &any, any.len(), ALL);
    }
    let met: Vec<(u32, u32)> = met.into_iter().collect();
    assert_eq!(met, [(0, 0), (0, 1), (0, 2), (0x1001, 0), (0x1002, 0), (0xB001, 0), (0xB002, 0)]);
}

/// The vectors of tests/vectors, called from Rust and by examples/salvage.c: the list and the file.
#[test]
fn vectors() {
    let folder = Path::new(env!("CARGO_MANIFEST_DIR")).join("../../tests/vectors/salvage");
    let program = compiled_example("salvage", env!("CARGO_TARGET_TMPDIR"));
    let mut seen = 0;
    for entry in fs::read_dir(folder).expect("the folder of vectors") {
        let path = entry.expect("an entry").path();
        if path.extension().map_or(true, |extension| extension != "scene") {
            continue;
        }
        seen += 1;
        let scene = fs::read(&path).expect("a scene");
        let name = path.display().to_string();
        check(&name, &scene, scene.len(), ALL);
        let (mut place, mut list) = (vec![0; scene.len()], vec![0; ALL]);
        let answer = library::salvage(&scene, &mut place, &mut list);
        let mut printed = match answer.code {
            0 => format!("replaced {}\n", answer.replaced),
            code => format!("refused {code:04x}\n"),
        };
        for two in list.chunks(2).take(answer.replaced as usize) {
            printed += &format!("{} {:04x}\n", two[0], two[1]);
        }
        assert!(printed.as_bytes() == fs::read(path.with_extension("out")).expect("an output"), "{name}");
        let salvaged = fs::read(path.with_extension("salvaged")).unwrap_or_default();
        assert_eq!(answer.code == 0, !salvaged.is_empty(), "{name}");
        assert!(answer.code != 0 || place == salvaged, "{name}");

        let input = Stdio::from(fs::File::open(&path).expect("a scene"));
        let example = Command::new(&program).stdin(input).output().expect("the example runs");
        assert!(example.stdout == salvaged && example.stderr == printed.as_bytes(), "{name}: the example");
    }
    assert_eq!(seen, 30);
}
