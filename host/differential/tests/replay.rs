//! Replays: the library against the reference and against its own single calls, with refused scenes at every place, and the
//! context over sequences of calls. WAYRAMESH_ROUNDS multiplies their number.

use std::fs;
use std::path::{Path, PathBuf};
use std::process::Command;

use differential::{compiled_example, numbers, rounds, Buffers, Guarded};
use generate::{damage, scenes, Random};
use library::{Context, ANSWER_NUMBERS, MOST_SCENES};
use reference::picture::SCRATCH_NUMBERS;
use reference::{print, rules};

/// What a replay is given besides its buffers.
struct Replay {
    scenes: Vec<u8>,
    lengths: Vec<u32>,
    /// Places for answers.
    places: usize,
}

impl Replay {
    fn of(scenes: &[Vec<u8>]) -> Replay {
        let lengths: Vec<u32> = scenes.iter().map(|scene| scene.len() as u32).collect();
        Replay { scenes: scenes.concat(), places: ANSWER_NUMBERS * lengths.len(), lengths }
    }
}

/// What a replay leaves.
struct Left {
    code: u32,
    context: u32,
    answers: Vec<u32>,
    surface: Vec<u8>,
    scratch: Vec<i32>,
}

/// The number that a place for answers holds before.
const UNWRITTEN: u32 = 0xDEAD_BEEF;

/// Compares a replay of both on the same buffers, with guards round each.
fn compare(name: &str, replay: &Replay, buffers: &Buffers) -> Left {
    let mut expected = buffers.clone();
    let mut expected_answers = vec![UNWRITTEN; replay.places];
    let mut expected_context = reference::Context::default();
    let expected_code = reference::replay(
        &mut expected_context,
        &replay.scenes,
        &replay.lengths,
        buffers.lent_mask(),
        &mut expected.surface,
        &mut expected.scratch,
        &mut expected_answers,
    );

    let shift = (replay.scenes.len() / 512 + replay.lengths.len()) % 16;
    let scenes = Guarded::new(&replay.scenes, 0xA5, shift);
    let lengths = Guarded::new(&replay.lengths, 0xA5A5_A5A5, shift % 3);
    let mask = Guarded::new(&buffers.mask, 0xC3, (shift + 11) % 16);
    let mut surface = Guarded::new(&buffers.surface, 0x5A, (shift + 7) % 16);
    let mut scratch = Guarded::new(&buffers.scratch, 0x5A5A_5A5A, shift % 4);
    let mut answers = Guarded::new(&vec![UNWRITTEN; replay.places], 0x3C3C_3C3C, shift % 5);
    let mut context = Context::default();
    let code = library::replay(
        &mut context,
        scenes.content(),
        lengths.content(),
        library::Mask { lent: buffers.mask_lent, bytes: mask.content() },
        surface.content_mut(),
        scratch.content_mut(),
        answers.content_mut(),
    );
    assert_eq!(code, expected_code, "{name}: the code");
    assert_eq!(context.code, expected_context.code, "{name}: the context");
    assert_eq!(answers.content(), expected_answers, "{name}: the answers");
    assert!(surface.content() == expected.surface, "{name}: the surface");
    assert!(scratch.content() == expected.scratch, "{name}: the scratch");
    assert!(scenes.content() == replay.scenes && scenes.guards_hold(), "{name}: the scenes were written");
    assert!(lengths.content() == replay.lengths && lengths.guards_hold(), "{name}: the lengths were written");
    assert!(mask.content() == buffers.mask && mask.guards_hold(), "{name}: the mask was written");
    assert!(surface.guards_hold() && scratch.guards_hold() && answers.guards_hold(), "{name}: a guard was written");
    Left {
        code,
        context: context.code,
        answers: answers.content().to_vec(),
        surface: surface.content().to_vec(),
        scratch: scratch.content().to_vec(),
    }
}

/// The same scenes by the library's single calls, and which was accepted last.
fn one_by_one(scenes: &[Vec<u8>], buffers: &Buffers) -> (Left, Option<usize>) {
    let (mut surface, mut scratch) = (buffers.surface.clone(), buffers.scratch.clone());
    let mask = library::Mask { lent: buffers.mask_lent, bytes: &buffers.mask };
    let (mut context, mut answers, mut last): (_, _, Option<usize>) = (Context::default(), Vec::new(), None);
    for (i, scene) in scenes.iter().enumerate() {
        let answer = match last {
            None => library::draw(&mut context, scene, mask, &mut surface, &mut scratch),
            Some(old) => library::redraw(&mut context, &scenes[old], scene, mask, &mut surface, &mut scratch),
        };
        answers.extend(numbers(answer));
        if answer.code == 0 {
            last = Some(i);
        }
    }
    (Left { code: 0, context: context.take_code(), answers, surface, scratch }, last)
}

/// A replay of scenes is the single calls, and leaves the full drawing of the scene accepted last.
fn check(name: &str, scenes: &[Vec<u8>], buffers: &Buffers) -> Left {
    let left = compare(name, &Replay::of(scenes), buffers);
    let (single, last) = one_by_one(scenes, buffers);
    assert_eq!((left.code, left.context), (0, single.context), "{name}: one by one");
    assert!(
        left.answers == single.answers && left.surface == single.surface && left.scratch == single.scratch,
        "{name}"
    );
    match last {
        Some(last) => {
            let (mut surface, mut scratch) = (buffers.surface.clone(), buffers.scratch.clone());
            let mask = library::Mask { lent: buffers.mask_lent, bytes: &buffers.mask };
            let answer = library::draw(&mut Context::default(), &scenes[last], mask, &mut surface, &mut scratch);
            assert_eq!(answer.code, 0);
            assert!(left.surface == surface && left.scratch == scratch, "{name}: not the picture of scene {last}");
        }
        None => {
            assert!(left.surface == buffers.surface && left.scratch == buffers.scratch, "{name}: something was written")
        }
    }
    left
}

/// A sound scene and its next frames.
fn frames(random: &mut Random, side: i32, count: usize) -> Vec<scene::Scene> {
    let mut frames = vec![scenes::scene(random, side, 5)];
    while frames.len() < count {
        let next = scenes::next_scene(random, &frames[frames.len() - 1]);
        frames.push(next);
    }
    frames
}

#[test]
fn generated_replays() {
    let (mut accepted, mut refused) = (0, 0);
    for seed in 90_000_000..90_000_000 + 1_500 * rounds() {
        let mut random = Random::new(seed);
        let count = random.range(1, 8) as usize;
        let frames = frames(&mut random, 20, count);
        let buffers = Buffers::for_scene(&mut random, frames[0].width, frames[0].height);
        let files: Vec<Vec<u8>> = frames
            .iter()
            .map(|frame| match random.range(0, 11) {
                0 => damage::damaged(&mut random, frame),
                1 => Vec::new(),
                2 => scenes::scene(&mut random, 20, 3).bytes(),
                _ => frame.bytes(),
            })
            .collect();
        let left = check(&format!("seed {seed}"), &files, &buffers);
        let codes = || left.answers.chunks(ANSWER_NUMBERS).map(|answer| answer[0]);
        accepted += codes().filter(|&code| code == 0).count();
        refused += codes().filter(|&code| code != 0).count();
    }
    assert!(accepted > 1_000 && refused > 500, "{accepted} accepted, {refused} refused");
}

/// Each subset of four places has a refused scene: the file cut, a byte spoiled, another size, no bytes, no mask.
#[test]
fn refused_scenes_at_every_place() {
    let mut random = Random::new(91_000_000);
    let frames = frames(&mut random, 12, 4);
    let (width, height) = (frames[0].width, frames[0].height);
    let sound: Vec<Vec<u8>> = frames.iter().map(|frame| frame.bytes()).collect();
    let masked = Buffers::masked(&mut random, width, height);
    let cut = |file: &Vec<u8>| file[..file.len() - 1].to_vec();
    let spoiled = |file: &Vec<u8>| {
        let mut file = file.clone();
        file[600] ^= 1;
        file
    };
    let other = scene::Scene::new(width + 1, height, [1, 2, 3, 4]).bytes();
    for subset in 0..16 {
        for kind in 0..4 {
            let files: Vec<Vec<u8>> = sound
                .iter()
                .enumerate()
                .map(|(i, file)| match (subset >> i & 1, kind) {
                    (0, _) => file.clone(),
                    (_, 0) => cut(file),
                    (_, 1) => spoiled(file),
                    (_, 2) => other.clone(),
                    _ => Vec::new(),
                })
                .collect();
            let name = format!("subset {subset:04b}, kind {kind}");
            let left = check(&name, &files, &masked);
            let mut shown = 0;
            for (i, answer) in left.answers.chunks(ANSWER_NUMBERS).enumerate() {
                let code = match (subset >> i & 1, kind) {
                    (0, _) => 0,
                    (_, 1) => 0xB001,
                    // Another size than the surface's, or than the scene accepted last has.
                    (_, 2) => [0x1004, 0x1001][shown],
                    _ => 0xB002,
                };
                assert_eq!(answer[0], code, "{name}, scene {i}");
                // The scene number is 1 of a redraw's new scene, else 0.
                let number = if code == 0 || code == 0x1004 { 0 } else { shown as u32 };
                assert_eq!(answer[2], number, "{name}, scene {i}");
                if code == 0 {
                    shown = 1;
                }
            }
        }
    }
}

/// The rules of the whole call, on both sides: nothing is written but the context.
#[test]
fn whole_calls_refused() {
    let mut random = Random::new(92_000_000);
    let files: Vec<Vec<u8>> = frames(&mut random, 8, 3).iter().map(|frame| frame.bytes()).collect();
    let size = rules::scene(&files[0], true).map_or((1, 1), |scene| (scene.width as u16, scene.height as u16));
    let buffers = Buffers::masked(&mut random, size.0, size.1);
    let sound = || Replay::of(&files);
    let refused = |name: &str, replay: Replay, code: u32| {
        let left = compare(name, &replay, &buffers);
        assert_eq!((left.code, left.context), (code, code), "{name}");
        assert!(left.surface == buffers.surface && left.scratch == buffers.scratch, "{name}");
        assert!(left.answers.iter().all(|&number| number == UNWRITTEN), "{name}");
    };
    let with = |change: &dyn Fn(&mut Replay)| {
        let mut replay = sound();
        change(&mut replay);
        replay
    };
    refused("a byte more", with(&|r| r.scenes.push(0)), 0xB002);
    refused("a byte less", with(&|r| r.scenes.truncate(r.scenes.len() - 1)), 0xB002);
    refused("a length more", with(&|r| r.lengths.push(1)), 0xB002);
    refused("a length less", with(&|r| r.lengths.truncate(r.lengths.len() - 1)), 0xB002);
    refused("no lengths", with(&|r| r.lengths.clear()), 0xB002);
    refused("no bytes", with(&|r| r.scenes.clear()), 0xB002);
    // Sums that are right only in 32 bits.
    refused("a sum past 32 bits", with(&|r| r.lengths.extend([u32::MAX, 1])), 0xB002);
    refused("the largest lengths", with(&|r| r.lengths = vec![u32::MAX; 600]), 0xB002);
    refused("a place too few", with(&|r| r.places -= 1), 0x1002);
    refused("no places", with(&|r| r.places = 0), 0x1002);
    refused(
        "both",
        with(&|r| {
            r.places = 0;
            r.scenes.push(0);
        }),
        0xB002,
    );
    refused(
        "601 scenes",
        with(&|r| {
            r.lengths.resize(601, 0);
            r.places = 7 * 601;
        }),
        0xB002,
    );
    refused(
        "601 scenes, no places",
        with(&|r| {
            r.lengths.resize(601, 0);
            r.places = 0;
        }),
        0xB002,
    );

    let accepted = |name: &str, replay: Replay| {
        let left = compare(name, &replay, &buffers);
        assert_eq!(left.code, 0, "{name}");
        left
    };
    // Later places are as they were: guards and all are looked at in `compare`.
    let left = accepted("nine places more", with(&|r| r.places += 9));
    assert!(left.answers[21..].iter().all(|&number| number == UNWRITTEN));
    // Lengths of 0 at the end are scenes of no bytes.
    let left = accepted(
        "600 scenes",
        with(&|r| {
            r.lengths.resize(MOST_SCENES, 0);
            r.places = 7 * MOST_SCENES;
        }),
    );
    assert_eq!(left.context, 0xB002);
    assert!(left.answers[21..].chunks(7).all(|answer| *answer == [0xB002, 64, 1, 0, 0, 0, 0]));
}

#[test]
fn no_scenes() {
    let mut random = Random::new(93_000_000);
    for surface in [0, 4, 17] {
        let buffers = Buffers::rubbish(&mut random, surface, 3);
        for places in [0, 1, 7] {
            let left = compare("no scenes", &Replay { scenes: vec![], lengths: vec![], places }, &buffers);
            assert_eq!((left.code, left.context), (0, 0));
            assert!(left.surface == buffers.surface && left.scratch == buffers.scratch);
        }
    }
    // Only lengths of 0: nothing is accepted, so surface and scratch are as they were, though the call answers 0.
    let buffers = Buffers::rubbish(&mut random, 4, SCRATCH_NUMBERS);
    let left = check("empty scenes", &vec![Vec::new(); 5], &buffers);
    assert_eq!((left.code, left.context), (0, 0xB002));
}

/// 600 scenes of a needle that moves, one spoiled: the same as one by one.
#[test]
fn six_hundred_scenes() {
    let mut random = Random::new(94_000_000);
    let old = scenes::sized_scene(&mut random, 9, 7, 2);
    let new = scenes::next_scene(&mut random, &old);
    let mut files: Vec<Vec<u8>> =
        (0..MOST_SCENES).map(|i| if i % 2 == 0 { old.bytes() } else { new.bytes() }).collect();
    files[301][40] ^= 4;
    let buffers = Buffers::masked(&mut random, 9, 7);
    let left = check("600 scenes", &files, &buffers);
    assert_eq!(left.context, 0xB001);
}

/// Random calls on one context, asked now and then: it gives the first code other than 0 since it was last asked.
#[test]
fn context_over_calls() {
    for seed in 95_000_000..95_000_000 + 150 * rounds() {
        let mut random = Random::new(seed);
        let frames = frames(&mut random, 6, 3);
        let files: Vec<Vec<u8>> = frames.iter().map(|frame| frame.bytes()).collect();
        let right = Buffers::masked(&mut random, frames[0].width, frames[0].height);
        let mask = library::Mask { lent: 1, bytes: &right.mask };
        let (mut surface, mut scratch) = (right.surface.clone(), right.scratch.clone());
        let mut answers = vec![0; 21];
        let mut context = Context::default();
        // The codes since it was last asked.
        let mut since: Vec<u32> = Vec::new();
        for _ in 0..30 {
            let scratch_end = if random.once_in(3) { SCRATCH_NUMBERS - 1 } else { SCRATCH_NUMBERS };
            let file = &files[random.index(3)];
            let file = if random.once_in(3) { &file[..file.len() - 512] } else { &file[..] };
            let scratch = &mut scratch[..scratch_end];
            match random.range(0, 5) {
                0 => since.push(library::draw(&mut context, file, mask, &mut surface, scratch).code),
                1 => since.push(library::redraw(&mut context, &files[0], file, mask, &mut surface, scratch).code),
                2 => {
                    since.push(library::redraw_planned(&mut context, &files[0], file, mask, &mut surface, scratch).code)
                }
                3 | 4 => {
                    let replay = Replay::of(&[files[0].clone(), file.to_vec(), files[2].clone()]);
                    let places = if random.once_in(3) { 20 } else { 21 };
                    let (scenes, lengths) = (&replay.scenes, &replay.lengths);
                    let code = library::replay(
                        &mut context,
                        scenes,
                        lengths,
                        mask,
                        &mut surface,
                        scratch,
                        &mut answers[..places],
                    );
                    match code {
                        0 => since.extend(answers.chunks(ANSWER_NUMBERS).map(|answer| answer[0])),
                        code => since.push(code),
                    }
                }
                _ => {
                    let first = since.drain(..).find(|&code| code != 0).unwrap_or(0);
                    assert_eq!(context.take_code(), first, "seed {seed}");
                    assert_eq!((context.code, context.take_code()), (0, 0));
                }
            }
            let first = since.iter().copied().find(|&code| code != 0).unwrap_or(0);
            assert_eq!(context.code, first, "seed {seed}");
        }
    }
}

fn repository() -> PathBuf {
    Path::new(env!("CARGO_MANIFEST_DIR")).join("../..")
}

/// The vectors of tests/vectors/replay, through the library.
#[test]
fn vectors() {
    let folder = repository().join("tests/vectors/replay");
    let mut random = Random::new(96_000_000);
    for number in 1..=12 {
        let files: Vec<Vec<u8>> = (0..)
            .map(|i| folder.join(format!("{number}-{i}.scene")))
            .take_while(|path| path.exists())
            .map(|path| fs::read(path).expect("a scene"))
            .collect();
        assert!(!files.is_empty());
        let sized = files.iter().find_map(|file| rules::scene(file, false).ok());
        let surface = sized.map_or(0, |scene| scene.surface_bytes());
        let left = check(&format!("vector {number}"), &files, &Buffers::rubbish(&mut random, surface, SCRATCH_NUMBERS));
        let mut printed = format!("code {:04x}\n", left.code);
        for a in left.answers.chunks(ANSWER_NUMBERS) {
            printed += &format!("{:04x} {} {} {} {} {} {}\n", a[0], a[1], a[2], a[3], a[4], a[5], a[6]);
        }
        printed += &format!("context {:04x}\n", left.context);
        let accepted = left.answers.chunks(ANSWER_NUMBERS).rposition(|answer| answer[0] == 0);
        if let Some(last) = accepted {
            let width = left.answers.chunks(ANSWER_NUMBERS).find(|answer| answer[0] == 0).map_or(0, |answer| answer[5]);
            printed += &format!("last {last}\n{}", print::picture(width as usize, &left.surface));
        }
        let expected = fs::read_to_string(folder.join(format!("{number}.out"))).expect("a text");
        assert!(printed == expected, "vector {number}");
    }
}

/// examples/replay.c compiles as it stands, and tells of its 600 frames what it should.
#[test]
fn c_example() {
    let program = compiled_example("replay", env!("CARGO_TARGET_TMPDIR"));
    let output = Command::new(program).output().expect("the example runs");
    assert!(output.status.success());
    let text = String::from_utf8_lossy(&output.stdout);
    let expected = "replay 0000: 600 frames, 599 accepted\nframe 300: refused b001, draw 1, scene 1\n\
        frame 599: redrawn x 24, y 2, width 8, height 18\nthe picture is frame 599's\ncode b001, then 0000\n";
    assert_eq!(text, expected);
}
