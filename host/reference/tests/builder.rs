//! The builder in C, include/wayramesh_scene.h: the same scenes give the same bytes as the builder in Rust, what it accepts
//! keeps the rules, and whatever is wrong gives a code and no byte outside the buffer.

use std::env;
use std::fmt::Write as _;
use std::io::Write as _;
use std::path::{Path, PathBuf};
use std::process::{Command, Stdio};
use std::sync::Once;

use generate::{scenes, Random};
use reference::rules;
use scene::path::{CLOSE, CUBIC, HORIZONTAL, LINE, MOVE, QUAD, RELATIVE, SMOOTH_CUBIC, SMOOTH_QUAD, VERTICAL};
use scene::{Blend, Draw, Fault, FillRule, PaintType, Scene, Scissor, Spread, Stop, IDENTITY};

const STRICT: [&str; 7] =
    ["-Wall", "-Wextra", "-Wpedantic", "-Wconversion", "-Wsign-conversion", "-Wshadow", "-Werror"];
const SANITIZED: [&str; 4] = ["-fsanitize=address,undefined", "-fno-sanitize-recover=all", "-DGUARD=0u", "-g"];
const NAN: f32 = f32::NAN;

fn here() -> PathBuf {
    Path::new(env!("CARGO_MANIFEST_DIR")).join("tests")
}

fn target(name: &str) -> PathBuf {
    Path::new(env!("CARGO_TARGET_TMPDIR")).join(name)
}

/// Whether the C compiler takes a source with these flags.
fn compiles(source: &Path, flags: &[&str], program: &Path) -> bool {
    let include = here().join("../../../include");
    let output =
        Command::new("cc").args(flags).args(["-O1", "-I"]).arg(include).arg(source).arg("-o").arg(program).output();
    let output = output.expect("a C compiler");
    eprint!("{}", String::from_utf8_lossy(&output.stderr));
    output.status.success()
}

/// Whether the C compiler has what these flags ask for.
fn available(flags: &[&str]) -> bool {
    let source = target("nothing.c");
    std::fs::write(&source, "int main(void) { return 0; }\n").expect("a source");
    compiles(&source, flags, &target("nothing"))
}

/// tests/builder.c with guards round its buffers, and where the compiler has sanitizers, under those too.
fn programs() -> Vec<PathBuf> {
    static COMPILED: Once = Once::new();
    let (guarded, sanitized) = (target("builder"), target("builder-sanitized"));
    COMPILED.call_once(|| {
        let source = here().join("builder.c");
        let with = |more: &[&'static str]| [&["-std=c99"][..], &STRICT[..], more].concat();
        assert!(compiles(&source, &with(&[]), &guarded));
        if available(&SANITIZED) {
            assert!(compiles(&source, &with(&SANITIZED), &sanitized));
        }
    });
    [guarded, sanitized].into_iter().filter(|program| program.exists()).collect()
}

/// What a scene's calls came to.
#[derive(Debug, PartialEq, Eq)]
struct Built {
    code: u32,
    draw: u32,
    file: Vec<u8>,
    words: String,
}

/// What the calls of a script come to at each `end`, alike with guards and under sanitizers.
fn run(script: &str) -> Vec<Built> {
    let mut answers = programs().into_iter().map(|program| answers(&program, script));
    let first = answers.next().expect("a program");
    assert_eq!(first.len(), script.lines().filter(|line| line.starts_with("end")).count());
    assert!(answers.all(|other| other == first));
    first
}

fn answers(program: &Path, script: &str) -> Vec<Built> {
    let mut child =
        Command::new(program).stdin(Stdio::piped()).stdout(Stdio::piped()).spawn().expect("the program runs");
    let mut input = child.stdin.take().expect("its input");
    let script = script.to_string();
    let writer = std::thread::spawn(move || input.write_all(script.as_bytes()));
    let output = child.wait_with_output().expect("its output");
    writer.join().expect("a writer").expect("all calls are read");
    assert!(output.status.success(), "{}", output.status);
    let text = String::from_utf8(output.stdout).expect("text");
    let lines: Vec<&str> = text.lines().collect();
    lines.chunks(3).map(|lines| built(lines[0], lines[1], lines[2])).collect()
}

fn built(numbers: &str, file: &str, words: &str) -> Built {
    let numbers: Vec<&str> = numbers.split(' ').collect();
    let byte = |i: usize| u8::from_str_radix(&file[2 * i..2 * i + 2], 16).expect("a byte");
    let file: Vec<u8> = (0..file.len() / 2).map(byte).collect();
    assert!(file.is_empty() || numbers[2].parse() == Ok(file.len()));
    assert_eq!(numbers[2] == "0", numbers[0] != "0000", "{words}");
    let code = u32::from_str_radix(numbers[0], 16).expect("a code");
    Built { code, draw: numbers[1].parse().expect("a draw"), file, words: words.to_string() }
}

fn floats(values: &[f32]) -> String {
    values.iter().map(|v| format!(" {:x}", v.to_bits())).collect()
}

/// How many coordinates a segment takes; of what is none, none.
fn taken(segment: u8) -> usize {
    match segment & !RELATIVE {
        HORIZONTAL | VERTICAL => 1,
        MOVE | LINE | SMOOTH_QUAD => 2,
        QUAD | SMOOTH_CUBIC => 4,
        CUBIC => 6,
        _ => 0,
    }
}

/// The calls that make a scene in a buffer of so many bytes.
fn script(scene: &Scene, capacity: usize) -> String {
    let mut calls = format!("begin {capacity} {} {} {}\n", scene.width, scene.height, scene.edition);
    let [r, g, b, a] = scene.background;
    writeln!(calls, "background {r} {g} {b} {a}").unwrap();
    for draw in &scene.draws {
        calls += &draw_script(draw);
    }
    calls + "end\n"
}

fn draw_script(draw: &Draw) -> String {
    let bytes = draw.bytes(0);
    let number = |at: usize| u16::from_le_bytes([bytes[at], bytes[at + 1]]);
    let mut calls = format!("draw {:x} {:x}\nmatrix{}\n", number(2), number(0), floats(&draw.matrix));
    writeln!(calls, "linear{} {:x}\ncolor{}", floats(&draw.linear), number(6), floats(&draw.color)).unwrap();
    match draw.paint {
        PaintType::Color => {}
        PaintType::Linear => writeln!(calls, "linear{} {:x}", floats(&draw.linear), number(6)).unwrap(),
        PaintType::Radial => writeln!(calls, "radial{} {:x}", floats(&draw.radial), number(6)).unwrap(),
    }
    for stop in &draw.stops {
        writeln!(calls, "stop{}{}", floats(&[stop.offset]), floats(&stop.color)).unwrap();
    }
    for scissor in &draw.scissors {
        writeln!(calls, "scissor {} {} {} {}", scissor.x, scissor.y, scissor.width, scissor.height).unwrap();
    }
    if draw.transformed {
        writeln!(calls, "transformation{}", floats(&draw.transformation)).unwrap();
    }
    let mut coordinates = &draw.path.coordinates[..];
    for &segment in &draw.path.segments {
        let (these, rest) = coordinates.split_at(taken(segment).min(coordinates.len()));
        let named =
            [CLOSE, MOVE, LINE, HORIZONTAL, VERTICAL, QUAD, CUBIC, SMOOTH_QUAD, SMOOTH_CUBIC].contains(&segment);
        write!(calls, "{} {segment}", if named && these.len() == taken(segment) { "to" } else { "segment" }).unwrap();
        these.iter().for_each(|coordinate| write!(calls, " {coordinate}").unwrap());
        calls.push('\n');
        coordinates = rest;
    }
    calls
}

/// A random scene that the calls can say: scissors and transformations that are there are on.
fn sayable(random: &mut Random) -> Scene {
    let mut scene = scenes::scene(random, 60, 6);
    for draw in &mut scene.draws {
        draw.scissoring |= !draw.scissors.is_empty();
        if !draw.transformed {
            draw.transformation = IDENTITY;
        }
    }
    scene
}

fn room(scene: &Scene) -> usize {
    512 * (1 + 4 * scene.draws.len())
}

/// Both builders accept exactly what the rules accept, and then write the same bytes; of others they name the same draw.
#[test]
fn both_builders_and_the_rules() {
    let mut random = Random::new(0xB111);
    let scenes: Vec<Scene> = (0..400).map(|_| sayable(&mut random)).collect();
    let answers = run(&scenes.iter().map(|scene| script(scene, room(scene))).collect::<String>());
    let mut accepted = 0;
    for (scene, answer) in scenes.iter().zip(answers) {
        let rules = rules::scene(&scene.bytes(), true).map(|_| ()).map_err(|fault| fault.draw);
        match scene.build() {
            Ok(file) => {
                assert_eq!((answer.code, rules), (0, Ok(())));
                assert!(answer.file == file);
                accepted += 1;
            }
            Err(error) => {
                let draw = error.draw.expect("a draw") as u32;
                assert_eq!((answer.code, answer.draw), (error.fault.code().expect("a code"), draw), "{}", answer.words);
                assert_eq!(rules, Err(draw));
            }
        }
    }
    assert!(accepted > 200 && accepted < scenes.len(), "{accepted}");
}

/// A draw from its joined payloads, as far as the fields can hold it.
fn decoded_draw(bytes: &[u8], edition: u16) -> Option<Draw> {
    let number = |at: usize| u16::from_le_bytes([bytes[at], bytes[at + 1]]);
    let float = |at: usize| f32::from_bits(u32::from(number(at)) | u32::from(number(at + 2)) << 16);
    let whole = |at: usize| float(at).to_bits() as i32;
    let flag = |bit: u16| number(0) >> bit & 1 == 1;
    let paint = *PaintType::ALL.get(usize::from(number(4).checked_sub(0x1B00)?))?;
    let stops = if paint == PaintType::Radial { 152 } else { 132 };
    let segments = bytes.get(772..772 + usize::from(bytes[8]))?.to_vec();
    let taken: usize = segments.iter().map(|&segment| taken(segment)).sum();
    let first = scene::first_coordinate(edition);
    if bytes[9] > 4 || bytes[10] > 31 || segments.len() > 128 || first + 2 * taken > bytes.len() {
        return None;
    }
    Some(Draw {
        fill_rule: if flag(0) { FillRule::NonZero } else { FillRule::EvenOdd },
        scissoring: flag(1),
        premultiplied_ramp: flag(2),
        masked: flag(3),
        transformed: flag(4),
        blend: *Blend::ALL.get(usize::from(number(2).checked_sub(0x2000)?))?,
        paint,
        spread: *Spread::ALL.get(usize::from(number(6).checked_sub(0x1C00)?))?,
        matrix: std::array::from_fn(|i| float(12 + 4 * i)),
        color: std::array::from_fn(|i| float(36 + 4 * i)),
        linear: std::array::from_fn(|i| float(52 + 4 * i)),
        radial: std::array::from_fn(|i| float(132 + 4 * i)),
        scissors: (0..usize::from(bytes[9]))
            .map(|i| [0, 4, 8, 12].map(|field| whole(68 + 16 * i + field)))
            .map(|[x, y, width, height]| Scissor { x, y, width, height })
            .collect(),
        stops: (0..usize::from(bytes[10]))
            .map(|i| stops + 20 * i)
            .map(|at| Stop { offset: float(at), color: std::array::from_fn(|c| float(at + 4 + 4 * c)) })
            .collect(),
        transformation: if edition == 1 { std::array::from_fn(|i| float(900 + 4 * i)) } else { IDENTITY },
        path: scene::Path { segments, coordinates: (0..taken).map(|i| number(first + 2 * i) as i16).collect() },
    })
}

/// The scene in a file, if the calls can say it: the fields hold every byte, and what is there is on.
fn decoded(file: &[u8]) -> Option<Scene> {
    let number = |at: usize| Some(u16::from_le_bytes([*file.get(at)?, *file.get(at + 1)?]));
    let (draws, edition) = (usize::from(number(4)?), number(6)?);
    if draws > 64 || file.len() != 512 * (1 + 4 * draws) {
        return None;
    }
    let payloads = |draw: usize| -> Vec<u8> {
        (1 + 4 * draw..5 + 4 * draw).flat_map(|block| file[512 * block..][..508].to_vec()).collect()
    };
    let background = [file[8], file[9], file[10], file[11]];
    let draws = (0..draws).map(|draw| decoded_draw(&payloads(draw), edition)).collect::<Option<Vec<Draw>>>()?;
    let sayable = draws.iter().all(|draw| {
        (draw.scissoring || draw.scissors.is_empty()) && (draw.transformed || draw.transformation == IDENTITY)
    });
    let scene = Scene { width: number(0)?, height: number(2)?, background, edition, draws };
    (sayable && scene.bytes() == file).then_some(scene)
}

/// Both sides of every rule that the fields can break: both builders accept what the rules do, and no more.
#[test]
fn both_sides_of_every_rule() {
    let cases: Vec<_> = [0, 1].iter().flat_map(|&edition| generate::rules::cases(true, edition)).collect();
    let scenes: Vec<_> = cases.iter().filter_map(|case| Some((case, decoded(&case.bytes)?))).collect();
    let quietly = |scene: &Scene| script(scene, room(scene)).replace("\nend\n", "\nend quietly\n");
    let answers = run(&scenes.iter().map(|(_, scene)| quietly(scene)).collect::<String>());
    let mut refused = 0;
    for ((case, scene), answer) in scenes.iter().zip(answers) {
        let drawn = scene.build().map(|_| ()).map_err(|error| error.draw.unwrap_or(64) as u32);
        let told = if answer.code == 0 { Ok(()) } else { Err(answer.draw) };
        let expected = case.fault.map_or(Ok(()), |fault| Err(fault.draw));
        assert_eq!((told, drawn), (expected, expected), "{}: {}", case.name, answer.words);
        refused += u32::from(expected.is_err());
    }
    assert!(scenes.len() > 1_000 && refused > 100, "{refused} of {} refused", scenes.len());
}

/// The control of a smooth curve is kept: reflected once more, it is in range or just not.
#[test]
fn smooth_curves_in_a_row() {
    let quads = |end: i16| scene::Path::new().quad_to((-20_000, 0), (0, 0)).smooth_quad_to(end, 0).smooth_quad_to(0, 0);
    let cubics = |end: i16| {
        let first = scene::Path::new().smooth_cubic_to((0, 20_000), (0, end));
        first.smooth_cubic_to((0, 0), (0, 0)).smooth_cubic_to((1, 1), (1, 1))
    };
    let mut scene = Scene::new(8, 8, [0; 4]);
    for (path, accepted) in
        [(quads(-6_384), true), (quads(-6_385), false), (cubics(-6_384), true), (cubics(-6_385), false)]
    {
        scene.draws = vec![Draw { path, ..Draw::default() }];
        let answer = &run(&script(&scene, room(&scene)))[0];
        let rules = rules::scene(&scene.bytes(), false).is_ok();
        assert_eq!([answer.code == 0, scene.build().is_ok(), rules], [accepted; 3], "{:?}", scene.draws[0].path);
    }
}

/// Scenes that are as large as they may be, and one that the programs are run on.
#[test]
fn files_and_limits() {
    let mut random = Random::new(7);
    let mut largest = scenes::largest(&mut random, 1_024, 1_024);
    for draw in &mut largest.draws {
        draw.scissors.clear();
        draw.radial = [512.0, 512.0, 500.0, 512.0, 100.0];
    }
    let mut full = Scene { edition: 1, ..Scene::new(1, 1_024, [1, 2, 3, 4]) };
    let stops = |count: i32| (0..count).map(|i| Stop { offset: i as f32 / 31.0, color: [0.5; 4] }).collect();
    full.draws.push(Draw { stops: stops(32), ..Draw::default() });
    full.draws.push(Draw { paint: PaintType::Radial, stops: stops(31), ..Draw::default() });
    let widest =
        (0..91).fold(scene::Path::new(), |path, _| path.cubic_to((1, 2), (3, 4), (5, 6))).quad_to((1, 2), (3, 4));
    full.draws.push(Draw {
        path: widest,
        matrix: [256.0, 0.0, 0.0, 256.0, 32_768.0 - 1_536.0, -32_768.0],
        ..Draw::default()
    });
    for scene in [largest, full, Scene::new(1, 1, [0; 4])] {
        let answer = &run(&script(&scene, room(&scene)))[0];
        assert_eq!(answer.code, 0, "{}", answer.words);
        assert!(Ok(&answer.file) == scene.build().as_ref());
        assert!(rules::scene(&answer.file, false).is_ok());
    }
    let red = std::fs::read(here().join("../../../crates/redraw/data/red.scene")).expect("a scene");
    let calls = "begin 2560 4 4 0\nbackground 0 0 0 255\ndraw 2001 0\ncolor 3f800000 0 0 3f800000\n";
    for path in ["rectangle 0 0 2 2\n", "to 2 0 0\nto 6 2\nto 8 2\nto 6 0\nto 0\n"] {
        assert!(run(&format!("{calls}{path}end\n"))[0].file == red);
    }
    let lines = "to 2 0 0\nto 4 2 0\nto 4 2 2\nto 4 0 2\nto 0\n";
    assert!(run(&format!("{calls}polygon 0 0 2 0 2 2 0 2\nend\n")) == run(&format!("{calls}{lines}end\n")));
}

/// A draw with nothing wrong, and what is wrong with the one behind it: the code is that, and the draw number 1.
#[test]
fn wrong_use_of_a_draw() {
    let sound = "begin 65536 64 64 1\ndraw 2001 0\nrectangle 0 0 4 4\ndraw 2001 0\n";
    let one = 1.0_f32;
    let cases = [
        ("draw 2005 0", 0xC007),
        ("draw 1fff 0", 0xC007),
        ("draw 2001 20", 0xC006),
        ("draw 2001 ffffffff", 0xC006),
        (&format!("matrix{}", floats(&[NAN, 0.0, 0.0, 1.0, 0.0, 0.0])), 0xC00E),
        (&format!("matrix{}", floats(&[1.0, 0.0, 0.0, 256.00003, 0.0, 0.0])), 0xC00E),
        (&format!("matrix{}", floats(&[1.0, 0.0, 0.0, 1.0, f32::INFINITY, 0.0])), 0xC00E),
        (&format!("matrix{}", floats(&[1.0, 0.0, 0.0, 1.0, 0.0, -32_768.004])), 0xC00E),
        (&format!("color{}", floats(&[one, one, NAN, one])), 0xC00E),
        (&format!("linear{} 1c00", floats(&[0.0, 4_096.001, 0.0, 0.0])), 0xC00E),
        (&format!("linear{} 1c03", floats(&[0.0; 4])), 0xC008),
        (&format!("radial{} 1b02", floats(&[0.0; 5])), 0xC008),
        (&format!("radial{} 1c00", floats(&[0.0, 0.0, 0.0, 0.0, 1_024.1])), 0xC00E),
        (&format!("radial{} 1c00", floats(&[8.0, 8.0, 12.0, 8.0, 4.0])), 0xC010),
        (&format!("stop{}", floats(&[NAN, one, one, one, one])), 0xC00E),
        (&format!("stop{}", floats(&[one, one, one, one, NAN])), 0xC00E),
        (&format!("stop{}\n", floats(&[one; 5])).repeat(33), 0xC00D),
        (&format!("radial{} 1c00\n{}", floats(&[one; 5]), format!("stop{}\n", floats(&[one; 5])).repeat(32)), 0xC00D),
        (&format!("stop{}\nradial{} 1c00", floats(&[one; 5]), floats(&[one; 5])), 0xC00F),
        (&format!("radial{} 1c00\nstop{1}\ncolor{1}", floats(&[one; 5]), floats(&[one; 5])), 0xC00F),
        (&"scissor 0 0 1 1\n".repeat(5), 0xC00C),
        (&format!("transformation{}", floats(&[one, one, one, one, 0.0, 0.0, NAN, 0.0])), 0xC00E),
        (&"to 0\n".repeat(129), 0xC00A),
        (&"to 12 0 0 0 0 0 0\n".repeat(92), 0xC00B),
        ("segment 18 1 1 1 1 1", 0xC009),
        ("segment 26", 0xC009),
        ("segment 32", 0xC009),
        ("segment 258 1 1", 0xC009),
        ("segment -2 1 1", 0xC009),
        ("segment 4 1", 0xC009),
        ("segment 4 1 2 3", 0xC009),
        ("segment 0 1", 0xC009),
        ("to 2 32768 0", 0xC012),
        ("to 2 0 -32769", 0xC012),
        ("to 2 2147483647 -2147483648", 0xC012),
        ("to 2 32767 0\nsegment 5 1 0", 0xC012),
        ("to 2 32767 0\nto 10 0 0 32767 0\nto 14 0 0", 0xC012),
        (&format!("to 2 -32768 0\nmatrix{}", floats(&[256.0, 0.0, 0.0, 256.0, 0.0, 0.0])), 0xC012),
        (&format!("matrix{}\nto 0", floats(&[1.0, 2.0, 2.0, 4.0, 0.0, 0.0])), 0xC011),
        (&format!("to 0\nmatrix{}", floats(&[0.0, 0.0, 0.0, 1e-9, 0.0, 0.0])), 0xC011),
    ];
    let scripts = cases.iter().map(|(calls, _)| format!("{sound}{calls}\nend\n"));
    for ((calls, code), answer) in cases.iter().zip(run(&scripts.collect::<String>())) {
        let draw = if calls.starts_with("draw") { 2 } else { 1 };
        assert_eq!((answer.code, answer.draw, answer.file.len()), (*code, draw, 0), "{calls}: {}", answer.words);
        assert!(!answer.words.starts_with("no code"));
    }
}

/// What is wrong with the scene, and calls in a wrong order. After it nothing else is answered.
#[test]
fn wrong_use_of_a_scene() {
    let more_draws = "draw 2001 0\n".repeat(65);
    let identity = floats(&IDENTITY);
    let cases = [
        ("nowhere\nbackground 1 2 3 4\ndraw 2001 0", 0xC001, 64),
        ("begin 0 1 1 0\nbackground 1 2 3 4\ndraw 2001 0", 0xC001, 64),
        ("begin 511 1 1 0\nbackground 1 2 3 4", 0xC001, 64),
        ("begin 512 1 1 0\ndraw 2001 0\nrectangle 0 0 1 1", 0xC001, 64),
        ("begin 2559 1 1 0\ndraw 2001 0\nrectangle 0 0 1 1", 0xC001, 64),
        ("begin 4607 1 1 0\ndraw 2001 0\nrectangle 0 0 1 1\ndraw 2001 0\nrectangle 0 0 1 1", 0xC001, 0),
        ("begin 512 0 1 0", 0xC002, 64),
        ("begin 512 1 0 0", 0xC002, 64),
        ("begin 512 1025 1 0", 0xC002, 64),
        ("begin 512 1 -1 0", 0xC002, 64),
        ("begin 512 1 1 2", 0xC003, 64),
        (&format!("begin 4096 1 1 0\ndraw 2001 0\ntransformation{identity}"), 0xC003, 0),
        ("begin 4096 1 1 0\ndraw 2001 10", 0xC003, 0),
        (&format!("begin 262144 1 1 0\n{more_draws}"), 0xC004, 63),
        ("begin 4096 1 1 0\nto 2 1 1", 0xC005, 64),
        ("begin 4096 1 1 0\nsegment 2 1 1\ndraw 2001 0", 0xC005, 64),
        ("begin 4096 1 1 0\npolygon", 0xC005, 64),
        (&format!("begin 4096 1 1 0\nmatrix{}", floats(&[1.0; 6])), 0xC005, 64),
        (&format!("begin 4096 1 1 0\ncolor{}", floats(&[1.0; 4])), 0xC005, 64),
        (&format!("begin 4096 1 1 0\nlinear{} 1c00", floats(&[1.0; 4])), 0xC005, 64),
        (&format!("begin 4096 1 1 0\nradial{} 1c00", floats(&[1.0; 5])), 0xC005, 64),
        (&format!("begin 4096 1 1 0\nstop{}", floats(&[1.0; 5])), 0xC005, 64),
        ("begin 4096 1 1 0\nscissor 1 1 1 1", 0xC005, 64),
        (&format!("begin 4096 1 1 1\ntransformation{identity}"), 0xC005, 64),
    ];
    let scripts = cases.iter().map(|(calls, ..)| format!("{calls}\nend\n"));
    for ((calls, code, draw), answer) in cases.iter().zip(run(&scripts.collect::<String>())) {
        assert_eq!((answer.code, answer.draw, answer.file.len()), (*code, *draw, 0), "{calls}: {}", answer.words);
        assert!(!answer.words.starts_with("no code"));
    }
}

/// A scene may be ended, added to, and ended again; and a buffer may be used for another scene.
#[test]
fn a_scene_goes_on_behind_its_end() {
    let first = "begin 4608 8 8 0\ndraw 2001 0\nrectangle 0 0 4 4\n";
    let second = "to 2 5 5\nto 4 6 6\nto 4 5 6\ndraw 2000 1\nrectangle 1 1 2 2\n";
    let answers = run(&format!("{first}end\nend\n{second}end\n{first}end\n{first}{second}end\n"));
    assert!(answers.iter().all(|answer| answer.code == 0 && rules::scene(&answer.file, false).is_ok()));
    assert!(
        answers[0] == answers[1] && answers[0] == answers[3] && answers[2] == answers[4] && answers[0] != answers[2]
    );
}

/// A call with numbers of which few are wrong, but where each may be.
fn any_call(random: &mut Random) -> String {
    let float = |random: &mut Random| match random.range(0, 40) {
        0 => random.pick(&[NAN, f32::INFINITY, f32::NEG_INFINITY, f32::MAX, -f32::MAX, 1e-45, 256.00003, -4_097.0]),
        1 => f32::from_bits(random.bits()),
        _ => random.float(-2.0, 20.0),
    };
    let whole = |random: &mut Random| match random.range(0, 60) {
        0 => random.pick(&[i32::MIN, i32::MAX, -32_769, 32_768, 32_767, -32_768]),
        _ => random.range(-300, 300),
    };
    let mut reals = |count: i32| (0..count).map(|_| float(random)).collect::<Vec<f32>>();
    let (four, five, six, eight) = (floats(&reals(4)), floats(&reals(5)), floats(&reals(6)), floats(&reals(8)));
    let spread = if random.once_in(30) { random.bits() } else { 0x1C00 + random.bits() % 3 };
    match random.range(0, 13) {
        0 => {
            let blend = if random.once_in(20) { random.bits() } else { 0x2000 + random.bits() % 5 };
            let flags = if random.once_in(20) { random.bits() } else { random.bits() % 16 };
            format!("draw {blend:x} {flags:x}")
        }
        1 => format!("matrix{six}"),
        2 => format!("color{four}"),
        3 => format!("linear{four} {spread:x}"),
        4 => format!("radial{} {spread:x}", floats(&[4.0, 4.0, 5.0, 3.0, random.float(0.0, 9.0)])),
        5 | 6 => format!("stop{five}"),
        7 => format!("scissor {} {} {} {}", whole(random), whole(random), whole(random), whole(random)),
        8 => format!("transformation{eight}"),
        9 => format!("rectangle {} {} {} {}", whole(random), whole(random), whole(random), whole(random)),
        10 => format!(
            "polygon{}",
            (0..2 * random.range(0, 40)).map(|_| format!(" {}", whole(random))).collect::<String>()
        ),
        _ => {
            let segment = if random.once_in(30) { random.bits() as i32 } else { random.range(0, 17) };
            let count = if random.once_in(30) { random.range(0, 7) } else { taken(segment as u8) as i32 };
            format!("segment {segment}{}", (0..count).map(|_| format!(" {}", whole(random))).collect::<String>())
        }
    }
}

/// Calls without a plan, in buffers of any size: each ends with a code, and what is accepted keeps the rules.
#[test]
fn any_calls() {
    let mut random = Random::new(0xCA11);
    let mut script = String::new();
    for _ in 0..1_500 {
        let (width, height) = (random.range(1, 40), random.range(1, 40));
        let room = if random.once_in(8) { random.range(0, 9_000) } else { 512 * (1 + 4 * 8) };
        writeln!(script, "begin {room} {width} {height} {}\ndraw 2001 {}", random.range(0, 1), random.range(0, 8))
            .unwrap();
        for _ in 0..random.range(0, 30) {
            writeln!(script, "{}", any_call(&mut random)).unwrap();
        }
        script += "end\n";
    }
    let mut met = std::collections::BTreeMap::new();
    for answer in run(&script) {
        *met.entry(answer.code).or_insert(0) += 1;
        assert_eq!(answer.code == 0, rules::scene(&answer.file, true).is_ok(), "{}", answer.words);
    }
    assert!(met.len() >= 11 && met[&0] > 100, "{met:x?}");
}

/// What the two builders say of one fault is the same.
#[test]
fn the_same_words() {
    let header = std::fs::read_to_string(here().join("../../../include/wayramesh_scene.h")).expect("the header");
    for fault in [
        Fault::BadSize,
        Fault::BadEdition,
        Fault::TooManyDraws,
        Fault::BadSegment,
        Fault::TooManySegments,
        Fault::TooManyCoordinates,
        Fault::TooManyScissors,
        Fault::TooManyStops,
        Fault::BadNumber,
        Fault::BadFocus,
        Fault::FlatMatrix,
        Fault::BadPoint,
    ] {
        let code = format!(" 0x{:04X}u\n", fault.code().expect("a code"));
        let line = header.lines().find(|line| format!("{line}\n").ends_with(&code)).expect("the code");
        let name = line.split(' ').nth(1).expect("its name");
        assert!(header.contains(&format!("case {name}: return \"{fault}\";")), "{name}: {fault}");
    }
}

/// The header is C++ too, where the compiler has that.
#[test]
fn as_cpp() {
    let source = here().join("builder.c");
    if available(&["-x", "c++"]) {
        assert!(compiles(&source, &[&["-x", "c++"][..], &STRICT[..]].concat(), &target("builder-cpp")));
    }
}
