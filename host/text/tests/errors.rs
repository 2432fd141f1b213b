//! What is wrong with a text is told by line and column.

use wayramesh_text::{to_scene, Error};

const HEAD: &str = "size 8 8\n";

fn errors(text: &str) -> Vec<(usize, usize, String)> {
    let errors = to_scene(text.as_bytes()).expect_err(text);
    errors.into_iter().map(|Error { line, column, message }| (line, column, message)).collect()
}

/// The only error of a text is there, and says this.
fn check(text: &str, line: usize, column: usize, message: &str) {
    assert_eq!(errors(text), [(line, column, message.to_string())], "{text}");
}

/// The only error of a draw that has this second line.
fn check_draw(line: &str, column: usize, message: &str) {
    check(&format!("{HEAD}draw\n{line}\n"), 3, column, message);
}

#[test]
fn the_head() {
    check("", 1, 1, "a scene begins with its size: 'size WIDTH HEIGHT'");
    check("edition 0\n\n draw", 3, 2, "a scene begins with its size: 'size WIDTH HEIGHT'");
    check("size 8", 1, 7, "'size' takes a width and a height, and here are 1");
    check("size 8 8 8", 1, 10, "'8' is one word too many");
    check("size 8 -1", 1, 8, "-1 is not in 0..65535");
    check("size 8 8\nsize 8 8", 2, 1, "'size' stands here a second time");
    check("size 8 8\nedition one", 2, 9, "'one' is no whole number");
    check("size 8 8\nbackground black", 2, 12, "'black' is no colour: #rrggbbaa or #rrggbb");
    check("size 8 8\nsizes", 2, 1, "'sizes' is none of size, edition, background, draw");
    assert_eq!(errors("size 8 8\nsizes\nsizes")[1].2, "'sizes' is none of size, edition, background, draw");
    check("size 8 8\nblend Src", 2, 1, "'blend' stands in a draw, and none has begun");
    check("size 8 8\n\tM 1 2", 2, 2, "'M' stands in a draw, and none has begun");
    check("size 8 8\ndraw\n  edition 1", 3, 3, "'edition' stands before the first draw");
    check("size 8 8\ndraw 1", 2, 6, "'1' is one word too many");
    check("size 8 8\nbytes 508 00", 2, 7, "508 is not in 12..507");
    check("size 8 8\nbytes 4 01", 2, 7, "4 is not in 12..507");
    check("size 8 8\nbytes 507 00 00", 2, 14, "there is no place 508: the last one is 507");
    check("size 8 8\nbytes 12", 2, 9, "'bytes' takes a place and bytes of two hex digits");
    check("size 8 8\nbytes 12 1", 2, 10, "'1' is no byte of two hex digits");
}

#[test]
fn numbers_and_names() {
    check_draw("blend Over", 7, "'Over' is none of Src, SrcOver, DstOver, SrcIn, DstIn");
    check_draw("paint colour", 7, "'colour' is none of color, linear, radial");
    check_draw("spread 0x", 8, "'0x' is none of pad, repeat, reflect");
    check_draw("fill odd", 6, "'odd' is none of even-odd, nonzero");
    check_draw("fill 0x2", 6, "'0x2' is none of even-odd, nonzero");
    check_draw("flags", 6, "'flags' takes none, or of scissoring, premultiplied, mask, transform");
    check_draw("flags mask masks", 12, "'masks' is none of scissoring, premultiplied, mask, transform");
    check_draw("flags none mask", 12, "'mask' is one word too many");
    check_draw("  matrix 1 0 0 1 0", 19, "'matrix' takes sx shy shx sy tx ty, and here are 5");
    check_draw("matrix 1 0 0 1 0 x", 18, "'x' is no number");
    check_draw("linear 1e50 0 0 1", 8, "'1e50' is larger than every float; an infinite one is inf or -inf");
    check_draw("color #1234567", 7, "'#1234567' is no colour: #rrggbbaa or #rrggbb");
    check_draw("color 1 2 3", 12, "here belongs a colour: #rrggbbaa, #rrggbb or four numbers R G B A");
    check_draw("color 1 2 3 4 5", 15, "'5' is one word too many");
    check_draw("color #12345678 4", 17, "'4' is one word too many");
    check_draw("stop", 5, "'stop' takes an offset and a colour");
    check_draw("stop 0", 7, "here belongs a colour: #rrggbbaa, #rrggbb or four numbers R G B A");
    check_draw("scissor 0 0 1 2147483648", 15, "2147483648 is not in -2147483648..2147483647");
    check_draw("radial 0 0 0 0 1", 1, "only a draw with 'paint radial' has 'radial'");
    check_draw("scales 1 1 1 1", 1, "only edition 1 has 'scales', and this is edition 0");
    check_draw("bytes 2032 00", 7, "2032 is not in 0..2031");
}

#[test]
fn paths() {
    check_draw("M 1", 4, "'M' takes 2 coordinates, and here are 1");
    check_draw("M 1 2 3", 7, "'3' is no letter of a segment: one of ZzMmLlHhVvQqCcTtSs");
    check_draw("M 1 2 A 3 4", 7, "'A' is no letter of a segment: one of ZzMmLlHhVvQqCcTtSs");
    check_draw("M 1 2 L 3 32768", 11, "32768 is not in -32768..32767");
    check_draw("H 1.5", 3, "'1.5' is no whole number");
    check_draw("segment 256", 9, "256 is not in 0..255");
    check_draw("ZZ", 1, &format!("'ZZ' is none of {KEYWORDS}, a letter of ZzMmLlHhVvQqCcTtSs, draw"));
}

const KEYWORDS: &str =
    "fill, flags, blend, paint, spread, matrix, color, linear, scissor, radial, stop, scales, biases, segment";

#[test]
fn too_many() {
    let draw = |lines: &str| format!("{HEAD}draw\n{lines}");
    check(&draw(&"Z\n".repeat(140)), 131, 1, "a draw has at most 128 segments");
    check(&draw(&"scissor 0 0 1 1\n".repeat(5)), 7, 1, "a draw has at most 4 scissors");
    check(&draw(&"stop 0 #ffffff\n".repeat(33)), 35, 1, "a draw has at most 32 stops");
    let radial = format!("{}paint radial\nradial 0 0 0 0 1", "stop 0 #ffffff\n".repeat(32));
    check(&draw(&radial), 34, 1, "a radial draw has at most 31 stops");
    let curves = "C 0 0 0 0 0 0\n".repeat(95);
    check(&draw(&curves), 97, 7, "a draw of edition 0 has at most 566 coordinates");
    let edition = format!("edition 1\n{}", draw(&curves));
    check(&edition, 95, 11, "a draw of edition 1 has at most 550 coordinates");
    check(&format!("{HEAD}{}", "draw\n".repeat(70)), 66, 1, "a scene has at most 64 draws");
}

#[test]
fn every_line_has_its_error() {
    let found = errors("size 8 8\nsize 1 1\ndraw\n blend x\n\n M 1\n flags no // comment\n");
    let places: Vec<(usize, usize)> = found.iter().map(|(line, column, _)| (*line, *column)).collect();
    assert_eq!(places, [(2, 1), (4, 8), (6, 5), (7, 8)]);
}

/// A text whose words are right and whose scene the rules refuse: the fault stands where its value does.
#[test]
fn what_the_rules_refuse() {
    let places =
        |text: &str| -> Vec<(usize, usize)> { errors(text).iter().map(|(line, column, _)| (*line, *column)).collect() };
    let refused = |line: &str, column: usize, words: &str| {
        let text = format!("{HEAD}draw\nM 0 0\n{line}\n");
        assert_eq!(places(&text), [(4, column)], "{line}");
        let message = &errors(&text)[0].2;
        assert!(message.ends_with(words), "{message}");
    };
    let scales = "the matrix's sx, shy, shx, sy are finite and at most 256 in size";
    refused("matrix 257 0 0 1 0 0", 8, &format!("the matrix's sx is 257 (bytes 00 80 80 43); {scales}"));
    refused("matrix 1 0 0 1 0 -32769", 18, "the matrix's tx, ty are finite and at most 32768 in size");
    refused("matrix 1 1 1 1 0 0", 8, "a draw with segments has no flat matrix: sx·sy − shx·shy is not 0");
    let blue = "the colour's B is NaN (bytes 00 00 c0 7f); the colour's R, G, B, A are numbers: a NaN is none";
    refused("color 0 0 bits:7fc00000 1", 11, blue);
    refused("linear 0 0 4097 0", 12, "the linear gradient's x0, y0, x1, y1 are finite and at most 4096 in size");
    refused("stop 0 1 1 1 bits:7fc00000", 14, "stop 0's offset, R, G, B, A are numbers: a NaN is none");
    let transformed = "the flag word is 0x0010; flag bit 4, the colour transformation, is for edition 1";
    refused("flags transform", 7, transformed);
    refused("flags bit5 mask", 12, "the flag word is 0x0028; flag bits 5 to 15 are 0");
    let blends = "0x2000 Src, 0x2001 SrcOver, 0x2002 DstOver, 0x2003 SrcIn, 0x2004 DstIn";
    refused("blend 0x2005", 7, &format!("the blend mode is 0x2005; the blend mode is one of {blends}"));
    let arc = "segment 1 is byte 18, absolute small counter-clockwise arc; arcs, bytes 18 to 25, are not drawn";
    refused("segment 18", 9, arc);
    refused("segment 40", 9, "segment 1 is byte 40; a segment byte is 0 to 17; 18 to 25 are arcs, all others nothing");
    let far =
        "segment 2 is byte 5, relative line, with the point (32768, 0); every point of a path, a reflected one too, \
               stays in -32,768 to 32,767";
    refused("M 32767 0 l 1 0", 11, far);
    refused("bytes 11 01", 10, "byte 11 of the draw is 1 (0x01); byte 11 of a draw is zero");
    let scissor = "a byte of the unused scissor 0's x (65536) is 1 (0x01); behind the 0 scissors that are used every byte is zero";
    refused("bytes 68 00 00 01", 16, scissor);
    let coordinate =
        "a byte of the unused coordinate 50 (7) is 7 (0x07); behind the last coordinate that the path takes every \
                      byte is zero";
    refused("bytes 1000 07", 12, coordinate);
    assert_eq!(places("size 8 1025"), [(1, 8)]);
    assert_eq!(places("size 8 8\nedition 2"), [(2, 9)]);
    assert_eq!(places("size 8 8\nbytes 12 01"), [(2, 10)]);
}

#[test]
fn a_second_line_of_a_field() {
    check("size 8 8\ndraw\nblend Src\n blend Src\n", 4, 2, "'blend' stands here a second time");
}
