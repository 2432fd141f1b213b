//! Says whether the second of two scene files is the first with its draws rearranged so that the picture stays the same.

use order::{judge, Verdict};
use reference::rules::{self, Scene};

const HELP: &str = "\
usage: rearranged SCENE SCENE

Says whether the second scene is the first with its draws rearranged, every two draws whose boxes share a pixel in
their order. Both are then drawn to the same bytes, under one mask or none: the first scene's inspection holds for the
second.

A draw's box is every pixel from floor of the least X / 256 to floor of the greatest, and so for Y, over all ends of
its edges, cut to the surface; scissors, paint, fill rule and mask do not count. Draws are matched by their bytes, equal
ones in order. Both scenes must pass the scene rules; a mask counts as lent. A file named - is standard input.

It prints one of these, and ends with
  0  rearranged: ..        then `draw I went to J` for each draw that moved, or `no draw moved`
  1  order changed: ..     two draws whose boxes share a pixel, and whose order changed, with their new numbers
     no rearrangement: ..  another size, number of draws, edition, background, or a draw that the first does not have
  2  on standard error     a file that cannot be read, or `refused`, its code and draw number, or wrong arguments
";

fn main() {
    let arguments = tool::arguments(HELP);
    let [first, second] = match &arguments[..] {
        [first, second] => [first, second].map(|name| read(name)),
        _ => tool::usage(HELP),
    };
    let verdict = judge(&first, &second);
    tool::write("-", verdict.to_string().as_bytes());
    if !matches!(verdict, Verdict::Rearranged { .. }) {
        std::process::exit(1);
    }
}

/// An accepted scene. A refused one is a failure here, as 1 says something of two accepted ones.
fn read(name: &str) -> Scene {
    rules::scene(&tool::read(name), true)
        .unwrap_or_else(|fault| tool::fail(&format!("{name}: refused {:04x} {}", fault.code, fault.draw)))
}
