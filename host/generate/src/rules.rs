//! Both sides of every scene rule, and every two faults together, with what the paper's order makes of them.

mod edition;
mod radial;

use scene::path::{CUBIC, HORIZONTAL, LINE, MOVE, QUAD, RELATIVE, SMOOTH_CUBIC, SMOOTH_QUAD, VERTICAL};
use scene::{
    file_offset, first_coordinate, seal, seal_block_from, Draw, PaintType, Path, Scene, Scissor, Stop, BLOCK,
    DRAW_BYTES,
};

use crate::places;

/// A scene file and what the rules make of it.
pub struct Case {
    pub name: String,
    pub bytes: Vec<u8>,
    /// None if the scene is accepted.
    pub fault: Option<Fault>,
}

/// The code, draw and offset in the file of what the rules meet first.
#[derive(Clone, Copy, Debug, PartialEq, Eq)]
pub struct Fault {
    pub code: u32,
    pub draw: u32,
    pub offset: usize,
}

const BAD_CHECKSUM: u32 = 0xB001;
const BAD_LENGTH: u32 = 0xB002;
const ILLEGAL: u32 = 0x1001;
const ARC: u32 = 0x1005;
const NO_DRAW: u32 = 64;

/// The flags that ask for a mask, and for the transformation.
const MASK_BIT: u16 = 3;
const TRANSFORM_BIT: u16 = 4;

/// The draw that the cases of draw rules are about: not the first, so that its number counts.
const DRAW: usize = 1;
/// The draws of the common scene.
const DRAWS: usize = 2;

/// How many coordinates each segment type takes.
const TYPES: [(u8, usize); 9] = [
    (0, 0),
    (MOVE, 2),
    (LINE, 2),
    (HORIZONTAL, 1),
    (VERTICAL, 1),
    (QUAD, 4),
    (CUBIC, 6),
    (SMOOTH_QUAD, 2),
    (SMOOTH_CUBIC, 4),
];

/// sx, shy, shx, sy, and whether they are flat as whole numbers in 1/65,536.
const MATRICES: [([f32; 4], bool); 25] = {
    const STEP: f32 = 1.0 / 65_536.0;
    [
        ([0.0; 4], true),
        ([-0.0, 0.0, 0.0, -0.0], true),
        // A row or a column of zeros.
        ([0.0, 1.0, 0.0, 1.0], true),
        ([1.0, 0.0, 1.0, 0.0], true),
        ([1.0, 1.0, 0.0, 0.0], true),
        ([0.0, 0.0, 1.0, 1.0], true),
        // Proportional rows.
        ([1.0, 2.0, 3.0, 6.0], true),
        ([-1.0, 2.0, 3.0, -6.0], true),
        ([256.0, 256.0, 256.0, 256.0], true),
        ([-256.0, 256.0, 256.0, -256.0], true),
        // Flat by rounding alone.
        ([1.0, 1.0, 1.0, 1.0 + STEP / 4.0], true),
        ([STEP * 0.499, 0.0, 0.0, 1.0], true),
        ([-STEP / 2.0, 0.0, 0.0, 1.0], true),
        ([1e-40, 0.0, 0.0, 256.0], true),
        // By one step not flat.
        ([1.0, 1.0, 1.0, 1.0 + STEP], false),
        ([1.0, 1.0 - STEP, 1.0, 1.0], false),
        ([STEP / 2.0, 0.0, 0.0, 1.0], false),
        ([STEP, 0.0, 0.0, STEP], false),
        // Flat as numbers, and no longer so by rounding.
        ([0.3, 0.6, 0.1, 0.2], false),
        // The sum would be 0, not the difference.
        ([1.0, 1.0, -1.0, 1.0], false),
        ([2.0, 4.0, -2.0, 4.0], false),
        // The largest differences.
        ([256.0, 256.0, -256.0, 256.0], false),
        ([256.0, 256.0, 256.0, -256.0], false),
        // A quarter turn.
        ([0.0, 1.0, -1.0, 0.0], false),
        ([0.0, STEP, STEP, 0.0], false),
    ]
};

/// All cases in an edition, 0 or 1, judged where a mask is lent, or none.
pub fn cases(mask_lent: bool, edition: u16) -> Vec<Case> {
    let mut cases = Cases { mask_lent, edition, list: Vec::new() };
    cases.lengths();
    cases.checks();
    cases.places();
    cases.header();
    cases.numbers();
    cases.counts();
    cases.floats();
    cases.scissors();
    cases.stops();
    cases.radial();
    cases.editions();
    cases.flat_matrices();
    cases.segment_bytes();
    cases.coordinate_counts();
    cases.user_range();
    cases.surface_range();
    cases.unused_path();
    cases.order();
    cases.list
}

/// A scene of two draws that is accepted.
fn common(edition: u16) -> Scene {
    let square = Path::new().rectangle(1, 1, 3, 3);
    let draw = Draw { color: [1.0, 0.5, 0.25, 0.75], path: square, ..Draw::default() };
    let mut scene = Scene { edition, ..Scene::new(5, 4, [10, 20, 30, 255]) };
    scene.draws = vec![draw; DRAWS];
    scene
}

/// The common scene with another draw in the place of the one that is tried.
fn with_draw(edition: u16, draw: Draw) -> Scene {
    let mut scene = common(edition);
    scene.draws[DRAW] = draw;
    scene
}

fn with_path(edition: u16, path: Path) -> Scene {
    with_draw(edition, Draw { path, ..Draw::default() })
}

/// How many coordinates a draw has places for.
fn most_coordinates(edition: u16) -> usize {
    (DRAW_BYTES - first_coordinate(edition)) / 2
}

/// The fault of a block whose check is wrong.
pub fn wrong_check(block: usize) -> Fault {
    let draw = block.checked_sub(1).map_or(NO_DRAW, |before| before as u32 / 4);
    Fault { code: BAD_CHECKSUM, draw, offset: BLOCK * block + 508 }
}

fn in_draw(code: u32, place: usize) -> Option<Fault> {
    Some(Fault { code, draw: DRAW as u32, offset: file_offset(DRAW, place) })
}

fn illegal(place: usize) -> Option<Fault> {
    in_draw(ILLEGAL, place)
}

fn in_no_draw(code: u32, offset: usize) -> Option<Fault> {
    Some(Fault { code, draw: NO_DRAW, offset })
}

/// The fault if the condition fails.
fn unless(holds: bool, fault: Option<Fault>) -> Option<Fault> {
    if holds {
        None
    } else {
        fault
    }
}

fn put_in_draw(bytes: &mut [u8], place: usize, value: &[u8]) {
    let at = file_offset(DRAW, place);
    bytes[at..at + value.len()].copy_from_slice(value);
}

struct Cases {
    mask_lent: bool,
    edition: u16,
    list: Vec<Case>,
}

impl Cases {
    fn add(&mut self, name: impl Into<String>, bytes: Vec<u8>, fault: Option<Fault>) {
        self.list.push(Case { name: name.into(), bytes, fault });
    }

    /// A scene with some bytes of the tried draw replaced and fresh checks.
    fn with_bytes(&mut self, name: String, scene: &Scene, place: usize, value: &[u8], fault: Option<Fault>) {
        let mut bytes = scene.bytes();
        put_in_draw(&mut bytes, place, value);
        seal(&mut bytes);
        self.add(name, bytes, fault);
    }

    fn lengths(&mut self) {
        let bytes = common(self.edition).bytes();
        let right = bytes.len();
        for length in [0, 1, 2, 511, 512, 513, 1_024, right - 2_048, right - 512, right - 1] {
            self.add(format!("first {length} bytes"), bytes[..length].to_vec(), in_no_draw(BAD_LENGTH, 0));
        }
        for more in [0, 1, 511, 512, 2_048] {
            let mut longer = bytes.clone();
            longer.resize(right + more, 0);
            self.add(format!("{more} bytes more"), longer, unless(more == 0, in_no_draw(BAD_LENGTH, 0)));
        }
    }

    fn checks(&mut self) {
        let bytes = common(self.edition).bytes();
        for block in 0..1 + 4 * DRAWS {
            let fault = Some(wrong_check(block));
            for at in [0, 1, 100, 506, 507, 508, 509, 510, 511] {
                let mut spoiled = bytes.clone();
                spoiled[BLOCK * block + at] ^= 1;
                self.add(format!("block {block}, byte {at} with an old check"), spoiled, fault);
            }
            // Equal to the sum modulo 65,521, but not below it.
            for at in [508, 510] {
                let mut spoiled = bytes.clone();
                let stored = &mut spoiled[BLOCK * block + at..][..2];
                let sum = u16::from_le_bytes([stored[0], stored[1]]);
                if let Some(congruent) = sum.checked_add(65_521) {
                    stored.copy_from_slice(&congruent.to_le_bytes());
                    self.add(format!("block {block}, sum at {at} not reduced"), spoiled, fault);
                }
            }
            // The first sum alone would not notice.
            let mut swapped = bytes.clone();
            let payload = &mut swapped[BLOCK * block..][..508];
            payload.swap(0, 2);
            payload.swap(1, 3);
            let same = payload[..4] == bytes[BLOCK * block..][..4];
            self.add(format!("block {block}, two words exchanged"), swapped, unless(same, fault));
        }
    }

    /// Blocks out of their places, and checks whose sums begin at 0: only block 0's does.
    fn places(&mut self) {
        self.list.extend(places::cases(&common(self.edition).bytes()));
        let mut bare = Scene { draws: Vec::new(), ..common(self.edition) }.bytes();
        seal_block_from(&mut bare, 0, 0);
        self.add("no draws, the sums of block 0 from 0", bare, None);
    }

    fn header(&mut self) {
        for at in [0, 2] {
            for side in [0_u16, 1, 2, 1_023, 1_024, 1_025, 2_048, 32_768, 65_535] {
                let mut scene = common(self.edition);
                (scene.width, scene.height) = if at == 0 { (side, 4) } else { (5, side) };
                let fault = unless((1..=1_024).contains(&side), in_no_draw(ILLEGAL, at));
                self.add(format!("side {side} at {at}"), scene.bytes(), fault);
            }
        }
        for draws in [0_usize, 1, 63, 64, 65, 66] {
            let mut scene = common(self.edition);
            scene.draws = vec![Draw::default(); draws];
            self.add(format!("{draws} draws"), scene.bytes(), unless(draws <= 64, in_no_draw(ILLEGAL, 4)));
        }
        for (count, code) in [(1_u16, BAD_LENGTH), (3, BAD_LENGTH), (64, BAD_LENGTH), (65, ILLEGAL), (65_535, ILLEGAL)]
        {
            let mut bytes = common(self.edition).bytes();
            bytes[4..6].copy_from_slice(&count.to_le_bytes());
            seal(&mut bytes);
            let offset = if code == ILLEGAL { 4 } else { 0 };
            self.add(format!("a count of {count} with {DRAWS} draws"), bytes, in_no_draw(code, offset));
        }
        for at in 12..508 {
            let mut bytes = common(self.edition).bytes();
            bytes[at] = 0x80;
            seal(&mut bytes);
            self.add(format!("byte {at} of block 0"), bytes, in_no_draw(ILLEGAL, at));
        }
        for background in [[0, 0, 0, 0], [255, 255, 255, 255], [255, 0, 255, 1]] {
            let scene = Scene { background, ..common(self.edition) };
            self.add(format!("background {background:?}"), scene.bytes(), None);
        }
    }

    /// Flags, blend mode, paint type and spread.
    fn numbers(&mut self) {
        for bit in 0..16 {
            let allowed = bit <= 2 || bit == MASK_BIT && self.mask_lent || bit == TRANSFORM_BIT && self.edition == 1;
            let flags = 1_u16 << bit;
            self.with_bytes(
                format!("flag bit {bit}"),
                &common(self.edition),
                0,
                &flags.to_le_bytes(),
                unless(allowed, illegal(0)),
            );
        }
        let ranges = [(2, 0x2000_u16, 0x2004_u16), (4, 0x1B00, 0x1B02), (6, 0x1C00, 0x1C02)];
        for (place, first, last) in ranges {
            let near = (first - 3..=last + 3).chain([0, 1, 0xFF, first + 0x100, first - 0x100, 0xFFFF]);
            for number in near {
                let fault = unless((first..=last).contains(&number), illegal(place));
                self.with_bytes(
                    format!("{number:04x} at {place}"),
                    &common(self.edition),
                    place,
                    &number.to_le_bytes(),
                    fault,
                );
            }
        }
    }

    fn counts(&mut self) {
        let empty = with_draw(self.edition, Draw::default());
        for (place, most) in [(8, 128_u8), (9, 4), (10, 32), (11, 0)] {
            for count in [0, 1, most.saturating_sub(1), most, most + 1, most + 2, 255] {
                let fault = unless(count <= most, illegal(place));
                self.with_bytes(format!("count {count} at {place}"), &empty, place, &[count], fault);
            }
        }
    }

    /// Matrix, colour and linear points, under every paint type.
    fn floats(&mut self) {
        for paint in PaintType::ALL {
            let empty = with_draw(self.edition, Draw { paint, ..Draw::default() });
            for entry in 0..6 {
                let limit = if entry < 4 { 256.0 } else { 32_768.0 };
                self.finite(&empty, 12 + 4 * entry, limit);
            }
            for point in 0..4 {
                self.finite(&empty, 52 + 4 * point, 4_096.0);
            }
            for channel in 0..4 {
                self.no_nan(&empty, 36 + 4 * channel);
            }
        }
    }

    /// A float that is finite and at most `limit` in size.
    fn finite(&mut self, scene: &Scene, place: usize, limit: f32) {
        let above = f32::from_bits(limit.to_bits() + 1);
        for value in [0.0, -0.0, f32::from_bits(1), limit, -limit] {
            self.with_bytes(format!("{value:e} at {place}"), scene, place, &value.to_le_bytes(), None);
        }
        for value in [above, -above, f32::MAX, f32::MIN, f32::INFINITY, f32::NEG_INFINITY] {
            self.with_bytes(format!("{value:e} at {place}"), scene, place, &value.to_le_bytes(), illegal(place));
        }
        self.nans(scene, place);
    }

    /// A float that may be anything but a NaN.
    fn no_nan(&mut self, scene: &Scene, place: usize) {
        for value in [0.0, -0.0, 2.0, -2.0, f32::MAX, f32::INFINITY, f32::NEG_INFINITY] {
            self.with_bytes(format!("{value:e} at {place}"), scene, place, &value.to_le_bytes(), None);
        }
        self.nans(scene, place);
    }

    fn nans(&mut self, scene: &Scene, place: usize) {
        for bits in [0x7FC0_0000_u32, 0xFFC0_0000, 0x7F80_0001, 0xFF80_0001, 0x7FFF_FFFF] {
            self.with_bytes(format!("NaN {bits:08x} at {place}"), scene, place, &bits.to_le_bytes(), illegal(place));
        }
    }

    fn scissors(&mut self) {
        let any = Scissor { x: i32::MIN, y: i32::MAX, width: -1, height: 7 };
        for count in 0..=4 {
            for scissoring in [false, true] {
                let scene = with_draw(self.edition, Draw { scissors: vec![any; count], scissoring, ..Draw::default() });
                self.add(format!("{count} scissors, {scissoring}"), scene.bytes(), None);
                for place in 68 + 16 * count..132 {
                    self.with_bytes(format!("{count} scissors, byte {place}"), &scene, place, &[0x80], illegal(place));
                }
            }
        }
    }

    fn stops(&mut self) {
        let any = Stop { offset: f32::INFINITY, color: [-1.0, 2.0, f32::NEG_INFINITY, 0.5] };
        for count in [0, 1, 31, 32] {
            let scene = with_draw(self.edition, Draw { stops: vec![any; count], ..Draw::default() });
            self.add(format!("{count} stops"), scene.bytes(), None);
            for place in 132 + 20 * count..772 {
                self.with_bytes(format!("{count} stops, byte {place}"), &scene, place, &[0x80], illegal(place));
            }
            for float in 0..5 * count {
                self.no_nan(&scene, 132 + 4 * float);
            }
        }
    }

    /// Matrices about the flat ones, which are judged on the whole numbers, after the stops and before the path.
    fn flat_matrices(&mut self) {
        for (linear, flat) in MATRICES {
            let [sx, shy, shx, sy] = linear;
            let matrix = [sx, shy, shx, sy, 1.0, 2.0];
            let edition = self.edition;
            let with = |path| with_draw(edition, Draw { matrix, path, ..Draw::default() });
            let fault = unless(!flat, illegal(12));
            self.add(format!("{linear:?}, no segments"), with(Path::new()).bytes(), None);
            self.add(format!("{linear:?}, a lone close"), with(Path::new().close()).bytes(), fault);
            self.add(format!("{linear:?}, a lone move"), with(Path::new().move_to(1, 1)).bytes(), fault);
            let square = with(Path::new().rectangle(1, 1, 3, 3));
            self.add(format!("{linear:?}, a square"), square.bytes(), fault);
            let arc = with(Path::new().segment(18, &[]));
            self.add(format!("{linear:?}, an arc"), arc.bytes(), fault.or(in_draw(ARC, 772)));
            self.with_bytes(format!("{linear:?}, a last byte"), &square, 2_031, &[1], fault.or(illegal(2_031)));
            // Fields come before it.
            self.with_bytes(format!("{linear:?}, an unused stop"), &square, 771, &[1], illegal(771));
            let mut bad_stop = square.clone();
            bad_stop.draws[DRAW].stops = vec![Stop { offset: 0.0, color: [0.0, 0.0, 0.0, f32::NAN] }];
            self.add(format!("{linear:?}, a NaN in a stop"), bad_stop.bytes(), illegal(148));
        }
    }

    fn segment_bytes(&mut self) {
        for byte in 0..=255_u8 {
            let fault = match byte {
                0..=17 => None,
                18..=25 => in_draw(ARC, 772 + 1),
                _ => illegal(772 + 1),
            };
            let scene = with_path(self.edition, Path::new().move_to(0, 0).segment(byte, &[]));
            self.add(format!("segment byte {byte}"), scene.bytes(), fault);
        }
    }

    /// The last coordinate, and the one after it, for each segment type.
    fn coordinate_counts(&mut self) {
        for (byte, count) in TYPES {
            for left in 0..=count {
                // Cubics and horizontal lines leave this many.
                let taken = most_coordinates(self.edition) - left;
                let mut path = Path::new();
                for _ in 0..taken / 6 {
                    path = path.segment(CUBIC, &[]);
                }
                for _ in 0..taken % 6 {
                    path = path.segment(HORIZONTAL, &[]);
                }
                let number = path.segments.len();
                let scene = with_path(self.edition, path.clone().segment(byte, &[]));
                let fault = unless(left == count, illegal(772 + number));
                self.add(format!("segment {byte} with {left} coordinates left"), scene.bytes(), fault);
                let scene = with_path(self.edition, path.segment(18, &[]));
                self.add(format!("arc with {left} coordinates left"), scene.bytes(), in_draw(ARC, 772 + number));
            }
        }
    }

    /// Relative and reflected points at the ends of 16 bits and past them.
    fn user_range(&mut self) {
        for (start, step) in [(i16::MAX, 1), (i16::MIN, -1)] {
            for (byte, count) in TYPES.into_iter().skip(1) {
                for at in 0..count {
                    for out in [false, true] {
                        // A step inwards in every coordinate, and at one of them a step out or none.
                        let mut coordinates = vec![-step; count];
                        coordinates[at] = if out { step } else { 0 };
                        let path = Path::new().move_to(start, start).segment(byte | RELATIVE, &coordinates);
                        let scene = with_path(self.edition, path);
                        let name = format!("segment {byte} from {start}, coordinate {at}, out {out}");
                        self.add(name, scene.bytes(), unless(!out, illegal(772 + 1)));
                    }
                }
            }
            for (byte, count) in [(SMOOTH_QUAD, 2), (SMOOTH_CUBIC, 4)] {
                for vertical in [false, true] {
                    for out in [false, true] {
                        // From the end of the range, or one before it, a control one away is reflected.
                        let end = if out { start } else { start - step };
                        let inner = end - step;
                        let (to, control) = if vertical { ((0, end), (0, inner)) } else { ((end, 0), (inner, 0)) };
                        let path = Path::new().quad_to(control, to).segment(byte, &vec![0; count]);
                        let name = format!("segment {byte} after {end}, vertical {vertical}");
                        self.add(name, with_path(self.edition, path).bytes(), unless(!out, illegal(772 + 1)));
                    }
                }
            }
        }
    }

    /// Points at 2^23 surface units and past them, in each point of each segment type.
    fn surface_range(&mut self) {
        // With an entry of 256, coordinate 128 lies at 2^23, and the halves of a unit are decided by a translation.
        let translations = [(128_i16, [(127, true), (128, false)]), (-128, [(-128, true), (-129, false)])];
        for (far, sides) in translations {
            for (units, allowed) in sides {
                let translation = units as f32 / 65_536.0;
                for (byte, count) in TYPES.into_iter().skip(1) {
                    for at in 0..count {
                        let mut coordinates = vec![0; count];
                        coordinates[at] = far;
                        let path = Path::new().line_to(0, 0).segment(byte, &coordinates);
                        let matrix = [256.0, 0.0, 0.0, 256.0, translation, translation];
                        let scene = with_draw(self.edition, Draw { matrix, path, ..Draw::default() });
                        let name = format!("segment {byte}, coordinate {at} at {far} moved by {units} of 65,536");
                        self.add(name, scene.bytes(), unless(allowed, illegal(772 + 1)));
                    }
                }
                for (byte, count) in [(SMOOTH_QUAD, 2), (SMOOTH_CUBIC, 4)] {
                    // The quad ends at 0, so its control is reflected to the far point.
                    let path = Path::new().quad_to((-far, -far), (0, 0)).segment(byte, &vec![0; count]);
                    let matrix = [256.0, 0.0, 0.0, 256.0, translation, translation];
                    let scene = with_draw(self.edition, Draw { matrix, path, ..Draw::default() });
                    let name = format!("segment {byte} reflected at {far} moved by {units} of 65,536");
                    self.add(name, scene.bytes(), unless(allowed, illegal(772 + 1)));
                }
            }
        }
    }

    /// Every byte past the last segment and past the last coordinate.
    fn unused_path(&mut self) {
        for (count, scene) in [(0, with_path(self.edition, Path::new())), (5, common(self.edition))] {
            for place in 772 + count..900 {
                self.with_bytes(format!("{count} segments, byte {place}"), &scene, place, &[1], illegal(place));
            }
            // A rectangle of five segments takes five coordinates.
            for place in first_coordinate(self.edition) + 2 * count..DRAW_BYTES {
                self.with_bytes(format!("{count} coordinates, byte {place}"), &scene, place, &[1], illegal(place));
            }
        }
    }

    /// Every two of a list of faults in the paper's order: the earlier one is met.
    fn order(&mut self) {
        let faults = ordered_faults(self.mask_lent, self.edition);
        for (i, first) in faults.iter().enumerate() {
            for second in faults[i + 1..].iter().filter(|edit| edit.at != first.at) {
                let mut bytes = scene_for_order(self.edition).bytes();
                for edit in [first, second] {
                    bytes[edit.at..edit.at + edit.value.len()].copy_from_slice(&edit.value);
                }
                seal(&mut bytes);
                for edit in [first, second] {
                    if edit.spoils_check {
                        bytes[edit.fault.offset] ^= 1;
                    }
                }
                self.add(format!("{}, and {}", first.name, second.name), bytes, Some(first.fault));
            }
        }
    }
}

/// A scene with a scissor, a stop and a path in each of two draws, for the faults below.
fn scene_for_order(edition: u16) -> Scene {
    let mut scene = common(edition);
    for draw in &mut scene.draws {
        draw.scissors = vec![Scissor::default()];
        draw.stops = vec![Stop { offset: 0.5, color: [1.0; 4] }];
        draw.path = Path::new().move_to(0, 0).line_to(1, 0).line_to(1, 1).line_to(0, 1);
    }
    scene
}

/// A change of bytes, or of a check, and the fault that it alone makes.
struct Edit {
    name: String,
    at: usize,
    value: Vec<u8>,
    spoils_check: bool,
    fault: Fault,
}

/// Faults in the order in which the rules meet them. That of the flags is a draw that asks for a mask where none is lent, or
/// for a transformation where the edition has none.
fn ordered_faults(mask_lent: bool, edition: u16) -> Vec<Edit> {
    let flags = match (mask_lent, edition) {
        (false, _) => 1 << MASK_BIT,
        (true, 0) => 1 << TRANSFORM_BIT,
        (true, _) => 1 << 7,
    };
    let mut edits = Vec::new();
    let spoil_check = |edits: &mut Vec<Edit>, block: usize| {
        let fault = wrong_check(block);
        let name = format!("check of block {block}");
        edits.push(Edit { name, at: fault.offset, value: vec![], spoils_check: true, fault });
    };
    spoil_check(&mut edits, 0);
    let mut in_header = |at: usize, value: &[u8], code: u32, offset: usize| {
        let fault = Fault { code, draw: NO_DRAW, offset };
        edits.push(Edit { name: format!("block 0 at {at}"), at, value: value.to_vec(), spoils_check: false, fault });
    };
    in_header(0, &[0, 0], ILLEGAL, 0);
    in_header(2, &[1, 4], ILLEGAL, 2);
    // A count that is too large comes with the fields, one that is only wrong after all of them.
    in_header(4, &[65, 0], ILLEGAL, 4);
    in_header(6, &[2], ILLEGAL, 6);
    in_header(12, &[1], ILLEGAL, 12);
    in_header(507, &[1], ILLEGAL, 507);
    in_header(4, &[1, 0], BAD_LENGTH, 0);
    for draw in 0..DRAWS {
        for block in 0..4 {
            spoil_check(&mut edits, 1 + 4 * draw + block);
        }
        let nan = f32::NAN.to_le_bytes();
        let before_path: [(usize, &[u8], u32, usize); 21] = [
            (0, &[flags], ILLEGAL, 0),
            (2, &[5], ILLEGAL, 2),
            (4, &[3], ILLEGAL, 4),
            (6, &[3], ILLEGAL, 6),
            (8, &[129], ILLEGAL, 8),
            (9, &[5], ILLEGAL, 9),
            (10, &[33], ILLEGAL, 10),
            (11, &[1], ILLEGAL, 11),
            (12, &nan, ILLEGAL, 12),
            (28, &nan, ILLEGAL, 28),
            (32, &nan, ILLEGAL, 32),
            (36, &nan, ILLEGAL, 36),
            (48, &nan, ILLEGAL, 48),
            (52, &nan, ILLEGAL, 52),
            (64, &nan, ILLEGAL, 64),
            (84, &[1], ILLEGAL, 84),
            (131, &[1], ILLEGAL, 131),
            (132, &nan, ILLEGAL, 132),
            (148, &nan, ILLEGAL, 148),
            (152, &[1], ILLEGAL, 152),
            (771, &[1], ILLEGAL, 771),
        ];
        let transformation: [(usize, &[u8], u32, usize); 2] = [(900, &nan, ILLEGAL, 900), (928, &nan, ILLEGAL, 928)];
        let path: [(usize, &[u8], u32, usize); 7] = [
            // sy is 0, so the matrix is flat.
            (24, &[0; 4], ILLEGAL, 12),
            (773, &[18], ARC, 773),
            (774, &[26], ILLEGAL, 774),
            (775, &[25], ARC, 775),
            (776, &[1], ILLEGAL, 776),
            (899, &[1], ILLEGAL, 899),
            (2_031, &[1], ILLEGAL, 2_031),
        ];
        let transformation = if edition == 1 { &transformation[..] } else { &[] };
        for (place, value, code, met) in before_path.iter().chain(transformation).chain(&path).copied() {
            let fault = Fault { code, draw: draw as u32, offset: file_offset(draw, met) };
            let name = format!("draw {draw} at {place}");
            let at = file_offset(draw, place);
            edits.push(Edit { name, at, value: value.to_vec(), spoils_check: false, fault });
        }
    }
    edits
}
