//! The editions: their numbers, and the colour transformation of edition 1, which stands behind the segments and is judged
//! behind the stops.

use scene::{seal, Draw, Path, Scene, Stop};

use super::{common, illegal, in_no_draw, put_in_draw, unless, with_draw, Cases, DRAW, ILLEGAL};

/// The place of the transformation, and how many values it has.
const TRANSFORM: usize = 900;
const VALUES: usize = 8;

impl Cases {
    pub(super) fn editions(&mut self) {
        self.edition_numbers();
        if self.edition == 1 {
            self.transformations();
            self.transformation_order();
        } else {
            self.coordinates_like_floats();
        }
    }

    /// In a scene without draws, and in one whose draws do not count once the number is refused.
    fn edition_numbers(&mut self) {
        for number in [0_u16, 1, 2, 3, 16, 255, 256, 257, 0x8000, 0xFFFF] {
            let fault = unless(number <= 1, in_no_draw(ILLEGAL, 6));
            let scene = Scene { edition: number, draws: Vec::new(), ..common(0) };
            self.add(format!("edition {number}, no draws"), scene.bytes(), fault);
            if number > 1 {
                let mut bytes = common(self.edition).bytes();
                bytes[6..8].copy_from_slice(&number.to_le_bytes());
                seal(&mut bytes);
                self.add(format!("edition {number}"), bytes, fault);
            }
        }
    }

    /// Every value may be anything but a NaN, on or off.
    fn transformations(&mut self) {
        for transformed in [false, true] {
            let scene = with_draw(1, Draw { transformed, ..common(1).draws.swap_remove(DRAW) });
            for value in 0..VALUES {
                self.no_nan(&scene, TRANSFORM + 4 * value);
            }
        }
    }

    /// A NaN comes after the stops, whatever their values, and before a flat matrix, the segments and what is unused.
    fn transformation_order(&mut self) {
        let stop = Stop { offset: 0.5, color: [1.0; 4] };
        let scene = with_draw(1, Draw { stops: vec![stop], path: Path::new().line_to(1, 1), ..Draw::default() });
        let nan = f32::NAN.to_le_bytes();
        let faults: [(&str, usize, &[u8], usize); 9] = [
            ("stop", 132, &nan, 132),
            ("unused stop", 152, &[1], 152),
            ("first scale", 900, &nan, 900),
            ("last scale", 912, &nan, 912),
            ("first bias", 916, &nan, 916),
            ("last bias", 928, &nan, 928),
            ("flat matrix", 12, &[0; 4], 12),
            ("segment", 772, &[26], 772),
            ("unused coordinate", 936, &[1], 936),
        ];
        for (i, first) in faults.iter().enumerate() {
            for second in &faults[i + 1..] {
                let mut bytes = scene.bytes();
                for (_, place, value, _) in [first, second] {
                    put_in_draw(&mut bytes, *place, value);
                }
                seal(&mut bytes);
                self.add(format!("edition 1: {}, and {}", first.0, second.0), bytes, illegal(first.3));
            }
        }
    }

    /// In edition 0 the same bytes are coordinates, which may look like a NaN.
    fn coordinates_like_floats(&mut self) {
        let nan = f32::NAN.to_bits();
        let like_nan = [nan as i16, (nan >> 16) as i16];
        let path = (0..8).fold(Path::new(), |path, _| path.line_to(like_nan[0], like_nan[1]));
        let matrix = [1.0 / 256.0, 0.0, 0.0, 1.0 / 256.0, 0.0, 0.0];
        self.add("edition 0: NaN as coordinates", with_draw(0, Draw { matrix, path, ..Draw::default() }).bytes(), None);
    }
}
