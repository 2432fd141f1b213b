//! Radial draws: the count, the five values, the focal point, and the stops from the second place on.

use scene::{Draw, PaintType, Path, Scene, Stop};

use super::{common, illegal, unless, with_draw, Cases};

/// A radial draw without a path, so that only its fields count.
fn radial(radial: [f32; 5], stops: Vec<Stop>) -> Draw {
    Draw { paint: PaintType::Radial, radial, stops, ..Draw::default() }
}

fn with_values(edition: u16, values: [f32; 5]) -> Scene {
    with_draw(edition, radial(values, Vec::new()))
}

impl Cases {
    pub(super) fn radial(&mut self) {
        self.radial_counts();
        self.radial_values();
        self.focal_points();
        self.radial_stops();
        self.radial_order();
    }

    /// One stop fewer than other paints have.
    fn radial_counts(&mut self) {
        for count in [0, 1, 30, 31, 32, 33, 255] {
            let fault = unless(count <= 31, illegal(10));
            self.with_bytes(format!("radial count {count}"), &with_values(self.edition, [0.0; 5]), 10, &[count], fault);
        }
    }

    /// The limit, judged on the floats.
    fn radial_values(&mut self) {
        // Without a circle the focal point may be anywhere, and at the centre any radius is allowed.
        for entry in 0..5 {
            self.finite(&with_values(self.edition, [0.0; 5]), 132 + 4 * entry, 1_024.0);
        }
        for [x, y] in [[1_024.0, 1_024.0], [-1_024.0, 1_024.0], [-1_024.0, -1_024.0]] {
            self.add(format!("centre at {x} {y}"), with_values(self.edition, [x, y, x, y, 1_024.0]).bytes(), None);
        }
        // In a draw of another paint the same bytes are a stop.
        for paint in [PaintType::Color, PaintType::Linear] {
            let stop = Stop { offset: 2_000.0, color: [0.0, 2_000.0, 0.0, 1.0] };
            let scene = with_draw(self.edition, Draw { paint, stops: vec![stop], ..Draw::default() });
            self.add(format!("a stop under {paint:?} as a radial draw would not have it"), scene.bytes(), None);
        }
    }

    /// On the circle and outside it, judged on the whole numbers, where the radius is above 0.
    fn focal_points(&mut self) {
        let unit = 1.0 / 16.0;
        let cases = [
            ([0.0, 0.0, 2.0 - unit, 0.0, 2.0], true),
            ([0.0, 0.0, 2.0, 0.0, 2.0], false),
            ([0.0, 0.0, 2.0 + unit, 0.0, 2.0], false),
            ([0.0, 0.0, -2.0, 0.0, 2.0], false),
            ([0.0, 0.0, 0.0, 2.0, 2.0], false),
            ([0.0, 0.0, 0.0, -2.0, 2.0], false),
            // A circle through 3, 4.
            ([7.0, 9.0, 10.0, 13.0, 5.0], false),
            ([7.0, 9.0, 10.0, 13.0, 5.0 + unit], true),
            ([7.0, 9.0, 10.0, 13.0 - unit, 5.0], true),
            ([7.0, 9.0, 10.0 + unit, 13.0, 5.0], false),
            // Outside as given and inside as whole numbers, and the other way round.
            ([0.0, 0.0, 31.49 * unit, 0.0, 31.5 * unit - 0.001], false),
            ([0.0, 0.0, 31.49 * unit, 0.0, 31.5 * unit], true),
            ([0.0, 0.0, 31.5 * unit, 0.0, 32.4 * unit], false),
            ([0.4 * unit, 0.0, 32.4 * unit, 0.0, 32.0 * unit], false),
            ([0.5 * unit, 0.0, 32.4 * unit, 0.0, 32.0 * unit], true),
            // The radius is 1 by rounding, or 0.
            ([0.0, 0.0, 0.0, 0.0, 0.5 * unit], true),
            ([0.0, 0.0, unit, 0.0, 0.5 * unit], false),
            ([0.0, 0.0, unit, 0.0, 0.49 * unit], true),
            ([0.0, 0.0, 900.0, 0.0, 0.0], true),
            ([0.0, 0.0, 900.0, 0.0, -0.0], true),
            ([0.0, 0.0, 900.0, 0.0, -1_024.0], true),
            ([-1_024.0, -1_024.0, 1_024.0, 1_024.0, 1_024.0], false),
        ];
        for (values, allowed) in cases {
            let fault = unless(allowed, illegal(132));
            self.add(format!("radial {values:?}"), with_values(self.edition, values).bytes(), fault);
            let colored = with_draw(self.edition, Draw { paint: PaintType::Color, ..radial(values, Vec::new()) });
            self.add(format!("colour {values:?}"), colored.bytes(), None);
        }
    }

    /// The first place is never unused, and the stops begin at the second.
    fn radial_stops(&mut self) {
        let any = Stop { offset: f32::INFINITY, color: [-1.0, 2.0, f32::NEG_INFINITY, 0.5] };
        for count in [0, 1, 30, 31] {
            let scene = with_draw(self.edition, radial([2.0, 3.0, 2.5, 3.5, 4.0], vec![any; count]));
            self.add(format!("radial, {count} stops"), scene.bytes(), None);
            for place in 152 + 20 * count..772 {
                self.with_bytes(format!("radial, {count} stops, byte {place}"), &scene, place, &[0x80], illegal(place));
            }
            for float in 0..5 * count {
                self.no_nan(&scene, 152 + 4 * float);
            }
        }
    }

    /// Every two of the faults of a radial draw in their order: the earlier one is met.
    fn radial_order(&mut self) {
        let mut scene = common(self.edition);
        scene.draws[super::DRAW] = Draw {
            path: Path::new().line_to(1, 1),
            ..radial([0.0, 0.0, 1.0, 0.0, 2.0], vec![Stop { offset: 0.5, color: [1.0; 4] }])
        };
        let nan = f32::NAN.to_le_bytes();
        let far = 1_024.0_f32.to_le_bytes();
        let faults: [(&str, usize, &[u8], usize); 12] = [
            ("count", 10, &[32], 10),
            ("zero", 11, &[1], 11),
            ("linear point", 64, &nan, 64),
            ("scissor", 131, &[1], 131),
            ("cx", 132, &nan, 132),
            ("cy", 136, &nan, 136),
            ("fx", 140, &nan, 140),
            ("fy", 144, &nan, 144),
            ("r", 148, &nan, 148),
            ("focal point", 144, &far, 132),
            ("stop", 152, &nan, 152),
            ("unused stop", 172, &[1], 172),
        ];
        for (i, first) in faults.iter().enumerate() {
            let segment = ("segment", 772, &[26_u8] as &[u8], 772);
            for second in faults[i + 1..].iter().chain([&segment]).filter(|second| second.1 != first.1) {
                let mut bytes = scene.bytes();
                for (_, place, value, _) in [first, second] {
                    super::put_in_draw(&mut bytes, *place, value);
                }
                scene::seal(&mut bytes);
                self.add(format!("radial {}, and {}", first.0, second.0), bytes, illegal(first.3));
            }
        }
    }
}
