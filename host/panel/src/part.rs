//! The parts of the panel, by how they are dimmed at night.

use scene::canvas::Canvas;

/// The edition of scenes by day, and the one that has transformations.
pub const DAY: u16 = 0;
pub const NIGHT: u16 = 1;

/// What is dimmed alike at night.
#[derive(Clone, Copy, Debug, PartialEq, Eq)]
pub enum Part {
    /// What only holds the instruments.
    Housing,
    /// Marks, figures, words and needles.
    Print,
    /// What tells by its colour: lamps and bars.
    Lamp,
    /// Doorways and leaves, large and bright by day.
    Door,
}

impl Part {
    /// What is filled on a canvas from here on is of this part.
    pub fn begin(self, canvas: &mut Canvas) {
        if canvas.edition() == NIGHT {
            canvas.set_transformation(Some(self.at_night()));
        }
    }

    /// What is left of red, green and blue at night, as a transformation.
    fn at_night(self) -> [f32; 8] {
        let [r, g, b] = match self {
            Part::Housing => [0.34, 0.3, 0.3],
            Part::Print => [0.88, 0.48, 0.3],
            Part::Lamp => [0.8, 0.7, 0.7],
            Part::Door => [0.66, 0.46, 0.34],
        };
        [r, g, b, 1.0, 0.0, 0.0, 0.0, 0.0]
    }
}
