//! Where a full drawing's time goes, seen from outside: the same scene is drawn in versions that stop short of a stage,
//! and a stage's time is the difference of two of them.

use scene::{PaintType, Scene, Scissor};

/// Versions of a scene that take some of the stages.
pub struct Versions {
    /// The scene itself. With no scratch it is refused once all rules have passed: the rules alone.
    pub full: Vec<u8>,
    /// No draws: the background, and the rules of one block.
    pub bare: Vec<u8>,
    /// Every path moved to the right of the surface, where its box is empty: rules, background and edges.
    pub outside: Vec<u8>,
    /// Scissors that hide nothing: all stages, and the scissors' own time.
    pub framed: Vec<u8>,
    /// Scissors that hide all but two opposite corners, and no gradients: every other k is 0, so all but paint and blending, and the scissors' own time.
    /// The corners stay, since a draw is gone through only inside the rectangle round its scissors.
    pub hidden: Vec<u8>,
}

/// Below and left of every surface.
const NOWHERE: Scissor = Scissor { x: -2, y: -2, width: 1, height: 1 };

const EVERYWHERE: Scissor = Scissor { x: 0, y: 0, width: 1_024, height: 1_024 };

impl Versions {
    pub fn of(scene: &Scene) -> Versions {
        let mut bare = scene.clone();
        bare.draws.clear();
        let mut outside = scene.clone();
        for draw in &mut outside.draws {
            draw.matrix[4] += 2.0 * 1_024.0;
        }
        let mut framed = scene.clone();
        let mut hidden = scene.clone();
        for draw in framed.draws.iter_mut().chain(&mut hidden.draws) {
            draw.scissoring = true;
            draw.scissors = vec![NOWHERE; 4];
        }
        for draw in &mut framed.draws {
            draw.scissors[3] = EVERYWHERE;
        }
        let corner = |x: u16, y: u16| Scissor { x: x.into(), y: y.into(), width: 1, height: 1 };
        for draw in &mut hidden.draws {
            draw.paint = PaintType::Color;
            draw.scissors[2] = corner(0, 0);
            draw.scissors[3] = corner(scene.width - 1, scene.height - 1);
        }
        Versions {
            full: scene.bytes(),
            bare: bare.bytes(),
            outside: outside.bytes(),
            framed: framed.bytes(),
            hidden: hidden.bytes(),
        }
    }
}
