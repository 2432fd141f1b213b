//! What a call returns: the codes, the answer, and the fault that the scene rules met first.

pub const ACCEPTED: u32 = 0;
/// A block's check is wrong.
pub const BAD_CHECKSUM: u32 = 0xB001;
/// The scene's length is not the one its block 0 asks for.
pub const BAD_LENGTH: u32 = 0xB002;
/// A field, float, segment or coordinate breaks a rule, or a redraw's two sizes differ.
pub const ILLEGAL_ARGUMENT: u32 = 0x1001;
/// The scratch has too few numbers.
pub const OUT_OF_MEMORY: u32 = 0x1002;
/// The surface is not 4 * width * height bytes, or a lent mask not width * height.
pub const UNSUPPORTED_IMAGE_FORMAT: u32 = 0x1004;
/// A segment is an arc.
pub const UNSUPPORTED_PATH_FORMAT: u32 = 0x1005;

/// The draw number of what is in no draw.
pub const NO_DRAW: u32 = 64;
/// The scene number of an accepted call, of a single scene, of a redraw's old scene, of surface, mask and scratch.
pub const FIRST_SCENE: u32 = 0;
/// The scene number of a redraw's new scene.
pub const NEW_SCENE: u32 = 1;

/// Pixels x to x + width - 1 and y to y + height - 1.
#[derive(Clone, Copy, Debug, Default, PartialEq, Eq)]
pub struct Rectangle {
    pub x: u32,
    pub y: u32,
    pub width: u32,
    pub height: u32,
}

/// The seven numbers of an answer.
#[derive(Clone, Copy, Debug, PartialEq, Eq)]
pub struct Answer {
    pub code: u32,
    pub draw: u32,
    pub scene: u32,
    pub x: u32,
    pub y: u32,
    pub width: u32,
    pub height: u32,
}

impl Answer {
    pub fn accepted(damage: Rectangle) -> Answer {
        Answer {
            code: ACCEPTED,
            draw: NO_DRAW,
            scene: FIRST_SCENE,
            x: damage.x,
            y: damage.y,
            width: damage.width,
            height: damage.height,
        }
    }

    pub fn refused(code: u32, draw: u32, scene: u32) -> Answer {
        Answer { code, draw, scene, x: 0, y: 0, width: 0, height: 0 }
    }
}

/// What the scene rules met first: its code, its draw, and its offset in the file.
#[derive(Clone, Copy, Debug, PartialEq, Eq)]
pub struct Fault {
    pub code: u32,
    pub draw: u32,
    pub offset: usize,
}

impl Fault {
    /// The answer of a call that was given this fault's scene as number `scene`.
    pub fn answer(&self, scene: u32) -> Answer {
        Answer::refused(self.code, self.draw, scene)
    }
}
