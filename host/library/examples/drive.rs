//! A bar that grows from frame to frame: each is drawn by redrawing what changes. The last one is written as a PAM image.
//!
//!     cargo run --offline -p wayramesh --example drive drive.pam
//!     cargo run --offline --bin picture-to-png drive.png < drive.pam

use std::error::Error;
use std::io::Write;
use std::{env, fs};

use wayramesh::{Area, Surface};
use wayramesh_scene::{Draw, Path, Scene};

const WIDTH: u16 = 128;
const HEIGHT: u16 = 32;

/// A frame with the bar's end at a column.
fn frame(end: i16) -> Result<Vec<u8>, wayramesh_scene::Error> {
    let mut scene = Scene::new(WIDTH, HEIGHT, [10, 12, 16, 255]);
    let bar = |x0, x1, color| Draw { color, path: Path::new().rectangle(x0, 8, x1, 24), ..Draw::default() };
    scene.draws.push(bar(4, 124, [0.2, 0.2, 0.25, 1.0]));
    scene.draws.push(bar(4, end, [0.2, 0.9, 0.5, 1.0]));
    scene.build()
}

/// Shows the frames one after the other; what was drawn of each.
pub fn drive(surface: &mut Surface) -> Result<Vec<Area>, Box<dyn Error>> {
    [20, 40, 44, 44, 90].iter().map(|&end| Ok(surface.show(&frame(end)?)?)).collect()
}

/// The surface as a PAM image; it is opaque, so its colours are as images have them.
pub fn pam(surface: &Surface) -> Vec<u8> {
    let (width, height) = (surface.width(), surface.height());
    let mut image = Vec::new();
    write!(image, "P7\nWIDTH {width}\nHEIGHT {height}\nDEPTH 4\nMAXVAL 255\nTUPLTYPE RGB_ALPHA\nENDHDR\n")
        .expect("memory");
    surface.rows_from_top().for_each(|row| image.extend_from_slice(row));
    image
}

fn main() -> Result<(), Box<dyn Error>> {
    let target = env::args().nth(1).ok_or("usage: drive IMAGE")?;
    let mut surface = Surface::new(WIDTH.into(), HEIGHT.into())?;
    for area in drive(&mut surface)? {
        println!("x {}, y {}, width {}, height {}", area.x, area.y, area.width, area.height);
    }
    Ok(fs::write(target, pam(&surface))?)
}
