//! The example does what it says.

#[allow(dead_code)]
#[path = "../examples/drive.rs"]
mod drive;

use wayramesh::{Area, Surface};

#[test]
fn a_bar_that_grows() {
    let mut surface = Surface::new(128, 32).expect("a size");
    let areas = drive::drive(&mut surface).expect("frames");
    let whole = Area { x: 0, y: 0, width: 128, height: 32 };
    let bar = |width| Area { x: 4, y: 8, width, height: 17 };
    assert_eq!(areas, [whole, bar(37), bar(41), Area::default(), bar(87)]);
    assert_eq!(surface.pixel(89, 10), Some([51, 230, 128, 255]));
    assert_eq!(surface.pixel(90, 10), Some([51, 51, 64, 255]));
    let image = drive::pam(&surface);
    assert!(image.starts_with(b"P7\nWIDTH 128\n") && image.ends_with(surface.rows_from_top().last().expect("a row")));
}
