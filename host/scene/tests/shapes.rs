//! Shapes, texts and canvases: what goes wrong comes back as an error, and what is drawn keeps the rules.

#[allow(dead_code)]
#[path = "../examples/gauge.rs"]
mod gauge;

use wayramesh_scene::canvas::{Canvas, Paint};
use wayramesh_scene::shape::Shape;
use wayramesh_scene::stroke::Line;
use wayramesh_scene::{font, Error, Fault, PaintType};

fn canvas() -> Canvas {
    Canvas::new((64.0, 64.0), 1.0, 0x000000FF)
}

fn filled(shape: Shape) -> Result<usize, Error> {
    let mut canvas = canvas();
    canvas.fill(Shape::new().circle((20.0, 20.0), 10.0), Paint::Color(0xFFFFFFFF));
    canvas.fill(shape, Paint::Color(0xFFFFFFFF));
    canvas.scene().map(|scene| scene.draws.len())
}

#[test]
fn the_example() {
    let scene = gauge::gauge(42.0).expect("a gauge");
    assert_eq!((scene.width, scene.draws.len()), (200, 6));
    assert_eq!((scene.draws[0].paint, scene.draws[5].path.segments.len()), (PaintType::Radial, 3));
    assert_eq!(scene.build().map(|file| file.len()), Ok(512 * 25));
    assert_eq!(gauge::gauge(f64::NAN).map(|_| ()), Err(Error { draw: Some(5), fault: Fault::BadNumber }));
}

/// What cannot be drawn is named with its draw, and nothing panics.
#[test]
fn errors_in_place_of_panics() {
    let second = |fault| Err(Error { draw: Some(1), fault });
    let far = [(1e9, 0.0), (f64::NAN, 1.0), (0.0, f64::INFINITY), (2_048.0, 0.0), (0.0, -2_048.1)];
    for point in far {
        assert_eq!(filled(Shape::new().move_to(point)), second(Fault::BadPoint));
        assert_eq!(filled(Shape::new().line_to(point)), second(Fault::BadPoint));
        assert_eq!(filled(Shape::new().cubic_to((0.0, 0.0), point, (1.0, 1.0))), second(Fault::BadPoint));
        assert_eq!(filled(Shape::new().circle(point, 1.0)), second(Fault::BadPoint));
    }
    assert_eq!(filled(Shape::new().text("8~", (32.0, 32.0), 10.0)), second(Fault::NoLetter('~')));
    assert_eq!(filled(Shape::new().text(&"8".repeat(40), (32.0, 32.0), 10.0)), second(Fault::TooManySegments));
    assert_eq!(filled(Shape::new().arc((0.0, 0.0), 9.0, 0.0, 1e12)), second(Fault::TooManySegments));
    let curves = (0..100).fold(Shape::new(), |shape, _| shape.cubic_to((1.0, 1.0), (2.0, 2.0), (3.0, 3.0)));
    assert_eq!(filled(curves), second(Fault::TooManyCoordinates));
    let error = filled(Shape::new().text("a\nb", (0.0, 0.0), 9.0)).expect_err("a letter");
    assert_eq!(error.to_string(), "draw 1: the font has no '\\n'");
}

/// Shapes without points, and texts without letters, are drawn as nothing.
#[test]
fn empty_shapes() {
    for shape in [
        Shape::new(),
        Shape::new().polygon(&[]),
        Shape::new().border(&[(1.0, 1.0), (2.0, 2.0)], 1.0),
        Shape::new().lines(
            &[Line::Straight(&[]), Line::Open(&[(1.0, 1.0, 0.0)]), Line::Closed(&[])],
            (0.0, 0.0),
            1.0,
            1.0,
        ),
        Shape::new().text("", (5.0, 5.0), 10.0),
    ] {
        assert!(shape.path.segments.is_empty() && shape.fault().is_none());
        assert_eq!(shape.end(), (0.0, 0.0));
        assert_eq!(filled(shape), Ok(2));
    }
    assert_eq!(font::width("", 10.0), 0.0);
}

/// A canvas tells what is wrong with its size, its number of draws, and transformations where there are none.
#[test]
fn canvases() {
    for (size, scale) in
        [((0.0, 9.0), 1.0), ((9.0, 1e9), 1.0), ((f64::NAN, 9.0), 1.0), ((9.0, 9.0), -1.0), ((9.0, 9.0), 1e9)]
    {
        let made = Canvas::new(size, scale, 0).scene().map(|_| ());
        assert_eq!(made, Err(Error { draw: None, fault: Fault::BadSize }));
    }
    let mut many = canvas();
    (0..65).for_each(|_| many.fill(Shape::new(), Paint::Color(0)));
    assert_eq!(many.scene().map(|_| ()), Err(Error { draw: None, fault: Fault::TooManyDraws }));

    let mut night = canvas();
    night.set_transformation(Some([0.5; 8]));
    night.fill(Shape::new(), Paint::Color(0));
    assert_eq!(night.clone().scene().map(|_| ()), Err(Error { draw: Some(0), fault: Fault::BadEdition }));
    night.set_edition(1);
    assert_eq!(night.scene().map(|scene| scene.draws[0].transformed), Ok(true));
}

/// Every letter fits into a draw and keeps the rules; the alphabet has the digits and all capitals.
#[test]
fn the_alphabet() {
    let letters: Vec<char> = font::alphabet().collect();
    for letter in ('0'..='9').chain('A'..='Z') {
        assert!(letters.contains(&letter), "{letter}");
    }
    for (i, letter) in letters.iter().enumerate() {
        assert!(!letters[..i].contains(letter), "{letter} twice");
        let shape = Shape::new().text(&letter.to_string(), (32.0, 32.0), 20.0);
        assert!(shape.fits() && (*letter == ' ') == shape.path.segments.is_empty(), "{letter}");
        assert_eq!(filled(shape), Ok(2));
    }
}
