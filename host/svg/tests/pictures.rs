//! What SVG shapes draw, against scenes that are built by hand.

use scene::path::{CUBIC, LINE, MOVE, QUAD, RELATIVE, SMOOTH_CUBIC, SMOOTH_QUAD};
use scene::{Draw, FillRule, PaintType, Path, Scene, Scissor, Spread, Stop};
use wayramesh_svg::{convert, Options};

const WIDTH: u16 = 40;
const HEIGHT: u16 = 32;
const WHITE: [f32; 4] = [1.0; 4];
const RED: [f32; 4] = [1.0, 0.0, 0.0, 1.0];
const BLUE: [f32; 4] = [0.0, 0.0, 1.0, 1.0];

/// The scene of elements in a document of 40 by 32 pixels, all of which is held.
fn scene_of(elements: &str) -> Scene {
    let document =
        format!("<svg xmlns='http://www.w3.org/2000/svg' width='{WIDTH}' height='{HEIGHT}'>{elements}</svg>");
    let converted = convert(document.as_bytes(), &Options::default()).unwrap_or_else(|problem| panic!("{problem}"));
    assert_eq!(converted.problems, [], "{elements}");
    converted.scene
}

fn picture(scene: &Scene) -> String {
    reference::print::drawing(&scene.bytes(), None)
}

/// The elements draw what the draws do.
fn check(elements: &str, draws: Vec<Draw>) {
    let expected = Scene { draws, ..Scene::new(WIDTH, HEIGHT, [0; 4]) };
    let (found, wanted) = (picture(&scene_of(elements)), picture(&expected));
    let is_drawn = wanted.split_whitespace().skip(2).any(|pixel| pixel != "00000000");
    assert!(wanted.starts_with("40 32\n") && is_drawn, "{wanted}");
    assert!(found == wanted, "{elements}\n{found}\n{wanted}");
}

/// A path in pixels with row 0 at the top, as SVG has it, in white.
fn white(path: Path) -> Draw {
    Draw { path, ..in_rows(1.0, WHITE) }
}

/// An empty path in parts of a pixel, row 0 at the top.
fn in_rows(step: f32, color: [f32; 4]) -> Draw {
    let matrix = [step, 0.0, 0.0, -step, 0.0, f32::from(HEIGHT)];
    Draw { fill_rule: FillRule::NonZero, matrix, color, ..Draw::default() }
}

#[test]
fn shapes_with_straight_sides() {
    let rectangle = Path::new().rectangle(3, 4, 20, 15);
    check("<rect x='3' y='4' width='17' height='11' fill='white'/>", vec![white(rectangle.clone())]);
    check("<path d='M3 4H20V15H3Z' fill='#fff'/>", vec![white(rectangle)]);
    let triangle = Path::new().polygon(&[(1, 1), (30, 7), (11, 29)]);
    check("<polygon points='1,1 30,7 11,29' fill='white'/>", vec![white(triangle.clone())]);
    check("<polyline points='1 1 30 7 11 29' style='fill:white'/>", vec![white(triangle)]);
}

/// A quarter circle's controls in 256ths, for a radius in pixels.
fn round(radius: i16) -> i16 {
    (256.0 * 0.552_284_749_831 * f64::from(radius)).round() as i16
}

#[test]
fn circles_and_ellipses_are_four_curves() {
    let ellipse = |x: i16, y: i16, rx: i16, ry: i16| {
        let (kx, ky) = (round(rx), round(ry));
        let (x, y, rx, ry) = (256 * x, 256 * y, 256 * rx, 256 * ry);
        let path = Path::new()
            .move_to(x + rx, y)
            .cubic_to((x + rx, y + ky), (x + kx, y + ry), (x, y + ry))
            .cubic_to((x - kx, y + ry), (x - rx, y + ky), (x - rx, y))
            .cubic_to((x - rx, y - ky), (x - kx, y - ry), (x, y - ry))
            .cubic_to((x + kx, y - ry), (x + rx, y - ky), (x + rx, y));
        Draw { path, ..in_rows(1.0 / 256.0, WHITE) }
    };
    check("<circle cx='20' cy='16' r='11' fill='white'/>", vec![ellipse(20, 16, 11, 11)]);
    check("<ellipse cx='18' cy='14' rx='13' ry='7' fill='white'/>", vec![ellipse(18, 14, 13, 7)]);
}

#[test]
fn rectangles_with_round_corners() {
    let (k, x, y, right, bottom, r) = (round(4), 512, 768, 256 * 30, 256 * 20, 1_024);
    let path = Path::new()
        .move_to(x + r, y)
        .line_to(right - r, y)
        .cubic_to((right - r + k, y), (right, y + r - k), (right, y + r))
        .line_to(right, bottom - r)
        .cubic_to((right, bottom - r + k), (right - r + k, bottom), (right - r, bottom))
        .line_to(x + r, bottom)
        .cubic_to((x + r - k, bottom), (x, bottom - r + k), (x, bottom - r))
        .line_to(x, y + r)
        .cubic_to((x, y + r - k), (x + r - k, y), (x + r, y));
    let draw = Draw { path, ..in_rows(1.0 / 256.0, WHITE) };
    check("<rect x='2' y='3' width='28' height='17' rx='4' fill='white'/>", vec![draw]);
    // Radii are cut to half of the sides: this is an ellipse.
    let cut = picture(&scene_of("<rect x='2' y='4' width='28' height='16' rx='90' ry='90'/>"));
    assert_eq!(cut, picture(&scene_of("<ellipse cx='16' cy='12' rx='14' ry='8'/>")));
}

#[test]
fn every_letter_of_a_path() {
    let path = Path::new()
        .segment(MOVE, &[2, 2])
        .segment(LINE | RELATIVE, &[6, 1])
        .horizontal_to(20)
        .segment(QUAD | RELATIVE, &[4, 6, 8, 0])
        .segment(SMOOTH_QUAD | RELATIVE, &[8, 3])
        .vertical_to(20)
        .segment(CUBIC | RELATIVE, &[-4, 9, -8, 9, -12, 0])
        .segment(SMOOTH_CUBIC, &[12, 6, 6, 28])
        .close()
        .segment(LINE | RELATIVE, &[3, 9])
        .segment(MOVE | RELATIVE, &[-4, 15])
        .segment(LINE, &[9, 30])
        .segment(LINE | RELATIVE, &[-7, 0]);
    let data = "M2 2 l6 1 H20 q4 6 8 0 t8 3 V20 c-4 9-8 9-12 0 S12 6 6 28 Z l3 9 m-4 15 L9 30 l-7 0";
    check(&format!("<path fill='white' d='{data}'/>"), vec![white(path)]);
}

#[test]
fn groups_with_transforms() {
    let elements = "<g transform='translate(20 4) scale(2,-1)'><g transform='rotate(90)'><rect x='-9' y='-5' width='6' height='9' \
                    fill='white' transform='translate(1,0)'/></g></g>";
    // The rectangle (-8, -5)..(-2, 4) turned is (-4, -8)..(5, -2), then twice as wide, mirrored and moved.
    check(elements, vec![white(Path::new().rectangle(12, 6, 30, 12))]);
    let matrix = [0.8, 0.6, -0.6, 0.8, 16.0, 2.0_f32];
    let turned = Draw {
        path: Path::new().rectangle(0, 0, 15, 10),
        matrix: [matrix[0], -matrix[1], matrix[2], -matrix[3], matrix[4], f32::from(HEIGHT) - matrix[5]],
        ..in_rows(1.0, WHITE)
    };
    check("<rect width='15' height='10' fill='white' transform='matrix(.8 .6 -.6 .8 16 2)'/>", vec![turned]);
}

#[test]
fn colours_and_opacity() {
    let path = Path::new().rectangle(0, 0, 40, 32);
    let drawn = |color| vec![Draw { path: path.clone(), color, ..in_rows(1.0, WHITE) }];
    let rectangle = "<rect width='40' height='32'";
    check(&format!("{rectangle} fill='rgb(0,0,255)'/>"), drawn(BLUE));
    check(&format!("<g color='red' fill='currentColor'>{rectangle}/></g>"), drawn(RED));
    check(&format!("{rectangle} style='fill:#ff000080;fill-opacity:.5'/>"), drawn([1.0, 0.0, 0.0, 64.0 / 255.0]));
    check(&format!("<g opacity='50%'>{rectangle} fill='white' opacity='.6'/></g>"), drawn([1.0, 1.0, 1.0, 0.3]));
    check(&format!("{rectangle}/>"), drawn([0.0, 0.0, 0.0, 1.0]));
    for unseen in ["fill='none'", "display='none'", "visibility='hidden'"] {
        assert_eq!(scene_of(&format!("{rectangle} {unseen}/>")).draws.len(), 0, "{unseen}");
    }
    // A lamp that is off stays a draw.
    assert_eq!(scene_of(&format!("{rectangle} opacity='0'/>")).draws.len(), 1);
}

#[test]
fn fill_rules() {
    let star = [(20, 1), (30, 30), (3, 12), (37, 12), (10, 30)];
    let points: Vec<String> = star.iter().map(|(x, y)| format!("{x},{y}")).collect();
    for (name, rule) in [("nonzero", FillRule::NonZero), ("evenodd", FillRule::EvenOdd)] {
        let draw = Draw { fill_rule: rule, ..white(Path::new().polygon(&star)) };
        check(&format!("<polygon points='{}' fill='white' fill-rule='{name}'/>", points.join(" ")), vec![draw]);
    }
}

fn stops() -> Vec<Stop> {
    let stop = |offset, color| Stop { offset, color };
    vec![stop(0.0, RED), stop(0.25, WHITE), stop(1.0, BLUE)]
}

const STOPS: &str = "<stop offset='0' stop-color='red'/><stop offset='25%' style='stop-color:white'/><stop offset='1' stop-color='blue'/>";

#[test]
fn linear_gradients() {
    let filled = |linear, spread| {
        let path = Path::new().rectangle(4, 4, 36, 28);
        vec![Draw { path, paint: PaintType::Linear, linear, spread, stops: stops(), ..in_rows(1.0, [0.0; 4]) }]
    };
    let check = |attributes: &str, draws| {
        let gradient = format!("<defs><linearGradient id='a' {attributes}>{STOPS}</linearGradient></defs>");
        check(&format!("{gradient}<rect x='4' y='4' width='32' height='24' fill='url(#a)'/>"), draws);
    };
    check("", filled([4.0, 28.0, 36.0, 28.0], Spread::Pad));
    check("x2='0' y2='1'", filled([4.0, 28.0, 4.0, 4.0], Spread::Pad));
    let units = "gradientUnits='userSpaceOnUse' x1='10' y1='8' x2='22' y2='16'";
    check(&format!("{units} spreadMethod='repeat'"), filled([10.0, 24.0, 22.0, 16.0], Spread::Repeat));
    let turned =
        "gradientUnits='userSpaceOnUse' x2='10' gradientTransform='translate(8 8) rotate(90)' spreadMethod='reflect'";
    check(turned, filled([8.0, 24.0, 8.0, 14.0], Spread::Reflect));
    // Slanted, lines of one colour go down to the right: the offset is (x - y) / 20 there.
    let slanted = "gradientUnits='userSpaceOnUse' x2='20' gradientTransform='skewX(45)'";
    check(slanted, filled([0.0, 32.0, 10.0, 42.0], Spread::Pad));
}

#[test]
fn a_gradient_takes_stops_and_attributes_from_another() {
    let defs = format!(
        "<linearGradient id='a' spreadMethod='repeat' x2='2'>{STOPS}</linearGradient><linearGradient id='b' x2='.5' xlink:href='#a'/>\
         <linearGradient id='c' href='#b'/>"
    );
    let scene = scene_of(&format!("{defs}<rect width='40' height='32' fill='url(#c)'/>"));
    let draw = &scene.draws[0];
    assert_eq!((draw.linear, draw.spread, draw.stops.len()), ([0.0, 32.0, 20.0, 32.0], Spread::Repeat, 3));
}

#[test]
fn radial_gradients() {
    let filled = |radial| {
        let path = Path::new().rectangle(4, 4, 28, 28);
        vec![Draw { path, paint: PaintType::Radial, radial, stops: stops(), ..in_rows(1.0, [0.0; 4]) }]
    };
    let check = |attributes: &str, draws| {
        let gradient = format!("<defs><radialGradient id='a' {attributes}>{STOPS}</radialGradient></defs>");
        check(&format!("{gradient}<rect x='4' y='4' width='24' height='24' fill='url(#a)'/>"), draws);
    };
    check("", filled([16.0, 16.0, 16.0, 16.0, 12.0]));
    check("fx='.25' fy='.5'", filled([16.0, 16.0, 10.0, 16.0, 12.0]));
    let units = "gradientUnits='userSpaceOnUse' cx='4' cy='5' r='3' fx='5' fy='4' gradientTransform='translate(2 4) scale(2) rotate(180 4 4)'";
    check(units, filled([10.0, 22.0, 8.0, 20.0, 6.0]));
}

#[test]
fn gradients_that_are_colours() {
    let one = scene_of("<linearGradient id='a'><stop stop-color='red' stop-opacity='.5'/></linearGradient><rect width='9' height='9' fill='url(#a)'/>");
    assert_eq!((one.draws[0].paint, one.draws[0].color), (PaintType::Color, [1.0, 0.0, 0.0, 0.5]));
    for collapsed in ["linearGradient id='a' x2='0'", "radialGradient id='a' r='0'"] {
        let name = &collapsed[..14];
        let scene = scene_of(&format!("<{collapsed}>{STOPS}</{name}><rect width='9' height='9' fill='url(#a)'/>"));
        assert_eq!((scene.draws[0].paint, scene.draws[0].color), (PaintType::Color, BLUE), "{collapsed}");
    }
    let none = scene_of("<linearGradient id='a'/><rect width='9' height='9' fill='url(#a)'/>");
    assert_eq!(none.draws.len(), 0);
    let fallback =
        scene_of("<rect width='9' height='9' fill='url(#b) blue'/><rect width='9' height='9' fill='url(#b) none'/>");
    assert_eq!((fallback.draws.len(), fallback.draws[0].color), (1, BLUE));
}

#[test]
fn clip_rectangles_are_scissors() {
    let defs = "<clipPath id='a'><rect x='2' y='3' width='10' height='8'/><rect x='20' y='1' width='5' height='30'/></clipPath>\
                <clipPath id='b'><rect x='4' y='-9' width='18' height='16' transform='translate(1 1)'/></clipPath>";
    let rectangle = "<rect width='40' height='32' fill='white'/>";
    let scissor = |x, y, width, height| Scissor { x, y, width, height };
    let filled = |scissors| vec![Draw { scissoring: true, scissors, ..white(Path::new().rectangle(0, 0, 40, 32)) }];
    let one = format!("{defs}<g clip-path='url(#a)'>{rectangle}</g>");
    check(&one, filled(vec![scissor(2, 21, 10, 8), scissor(20, 1, 5, 30)]));
    let both = format!("{defs}<g clip-path='url(#a)'><g style='clip-path:url(#b)'>{rectangle}</g></g>");
    check(&both, filled(vec![scissor(5, 24, 7, 5), scissor(20, 24, 3, 7)]));
    let moved = format!("{defs}<g clip-path='url(#b)' transform='translate(3 4)'><rect x='-3' y='-4' width='40' height='32' fill='white'/></g>");
    check(&moved, filled(vec![scissor(8, 20, 18, 16)]));
    let half = "<clipPath id='c' clipPathUnits='objectBoundingBox'><rect width='.5' height='.25'/></clipPath>";
    let share = format!("{half}<rect width='40' height='32' fill='white' clip-path='url(#c)'/>");
    check(&share, filled(vec![scissor(0, 24, 20, 8)]));
    let empty = scene_of(&format!("<clipPath id='d'/><g clip-path='url(#d)'>{rectangle}</g>"));
    assert_eq!((empty.draws[0].scissoring, empty.draws[0].scissors.len()), (true, 0));
}

#[test]
fn sizes_and_backgrounds() {
    let document = b"<svg viewBox='0 0 20 16'><rect width='10' height='8' fill='white'/></svg>";
    let options = Options { size: Some((WIDTH, HEIGHT)), background: [1, 2, 3, 255] };
    let scene = convert(document, &options).expect("a scene").scene;
    let expected =
        Scene { draws: vec![white(Path::new().rectangle(0, 0, 20, 16))], ..Scene::new(WIDTH, HEIGHT, [1, 2, 3, 255]) };
    assert_eq!(picture(&scene), picture(&expected));
}
