//! What cannot be held is told by line, column, element and name.

use wayramesh_svg::{convert, Options, Problem};

fn problems(document: &str) -> Vec<Problem> {
    convert(document.as_bytes(), &Options::default()).unwrap_or_else(|problem| panic!("{problem}")).problems
}

/// The only problem of an element on the third line of a document.
fn check(element: &str, message: &str) {
    let document = format!("<svg width='40' height='40'>\n<g>\n  {element}\n</g></svg>");
    let told: Vec<String> = problems(&document).iter().map(Problem::to_string).collect();
    assert_eq!(told, [format!("3:3: {message}")], "{element}");
}

#[test]
fn elements() {
    check("<text id='a'>1</text>", "text 'a': text cannot be held");
    check("<image/>", "image: image cannot be held");
    check("<use href='#a'/>", "use: use cannot be held");
    check("<svg/>", "svg: svg cannot be held");
    check("<foreignObject/>", "foreignObject: foreignObject cannot be held");
    check("<style>rect{fill:red}</style>", "style: style sheets cannot be held: only style attributes");
    let told = problems("<svg width='9' height='9'><circle r='5'><title/>\n<animate/></circle></svg>");
    assert_eq!(told.len(), 1);
    assert_eq!(told[0].to_string(), "2:1: animate: animate within circle cannot be held");
}

#[test]
fn elements_without_a_picture_are_passed_over() {
    let document = "<svg width='9' height='9' xmlns='http://www.w3.org/2000/svg' xmlns:i='urn:x'><title>a</title><desc/><metadata/><defs>\
                    <text/><pattern id='p'/></defs><i:namedview/><style/><line x2='9'/><g display='none'><text/></g></svg>";
    assert_eq!(problems(document), []);
}

#[test]
fn properties() {
    let rect = |attributes: &str| format!("<rect id='a' width='9' height='9' {attributes}/>");
    check(&rect("stroke='red'"), "rect 'a': stroke cannot be held: make a path of it in the editor");
    check("<line x2='9' style='stroke:red'/>", "line: stroke cannot be held: make a path of it in the editor");
    check(&rect("filter='url(#b)'"), "rect 'a': filter 'url(#b)' cannot be held");
    check(&rect("style='mask:url(#b)'"), "rect 'a': mask 'url(#b)' cannot be held");
    check(&rect("style='mix-blend-mode:multiply'"), "rect 'a': mix-blend-mode 'multiply' cannot be held");
    check(&rect("style='transform:scale(2)'"), "rect 'a': transform 'scale(2)' cannot be held");
    check(&rect("marker-end='url(#m)'"), "rect 'a': marker-end 'url(#m)' cannot be held");
    check(&rect("transform='turn(2)'"), "rect 'a': transform 'turn(2)' cannot be read");
    check(&rect("fill='hsl(1,2,3)'"), "rect 'a': fill: 'hsl(1,2,3)' is no colour that is known");
    check(&rect("fill-rule='both'"), "rect 'a': fill-rule 'both' is not known");
    check(&rect("opacity='x'"), "rect 'a': opacity: 'x' is no length that is known");
    check(&rect("fill-opacity='x'"), "rect 'a': fill-opacity: 'x' is no length that is known");
    check(&rect("fill='url(#b)'"), "rect 'a': fill 'url(#b)' refers to nothing");
    check(
        &rect("clip-path='url(#b)'"),
        "rect 'a': clip-path 'url(#b)' cannot be held: it is no clipPath of this document",
    );
    for nothing in [
        "stroke='none'",
        "stroke='red' stroke-width='0'",
        "filter='none'",
        "style='stroke:red;stroke-opacity:0'",
        "stroke='red' visibility='hidden'",
    ] {
        assert_eq!(problems(&format!("<svg width='9' height='9'>{}</svg>", rect(nothing))), [], "{nothing}");
    }
}

#[test]
fn shapes() {
    check(
        "<path d='M0 0A5 5 0 0 1 9 9'/>",
        "path: arc, segment 1 of the path, cannot be held: make curves of it in the editor",
    );
    check("<path d='M0 0L'/>", "path: path data cannot be read in segment 1, at ''");
    check("<rect width='1em' height='2'/>", "rect: width: '1em' is no length that is known");
    check("<rect width='-1' height='2'/>", "rect: width or height is below 0");
    check("<circle r='-1'/>", "circle: a radius is below 0");
    check("<polygon points='1 2 3'/>", "polygon: points are 3 numbers, which is odd");
    check("<polygon points='1 2 x'/>", "polygon: points '1 2 x' are not all numbers");
    check("<rect width='40000' height='2'/>", "rect: a point at pixel (40000, 0), further off than 32000 pixels");
    let zigzag = format!("<path d='M0 0{}'/>", "L1 2 3 5".repeat(64));
    check(&zigzag, "path: 129 segments; a draw holds 128");
    let curves = format!("<path d='M0 0{}'/>", "C1 2 3 5 4 1 C1 1 2 3 0 0".repeat(48));
    check(&curves, "path: 578 coordinates; a draw holds 566");
}

/// A gradient or clip path on the second line, and a rectangle that uses it on the third.
fn check_used(definition: &str, usage: &str, message: &str) {
    let document = format!("<svg width='40' height='40'>\n{definition}\n<rect width='20' height='10' {usage}/></svg>");
    let told: Vec<String> = problems(&document).iter().map(Problem::to_string).collect();
    assert_eq!(told, [format!("3:1: rect: {message}")], "{definition}");
}

#[test]
fn gradients() {
    let stops = "<stop/><stop offset='1' stop-color='red'/>";
    let check = |attributes: &str, message: &str| {
        let name = attributes.split(' ').next().expect("a name");
        let label = format!("{name} 'a'");
        check_used(
            &format!("<{attributes} id='a'>{stops}</{name}>"),
            "fill='url(#a)'",
            &message.replace("LABEL", &label),
        );
    };
    check("pattern", "LABEL as a fill cannot be held");
    check("radialGradient", "LABEL: an ellipse or a slanted circle cannot be held, only a circle");
    let circle = "radialGradient gradientUnits='userSpaceOnUse' cx='10' cy='5' r='5'";
    check(&format!("{circle} fr='1'"), "LABEL: a focal circle, fr, cannot be held");
    check(&format!("{circle} fx='15'"), "LABEL: the focal point is not within the circle");
    check(
        &format!("{circle} gradientTransform='scale(300)'"),
        "LABEL: a point or radius of 3000.0 pixels; at most 1024 are held",
    );
    check("radialGradient r='-1'", "LABEL: r is below 0");
    check("linearGradient gradientTransform='x'", "LABEL: transform 'x' cannot be read");
    check("linearGradient x2='900'", "LABEL: a point or radius of 18000.0 pixels; at most 4096 are held");
    check("linearGradient spreadMethod='x'", "LABEL: spreadMethod 'x' is not known");
    check("linearGradient gradientUnits='x'", "LABEL: gradientUnits 'x' are not known");
    check("linearGradient href='#b'", "LABEL refers to '#b', which is not there");
    check("linearGradient href='#a'", "LABEL refers to itself");
    let many = "<stop/>".repeat(33);
    check_used(
        &format!("<linearGradient id='a'>{many}</linearGradient>"),
        "fill='url(#a)'",
        "linearGradient 'a': 33 stops; a draw holds 32 of this paint",
    );
}

#[test]
fn clip_paths() {
    let check = |content: &str, message: &str| {
        check_used(&format!("<clipPath id='a'>{content}</clipPath>"), "clip-path='url(#a)'", message);
    };
    check("<circle r='9'/>", "clip path: circle: cannot be held: only rect clips");
    check("<rect width='9' height='9' rx='1'/>", "clip path: rect: round corners cannot be held");
    let turned = "<rect width='9' height='9' transform='rotate(30)'/>";
    check(turned, "clip path: rect: a turned or slanted rectangle cannot be held");
    check("<rect width='9.5' height='9'/>", "clip path: rect: an edge at pixel 9.500; only whole pixels are held");
    check(&"<rect width='9' height='9'/>".repeat(5), "5 clip rectangles; a draw holds 4");
    check_used(
        "<g><clipPath id='b'><rect width='1' height='1'/></clipPath><clipPath id='a' clip-path='url(#b)'/></g>",
        "clip-path='url(#a)'",
        "clipPath 'a': a clip path of a clip path cannot be held",
    );
}

#[test]
fn groups() {
    let two = "<circle r='9'/><circle r='8'/>";
    check(
        &format!("<g opacity='.5'>{two}</g>"),
        "g: opacity of a group with 2 shapes cannot be held: only of a single shape",
    );
    assert_eq!(
        problems(&format!(
            "<svg width='9' height='9'><g opacity='0'>{two}</g><g opacity='.5'><g>{}</g></g></svg>",
            &two[..15]
        )),
        []
    );
}

#[test]
fn draws() {
    let document =
        format!("<svg width='9' height='9'>{}\n<circle id='last' r='1'/></svg>", "<circle r='9'/>".repeat(64));
    let told = problems(&document);
    assert_eq!(told.len(), 1);
    assert_eq!(told[0].to_string(), "2:1: circle 'last': a draw too many: a scene holds 64");
}

#[test]
fn documents_without_a_scene() {
    let told = |document: &str| convert(document.as_bytes(), &Options::default()).expect_err(document).to_string();
    assert_eq!(told("<html/>"), "1:1: html: the document is no SVG");
    assert_eq!(told("<svg>"), "1:1: svg: is not closed");
    assert_eq!(
        told("\n<svg width='2000' height='1'/>"),
        "2:1: svg: the picture is 2000 pixels wide or high; a scene has 1 to 1,024: give --size"
    );
    assert_eq!(told("<svg width='9'/>"), "1:1: svg: height is not given, and there is no viewBox: give --size");
    assert_eq!(told("<svg viewBox='0 0 9'/>"), "1:1: svg: viewBox '0 0 9' is not four numbers, the last two above 0");
}
