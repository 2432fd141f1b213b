//! Pixels in words and colours.

use library::Pixel;

/// R, G, B and A in decimal, the colours premultiplied; behind them a swatch where one is asked for.
pub fn pixel(pixel: Pixel, swatches: bool) -> String {
    let Pixel { r, g, b, a } = pixel;
    let numbers = format!("R {r:3} G {g:3} B {b:3} A {a:3}");
    if swatches {
        format!("{numbers}  {}", swatch(pixel))
    } else {
        numbers
    }
}

/// The pixel over black and over white, as a terminal with 24-bit colours shows it: the same twice where it is opaque.
fn swatch(pixel: Pixel) -> String {
    let Pixel { r, g, b, a } = pixel;
    let over_white = |channel: u8| u16::from(channel) + 255 - u16::from(a);
    format!(
        "\x1b[48;2;{r};{g};{b}m  \x1b[48;2;{};{};{}m  \x1b[0m",
        over_white(r).min(255),
        over_white(g).min(255),
        over_white(b).min(255)
    )
}
