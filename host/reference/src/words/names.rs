//! Names of codes and of the numbers in a scene file.

/// A code, by OpenVG's name for it or ours.
pub fn code(code: u32) -> &'static str {
    match code {
        0xB001 => "bad checksum",
        0xB002 => "bad length",
        0x1001 => "illegal argument",
        0x1004 => "unsupported image format",
        0x1005 => "unsupported path format",
        _ => "unknown code",
    }
}

pub const BLENDS: [&str; 5] = ["Src", "SrcOver", "DstOver", "SrcIn", "DstIn"];
pub const PAINTS: [&str; 3] = ["colour", "linear gradient", "radial gradient"];
pub const SPREADS: [&str; 3] = ["pad", "repeat", "reflect"];

/// The name of a number that counts from `first` on, if it has one.
pub fn of(names: &[&'static str], first: u16, number: u16) -> Option<&'static str> {
    names.get(usize::from(number.checked_sub(first)?)).copied()
}

/// What a segment byte is, if it is a command or an arc.
pub fn segment(byte: u8) -> Option<String> {
    const COMMANDS: [&str; 13] = [
        "close",
        "move",
        "line",
        "horizontal line",
        "vertical line",
        "quad",
        "cubic",
        "smooth quad",
        "smooth cubic",
        "small counter-clockwise arc",
        "small clockwise arc",
        "large counter-clockwise arc",
        "large clockwise arc",
    ];
    let command = COMMANDS.get(usize::from(byte / 2))?;
    Some(match (byte, byte % 2) {
        (0 | 1, _) => (*command).to_string(),
        (_, 0) => format!("absolute {command}"),
        _ => format!("relative {command}"),
    })
}
