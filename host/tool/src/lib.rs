//! What the programs of this folder have in common: `--help`, `-` for standard input or output, and exit statuses.
//!
//! A program ends with 0 if it did what it was asked, with [`REFUSED`] if it was given a scene, or the text of one, that is
//! refused, and with [`FAILED`] if it was called in a wrong way or a file could not be read or written. What went wrong is said
//! on standard error.
#![forbid(unsafe_code)]
#![warn(missing_docs)]

use std::io::{self, Read, Write};
use std::{env, fs, process};

/// The exit status of a program whose scene is refused.
pub const REFUSED: i32 = 1;
/// The exit status of a program that could not read or write a file, or was called in a wrong way.
pub const FAILED: i32 = 2;

/// The arguments. With `--help` among them the help is printed and the program ends.
pub fn arguments(help: &str) -> Vec<String> {
    let arguments: Vec<String> = env::args_os().skip(1).map(|word| word.to_string_lossy().into_owned()).collect();
    if arguments.iter().any(|argument| argument == "--help" || argument == "-h") {
        write("-", help.as_bytes());
        process::exit(0);
    }
    arguments
}

/// Ends the program, which was called in a wrong way: the first line of its help is said.
pub fn usage(help: &str) -> ! {
    fail(help.lines().next().unwrap_or_default())
}

/// Ends the program, which failed.
pub fn fail(message: &str) -> ! {
    eprintln!("{message}");
    process::exit(FAILED);
}

/// Ends the program, whose scene is refused.
pub fn refuse(message: &str) -> ! {
    eprintln!("{message}");
    process::exit(REFUSED);
}

/// The bytes of a file, or of standard input where it is named `-`.
pub fn read(name: &str) -> Vec<u8> {
    let read = || match name {
        "-" => {
            let mut bytes = Vec::new();
            io::stdin().lock().read_to_end(&mut bytes).map(|_| bytes)
        }
        _ => fs::read(name),
    };
    read().unwrap_or_else(|error| fail(&format!("{}: {error}", shown(name, "standard input"))))
}

/// The text of a file, or of standard input where it is named `-`.
pub fn read_text(name: &str) -> String {
    String::from_utf8(read(name))
        .unwrap_or_else(|_| fail(&format!("{}: this is not text", shown(name, "standard input"))))
}

/// Writes a file, or to standard output where it is named `-`. A reader that goes away early is no fault.
pub fn write(name: &str, bytes: &[u8]) {
    let written = match name {
        "-" => io::stdout().write_all(bytes).and_then(|()| io::stdout().flush()),
        _ => fs::write(name, bytes),
    };
    match written {
        Err(error) if error.kind() != io::ErrorKind::BrokenPipe => {
            fail(&format!("{}: {error}", shown(name, "standard output")))
        }
        _ => {}
    }
}

fn shown<'a>(name: &'a str, standard: &'a str) -> &'a str {
    if name == "-" {
        standard
    } else {
        name
    }
}
