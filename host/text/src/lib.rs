//! Scene files as text: [`to_text`] writes any file so that it can be read and compared, [`to_scene`] makes the file
//! again.
//!
//! `docs/TEXT.md` describes the text. A file that the rules accept comes back byte for byte; so does one that they
//! refuse if its length and its checks are right, and [`to_file`] writes it.
#![forbid(unsafe_code)]

mod color;
mod fault;
mod name;
mod number;
mod read;
mod write;

pub use fault::Fault;
pub use read::{to_file, to_scene, Error};
pub use write::{to_text, Text};
