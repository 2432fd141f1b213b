//! Scene files from the part of SVG that the format can hold; the rest is told by line, element and name.
//!
//! `docs/SVG.md` says what is held, and how.
#![forbid(unsafe_code)]

mod affine;
mod clip;
mod color;
mod convert;
mod ids;
mod length;
mod outline;
mod page;
mod paint;
mod path_data;
mod places;
mod problem;
mod scanner;
mod shape;
mod style;
mod xml;

pub use convert::{convert, Converted, Options};
pub use problem::{Position, Problem};
