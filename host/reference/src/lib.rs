//! An independent implementation of the paper, to compare the proved engine with.
//!
//! It was written from the paper and the OpenVG documents alone and shares nothing with the engine. It has the
//! plainest form: each pixel, each of its sixteen samples, each edge. Numbers are whole and wide (`i64`, `i128`);
//! the only floating-point arithmetic is the colour channel's, which the paper defines in `f32`.
//!
//! One module for each idea of the paper, in the order in which a scene meets them.
#![forbid(unsafe_code)]

pub mod answer;
pub mod blend;
pub mod compare;
pub mod coverage;
pub mod explain;
pub mod file;
pub mod number;
pub mod paint;
pub mod path;
pub mod picture;
pub mod plan;
pub mod print;
pub mod radial;
pub mod redraw;
pub mod regions;
pub mod replay;
pub mod rules;
pub mod salvage;
pub mod transform;
pub mod words;

pub use answer::{Answer, Fault, Rectangle};
pub use picture::draw;
pub use redraw::redraw;
pub use regions::redraw_regions;
pub use replay::{replay, Context};
