//! A page on the local machine that shows a scene file: its picture, its draws with boxes and edges, why each pixel has its
//! colour, what is redrawn between two scenes, and of a refused file the place of its fault.
//!
//! - [`model`]: what is inspected, and what can be asked of it. Pictures, areas, lines, refusals and salvaged scenes are
//!   the proved library's; boxes, edges and names are read from the file with the reference.
//! - [`facts`]: the answers as [`json`].
//! - [`pages`]: which path has which answer; the static page itself.
//! - [`request`] and [`server`]: requests of bounded size, answered on 127.0.0.1 alone.
#![forbid(unsafe_code)]
#![warn(missing_docs)]

pub mod facts;
pub mod json;
pub mod model;
pub mod pages;
pub mod request;
pub mod server;
