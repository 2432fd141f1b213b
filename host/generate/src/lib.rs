//! Scenes for tests, the same in every run.
//!
//! - [`scenes`]: random scenes that the rules mostly accept, and pairs of them for a redraw.
//! - [`damage`]: random scenes spoiled in a few bytes, with their checks made fresh or not.
//! - [`masks`]: random masks for them.
//! - [`orders`]: scenes of small draws, and their draws in another order.
//! - [`places`]: blocks of a sound file out of place.
//! - [`proposals`]: rectangles proposed for a redraw, good and bad.
//! - [`rules`]: both sides of every rule, with the answer that the paper gives.
//! - [`transforms`]: random colour transformations for scenes of edition 1.
//! - [`steps`]: calls of the blending step alone, on any bytes.
#![forbid(unsafe_code)]

pub mod damage;
pub mod masks;
pub mod orders;
pub mod paths;
pub mod places;
pub mod proposals;
pub mod radial;
pub mod random;
pub mod rules;
pub mod scenes;
pub mod steps;
pub mod transforms;

pub use random::Random;
