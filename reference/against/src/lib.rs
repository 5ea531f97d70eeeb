//! The proved hub and the independent program, side by side: both take the same steps on lent bytes.
//!
//! - `archive`: the proved hub's functions, as safe ones;
//! - `header`: the figures of include/hub.h;
//! - `side`: a step, a call of a settings function, and the two sides that can run them.

pub mod archive;
pub mod header;
pub mod side;
