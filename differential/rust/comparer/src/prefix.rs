//! The prefix theorem (FORMAT 9): what unpacking the first bytes of a packing gives.

pub mod case;
pub mod check;
pub mod fixed;
pub mod model;
pub mod random;

pub use case::PrefixCase;
pub use check::{Plane, Prefix};
pub use model::Model;
