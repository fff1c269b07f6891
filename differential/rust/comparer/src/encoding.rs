//! The cases of picture packing.

pub mod blocks;
pub mod case;
pub mod check;
pub mod examples;
pub mod fixed;
pub mod given;
pub mod layouts;
pub mod random;
pub mod refused;
pub mod round_trip;

pub use case::{Channel, Encoding, OwnedEncoding, Sources};
