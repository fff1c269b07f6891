//! The cases of plane packing.

pub mod boundary;
pub mod fixed;
pub mod places;
pub mod random;
pub mod rooms;
