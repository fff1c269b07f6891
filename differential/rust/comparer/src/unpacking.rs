//! The cases of plane unpacking.

pub mod boundary;
pub mod fixed;
pub mod random;
