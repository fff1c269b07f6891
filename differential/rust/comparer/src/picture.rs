//! The cases of picture unpacking.

pub mod case;
pub mod check;
pub mod colours;
pub mod examples;
pub mod fixed;
pub mod pixels;
pub mod planes;
pub mod random;
pub mod refused;
pub mod sizes;

pub use case::{Form, OwnedPicture, Picture};
pub use planes::Planes;
pub use sizes::Sizes;
