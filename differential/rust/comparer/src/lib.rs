//! Compares a plane unpacker, a plane packer, picture decoders and picture encoders with IronRDP, byte by byte, on buffers in guarded
//! pages; and both pairs of plane coders, IronRDP's and the library's, with the prefix theorem (FORMAT 9).
//!
//! The domain of a function is the set of its inputs for which IronRDP is the reference. Outside it, where IronRDP has no such checks,
//! docs/FORMAT.md is the reference, which the comments here cite as `FORMAT 8`. README.md lists both.

pub mod arguments;
pub mod bytes;
pub mod case;
pub mod check;
pub mod encoding;
pub mod extent;
pub mod guarded;
pub mod input;
pub mod layout;
pub mod packing;
pub mod picture;
pub mod planes;
pub mod prefix;
pub mod report;
pub mod rng;
pub mod shrink;
pub mod stream;
pub mod strings;
pub mod tally;
pub mod unpacking;

pub use case::{Case, Owned};
pub use check::{Comparer, Difference, Function, Library, Outcome};
pub use extent::Extent;
pub use input::Input;
pub use layout::{Format, Layout};
pub use rng::Rng;
