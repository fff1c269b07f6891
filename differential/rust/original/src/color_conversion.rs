//! Stands in for the file of this name, of which the picture decoder uses the struct alone; the rest of the file needs
//! crates that are not available.

pub(crate) struct Rgb {
    pub r: u8,
    pub g: u8,
    pub b: u8,
}
