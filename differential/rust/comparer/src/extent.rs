//! How much of a stream a function of pictures reads or writes.

#[derive(Clone, Copy, Debug, PartialEq, Eq)]
pub enum Extent {
    /// What follows the header byte, as the caller has it.
    Body,
    /// The header byte and what follows it.
    Stream,
}

impl Extent {
    /// How many bytes there are before the body.
    pub fn header_len(self) -> usize {
        match self {
            Extent::Body => 0,
            Extent::Stream => 1,
        }
    }
}
