//! How much stack each C function takes: measured on inputs that go deep, and read from the machine code for all inputs.

mod calls;
mod depth;
mod frames;

use crate::figures::{grouped, print_head, print_row};
use frames::Frames;

/// A return address, or what else is pushed.
const RETURN: usize = 8;

/// The table of the C functions.
pub fn print_stack_table() {
    let frames = Frames::of_library();
    print_head(&["C function", "Stack measured, bytes", "Most by the machine code, bytes"]);
    for (name, measured) in calls::deepest() {
        let most = frames.most(name);
        assert!(measured <= most, "{name} takes {measured} bytes of stack, more than its machine code shows");
        print_row([format!("`{name}`"), grouped(measured), grouped(most)]);
    }
}
