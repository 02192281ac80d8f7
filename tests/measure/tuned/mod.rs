//! The same walk, bounds, reader, writer and display normal as a Rust programmer would tune them.
//! What the library is timed against.

mod bounds;
mod display;
mod p4;
mod walk;

pub use bounds::{firm_stack, firm_wedge, known_lean};
pub use display::display;
pub use p4::{read_p4, write_p4};
pub use walk::{
    check_stack, check_wedge, pick_stack, pick_wedge, touch_stack, touch_wedge, walk_stack,
    walk_wedge,
};
