//! The crew cover board of document 01 for Rust programs: the nine calls of its static library over slices, and a
//! [`Board`] over memory that the caller lends. Nothing here allocates, and no user of it writes `unsafe`.
//!
//! ```
//! use board::{Board, Memory, Message};
//!
//! let mut memory = Box::new(Memory::new());
//! let pairs = [(0, 0), (0, 1), (1, 0), (1, 1), (2, 1), (2, 2), (3, 2)];
//! let mut board = Board::build(memory.parts(), 4, 3, &pairs, 10)?;
//! assert!(!board.cover(2, 2)?.has_ride(2));
//! board.message(Message::grant(3, 1, 20))?;
//! assert!(board.cover(2, 2)?.has_ride(2));
//! board.message(Message::operator_off(3, 30))?;
//! assert!(!board.cover(2, 2)?.has_ride(2));
//! # Ok::<(), board::Refusal>(())
//! ```
#![no_std]
#![deny(missing_docs)]

mod answers;
mod calls;
pub mod exported;
mod held;
mod parts;
mod refusal;

pub use answers::Answers;
pub use calls::{build, crowd_cover, crowd_limits, message, messages, own_cover, peel, preview, query};
pub use calls::{Band, Bands, Counts, Head, Limits, Message, Peeled};
pub use calls::{GRANT, OPERATOR_OFF, OPERATOR_ON, RIDE_IN, RIDE_OUT, WITHDRAWAL};
pub use held::{Board, Cover, Presence};
pub use parts::{Clearances, Memory, Parts, Words};
pub use refusal::Refusal;

/// The most operators of a board.
pub const OPERATORS_MOST: u16 = 200;
/// The most rides of a board.
pub const RIDES_MOST: u16 = 60;

/// The largest revision of a message.
pub const REVISION_MOST: u16 = 255;

/// The most bands of a table.
pub const BANDS_MOST: usize = 8;
/// The largest guest count.
pub const GUESTS_MOST: u16 = 20_000;

/// The presence word of an operator who is on, and of a ride that is in. Any other word is off or out.
pub const PRESENT: u16 = 1;

/// The length of each pair array, of the stamps and of the revisions.
pub const fn pair_places(operators: u16, rides: u16) -> usize {
    operators as usize * rides as usize
}

/// The length of the presence stamps, revisions and words, of the marks, and of one row of the index: each operator, then
/// each ride.
pub const fn mark_places(operators: u16, rides: u16) -> usize {
    operators as usize + rides as usize
}

/// The length of the index: rides rows.
pub const fn index_places(operators: u16, rides: u16) -> usize {
    rides as usize * mark_places(operators, rides)
}
