//! A verified index for presale codes: a red-black tree over slots in arrays that the caller lends. The work is done by
//! the proved library; this crate only passes arguments and answers on, and its types pay what the library asks of
//! other languages: valid pointers that do not overlap.
#![warn(missing_docs)]

mod answers;
mod index;
mod lines;
pub mod raw;

pub use answers::{Answer, Batched, Code, Entry, Key, Side, Slot};
pub use index::Index;
pub use lines::{code_key, code_part};

/// The most slots of an index.
pub const CAPACITY: usize = 2048;
/// The most bytes of a batch.
pub const BATCH_LIMIT: usize = 16384;
/// The bytes of a command record.
pub const COMMAND_SIZE: usize = 16;
/// The bytes of an answer record.
pub const ANSWER_SIZE: usize = 6;
