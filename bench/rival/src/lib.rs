//! The hour log of documents 01 and 02 in unverified, safe Rust: what the library's
//! speed is measured against.
//!
//! Image and store are written once over the trait `Code`, which has two
//! implementations: `Straightforward`, as a good engineer would write it at
//! first, and `Fast`, with everything that was seen to help. All calls give
//! the words of the C interface.
//!
//! It shares no code with the second implementation in tests/second, on
//! purpose: that one is written from document 01 alone, to be read beside it,
//! and knows nothing of speed; a fault in one is not to hide in the other.

pub mod books;
mod code;
mod cursor;
mod fast;
mod fields;
mod header;
pub mod image;
pub mod merge;
pub mod moves;
mod refused;
pub mod repair;
pub mod runs;
mod sound;
pub mod store;
mod straightforward;
mod writer;

pub use code::Code;
pub use fast::Fast;
pub use straightforward::Straightforward;
