//! What the programs that time the library have in common: the inputs, the entries, the samples with their statistics, the tables, and
//! polynomials to compare counts of roots on.

pub mod clock;
pub mod entries;
pub mod inputs;
pub mod polynomials;
pub mod table;

/// The words that an answer has room for.
pub use reference::sheet::LARGEST_CERTIFICATE as ROOM;
