//! A seeded generator of streams for `replay` and `minute`: realistic and wild tables,
//! and calls that are right and wrong in every way the papers name; and of archives for `convert`.
//! The same seed gives the same bytes on every machine.

pub mod archive;
pub mod commits;
pub mod conversions;
pub mod damage;
pub mod flight;
pub mod lines;
pub mod listings;
pub mod random;
pub mod rates;
pub mod states;
pub mod stories;
pub mod stream;
pub mod wild;

pub use random::Random;
pub use stream::Stream;
