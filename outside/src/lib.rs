//! Document 01, as the requests of document 02 that have landed change it, in plain safe Rust: the box, the harvester and the
//! span text.
//!
//! Written from the documents alone, without a look at the proved crates' rules (names of codes apart), so that a
//! difference between the two says that one of them misread it. It is also the peer that the benchmarks time: iterators
//! over exact chunks, state behind `&mut self`, nothing copied that can be borrowed.

pub mod boundary;
pub mod capture;
pub mod code;
pub mod head;
pub mod item;
pub mod message;
pub mod onair;
pub mod packet;
#[cfg(proved)]
pub mod proved;
pub mod random;
pub mod rate;
pub mod reader;
pub mod reply;
pub mod span;
pub mod station;
pub mod talk;
pub mod timing;
pub mod tuning;
pub mod wish;

pub use code::Code;
pub use head::Head;
pub use packet::Form;
pub use reader::Reader;
pub use reply::Reply;
pub use station::Station;
pub use wish::Wish;
