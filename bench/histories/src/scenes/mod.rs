//! The scenes, one by one. Each returns what it counted, as comments of a history.
pub mod board;
pub mod race;
pub mod removers;
pub mod reuse;
