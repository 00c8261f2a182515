//! A reference interpreter of region-checked modules, written from documents 01 and 02 alone.
//! It shares no text and no definition with the proved code, so that an error of either shows
//! as a difference between the two.

pub mod builder;
pub mod calls;
pub mod checker;
pub mod compare;
pub mod corpus;
pub mod damage;
pub mod digest;
pub mod file;
pub mod generator;
pub mod host;
#[cfg(feature = "librcm")]
pub mod library;
pub mod machine;
pub mod module;
#[cfg(feature = "plain")]
pub mod plain;
pub mod prng;
pub mod state;
pub mod state_test;
pub mod tally;
pub mod text;
pub mod tool;
pub mod types;
