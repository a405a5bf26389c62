//! The judge: wraps the Rust original unchanged and says what is right for any fragment file.

pub mod answers;
pub mod bare;
pub mod body;
pub mod check;
pub mod commands;
pub mod compare;
pub mod damage;
pub mod examples;
pub mod extent;
pub mod field;
pub mod folder;
pub mod generate;
pub mod hex;
pub mod known;
#[cfg(feature = "linked")]
pub mod library;
#[cfg(feature = "linked")]
pub mod lister;
#[cfg(feature = "linked")]
pub mod lists;
pub mod masker;
pub mod masks;
pub mod numbers;
pub mod options;
pub mod original;
pub mod pair;
pub mod pairs;
pub mod properties;
pub mod random;
pub mod record;
pub mod scribe;
pub mod scripts;
pub mod selftest;
pub mod shrink;
pub mod strict;
pub mod subject;
#[cfg(feature = "linked")]
pub mod switched;
pub mod tags;
pub mod tree;
pub mod wire;
pub mod words;
pub mod writer;
pub mod wrong;

/// The original, as `build.rs` brought it in.
pub mod print {
    include!(concat!(env!("OUT_DIR"), "/print.rs"));
}
