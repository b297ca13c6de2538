//! The comparison Rust (assembled into target/compare/upstream by compare/assemble)
//! with the specification's stand-ins, and what we build around it.

#[path = "../../target/compare/upstream/auto/mod.rs"]
pub mod auto;
#[path = "../../target/compare/upstream/config.rs"]
pub mod config;
#[path = "../../target/compare/upstream/dsp/mod.rs"]
pub mod dsp;
#[path = "../../target/compare/upstream/mix/mod.rs"]
pub mod mix;

pub mod answers;
pub mod audio;
pub mod calls;
pub mod constants;
pub mod decision;
pub mod driver;
pub mod ducker;
pub mod foreign;
pub mod image;
pub mod layout;
pub mod lists;
pub mod mixed;
pub mod numbers;
pub mod random;
pub mod random_images;
pub mod record;
pub mod replay;
pub mod restores;
pub mod selftest;
pub mod signals;
pub mod standins;
pub mod surround;
pub mod surround_images;
pub mod words;
