#![doc = include_str!("../README.md")]
#![deny(missing_docs, unsafe_code, rustdoc::broken_intra_doc_links)]
#![warn(missing_debug_implementations)]

mod builder;
pub mod bytes;
mod engine;
mod error;
mod escape;
mod iterators;
mod pattern;
mod pool;
mod race;
mod replacer;
mod sets;
mod string;
mod sys;
mod unicode;

pub use error::Error;
pub use escape::escape;
pub use string::*;
