//! What the tests and benchmarks share.

// Each test program uses its own part of this module.
#![allow(dead_code, unused_imports)]

pub mod alike;
pub mod case_file;
pub mod compare;
pub mod contents;
pub mod damage;
pub mod draft;
pub mod encode;
pub mod feeding;
pub mod generate;
pub mod library;
pub mod names;
pub mod queue_calls;
pub mod queue_faults;
pub mod queue_inputs;
pub mod random;
pub mod settings;
pub mod sha_calls;
pub mod table_calls;
pub mod tables;
pub mod text;
pub mod turning;
pub mod why_calls;
