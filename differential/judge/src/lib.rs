//! The original Rust as the judge: its answers to encodings given as plain numbers, the inputs
//! that the port is tried with, and the list of both.

pub mod answer;
pub mod bench;
pub mod conformance;
pub mod encoding;
pub mod examples;
pub mod inputs;
pub mod jobs;
pub mod leaves;
pub mod list;
pub mod profiles;
pub mod progress;
pub mod reader;
pub mod segments;
pub mod typed;
