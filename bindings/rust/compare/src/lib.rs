//! Narephon's exported calls held to `model` on random inputs, and what the comparison and the benchmark share.

pub mod calls;
pub mod compared;
pub mod desk_calls;
pub mod desk_jobs;
pub mod desks;
pub mod fault_jobs;
pub mod jobs;
pub mod layer_jobs;
pub mod layers;
pub mod lent;
pub mod move_jobs;
pub mod pictures;
pub mod random;
pub mod screen_jobs;
pub mod screens;
pub mod seen;
pub mod seen_desks;
mod seen_layers;
pub mod seen_traces;
pub mod states;
pub mod timing;
pub mod trace_calls;
pub mod trace_jobs;
pub mod traces;

use std::io::Write;

/// Prints from a passing test too, which `println!` does not.
pub fn say(text: &str) {
    let mut out = std::io::stdout().lock();
    writeln!(out, "{text}").expect("standard output is open");
}
