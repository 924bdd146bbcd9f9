//! An engine for the models of `bench/streams`, in plain Rust and without a proof: to be timed beside the proved program, with
//! whose trace its own is compared. Its notes of plans have the lines of the program's, and bounds of its own order. Bodies are trees that are walked, a node a call; numbers have 64 bits; a loop that copies a
//! row or sums one is done at once. It checks no text: what it can't read stops it.
//!
//!     rustc --edition 2021 -O bench/engine/main.rs -o bench/out/engine
//!     bench/out/engine STOP < MODEL                                       STOP with its unit
//!
//! Built with `--cfg unchecked` it doesn't ask whether a list has the element that is asked for, and bodies of sums alone are
//! not walked.

#![cfg_attr(not(unchecked), forbid(unsafe_code))]

mod bodies;
mod events;
mod expressions;
mod joining;
mod notes;
mod numbers;
mod planning;
mod reading;
mod running;
mod straight;
mod writing;

use std::io::Read;

fn main() {
    let stop = numbers::time_of(&std::env::args().nth(1).expect("engine STOP < MODEL"));
    let mut text = String::new();
    std::io::stdin().read_to_string(&mut text).unwrap();
    let mut engine = reading::read(&text).engine();
    for number in 0..engine.clusters.len() {
        engine.plan(number);
    }
    engine.run(stop);
}
