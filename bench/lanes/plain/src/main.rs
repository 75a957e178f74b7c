//! Does what the measured program does for the same word, in plain Rust, and prints the same lines:
//! of each part `part name times nanoseconds`, and of each checksum `checksum name value`.
//!
//!     plain rings    times messages through one lane and through four
//!     plain epoch    times epochs of delegated operations, from the first to the epoch's end

mod epoch;
mod lanes;
mod line;
#[path = "../../../runtime/plain/src/marks.rs"]
mod marks;
mod rings;
mod store;

use std::time::Instant;

/// Prints how long a part took that did something `times` times.
fn part(name: &str, times: u32, start: Instant) {
    println!("part {name} {times} {}", start.elapsed().as_nanos());
}

fn main() {
    match std::env::args().nth(1).as_deref() {
        Some("rings") => rings::measure(),
        Some("epoch") => epoch::measure(),
        _ => panic!("no such part"),
    }
}
