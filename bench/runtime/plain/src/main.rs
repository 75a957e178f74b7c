//! Does what the measured program does, in plain Rust, and prints the same lines: of each part
//! `part name times nanoseconds`, and of each checksum `checksum name value`.

mod checks;
mod counts;
mod delegation;
mod marks;

use std::time::Instant;

/// Prints how long a part took that did something `times` times.
fn part(name: &str, times: u32, start: Instant) {
    println!("part {name} {times} {}", start.elapsed().as_nanos());
}

fn main() {
    checks::measure();
    delegation::measure();
    counts::measure();
}
