//! An addition to one of many numbers in a `Vec`, with nothing that is checked or totalled: without
//! a log, and with one that is as large as that of a runtime.

use std::time::Instant;

use crate::part;

const OBJECTS: u32 = 65_536;
const DELEGATIONS: u32 = 1_000_000;
// Odd, so that its multiples reach each of the objects before any comes again.
const STRIDE: u32 = 40_503;

/// As large as what a runtime logs of an operation.
#[allow(dead_code)] // nobody reads the log
struct Run {
    call: u64,
    epoch: u64,
    set: u64,
    object: u32,
}

pub fn measure() {
    let mut values = vec![0u32; OBJECTS as usize];
    let start = Instant::now();
    let log = add_and_log_all(&mut values);
    part("add_in_vec_logged", DELEGATIONS, start);
    drop(log);
    let mut values = vec![0u32; OBJECTS as usize];
    let start = Instant::now();
    add_all(&mut values);
    part("add_in_vec", DELEGATIONS, start);
    println!("checksum runs {DELEGATIONS}");
    let sum = values.iter().enumerate().fold(0u64, |sum, (place, value)| {
        sum.wrapping_add(u64::from(*value).wrapping_mul(place as u64))
    });
    println!("checksum values {sum}");
}

#[inline(never)] // so that nothing is known of the values
fn add_all(values: &mut [u32]) {
    for number in 0..DELEGATIONS {
        let object = number.wrapping_mul(STRIDE) % OBJECTS;
        let value = &mut values[object as usize];
        *value = value.wrapping_add(number);
    }
}

#[inline(never)] // so that nothing is known of the values
fn add_and_log_all(values: &mut [u32]) -> Vec<Run> {
    let mut log = Vec::new();
    for number in 0..DELEGATIONS {
        let object = number.wrapping_mul(STRIDE) % OBJECTS;
        let value = &mut values[object as usize];
        *value = value.wrapping_add(number);
        log.push(Run {
            call: u64::from(number),
            epoch: 1,
            set: u64::from(object),
            object,
        });
    }
    log
}
