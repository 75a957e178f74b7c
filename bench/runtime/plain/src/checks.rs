//! Delegations in one epoch, and epochs with nothing in them, as the partition check sees them.

use std::time::Instant;

use crate::marks::{Marks, Refusal};
use crate::part;

const OBJECTS: u32 = 65_536;
const FEW_OBJECTS: u32 = 16;
const DELEGATIONS: u32 = 1_000_000;
const EPOCHS: u32 = 1_000;
// Odd, so that its multiples reach each of the objects before any comes again.
const STRIDE: u32 = 40_503;

pub fn measure() {
    let mut many = Marks::new(OBJECTS);
    let in_order = delegations(&mut many, "delegate_in_order", 1, None);
    let scattered = delegations(&mut many, "delegate_scattered", STRIDE, None);
    let reading = delegations(&mut many, "delegate_reading", STRIDE, Some(OBJECTS));
    let mut few = Marks::new(FEW_OBJECTS);
    let of_many = epochs(&mut many, "epoch_many_objects");
    let of_few = epochs(&mut few, "epoch_few_objects");
    println!("checksum in_order {in_order}");
    println!("checksum scattered {scattered}");
    println!("checksum reading {reading}");
    println!("checksum many {of_many}");
    println!("checksum few {of_few}");
}

// An epoch of delegations, each to the object `stride` after the last. Gives what they answered
// and left.
fn delegations(marks: &mut Marks, name: &str, stride: u32, reading: Option<u32>) -> u64 {
    marks.begin().unwrap();
    let start = Instant::now();
    let answered = delegate_all(marks, stride, reading).unwrap();
    part(name, DELEGATIONS, start);
    let left = (0..OBJECTS).fold(0u64, |sum, number| match marks.delegated_to(number) {
        Some(set) => sum.wrapping_add(set.wrapping_mul(u64::from(number))),
        None => sum,
    });
    marks.end().unwrap();
    answered.wrapping_add(left).wrapping_add(marks.calls())
}

#[inline(never)] // so that nothing is known of the arguments
fn delegate_all(marks: &mut Marks, stride: u32, reading: Option<u32>) -> Result<u64, Refusal> {
    let mut sum = 0u64;
    for number in 0..DELEGATIONS {
        let object = number.wrapping_mul(stride) % OBJECTS;
        let set = marks.delegate(object, 0, reading)?;
        sum = sum.wrapping_add(set ^ u64::from(number));
    }
    Ok(sum)
}

// Epochs with nothing in them. Gives the counts that they left.
fn epochs(marks: &mut Marks, name: &str) -> u64 {
    let start = Instant::now();
    pass_epochs(marks).unwrap();
    part(name, EPOCHS, start);
    marks.calls().wrapping_add(marks.epoch())
}

#[inline(never)] // so that nothing is known of the marks
fn pass_epochs(marks: &mut Marks) -> Result<(), Refusal> {
    for _ in 0..EPOCHS {
        marks.begin()?;
        marks.end()?;
    }
    Ok(())
}
