//! Epochs of delegated operations on objects by turns, from the first delegation to the epoch's end.

use std::time::Instant;

use crate::lanes::Lanes;
use crate::marks::Refusal;
use crate::part;
use crate::store::Step;

const DELEGATIONS: u32 = 1_000_000;
// Odd, so that its multiples reach each of the objects before any comes again.
const STRIDE: u32 = 40_503;

pub fn measure() {
    for delegates in [1, 4] {
        for objects in [4, 16, 65_536] {
            pass_epoch("add", delegates, objects, Step::Add, None);
            pass_epoch("mix", delegates, objects, |_| Step::Mix, Some(objects));
        }
    }
}

fn pass_epoch(
    name: &str,
    delegates: u32,
    objects: u32,
    step: impl Fn(u32) -> Step,
    reading: Option<u32>,
) {
    let mut lanes = Lanes::new(delegates, objects);
    lanes.begin().unwrap();
    let start = Instant::now();
    delegate_all(&mut lanes, objects, step, reading).unwrap();
    lanes.end().unwrap();
    part(&format!("{name}_{delegates}_{objects}"), DELEGATIONS, start);
    println!("checksum {name}_runs {}", lanes.runs());
    println!("checksum {name}_{objects} {}", lanes.sum());
}

#[inline(never)] // so that nothing is known of the objects
fn delegate_all(
    lanes: &mut Lanes,
    objects: u32,
    step: impl Fn(u32) -> Step,
    reading: Option<u32>,
) -> Result<(), Refusal> {
    for number in 0..DELEGATIONS {
        let object = number.wrapping_mul(STRIDE) % objects;
        lanes.delegate(object, step(number), reading)?;
    }
    Ok(())
}
