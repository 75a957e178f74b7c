//! Messages through lanes, each with a delegate in a thread of its own.

use std::time::Instant;

use crate::line::{open_line, Line};
use crate::part;
use crate::store::{Message, Run, Step, Store};

const MESSAGES: u32 = 1_000_000;
const OBJECTS: u32 = 1_024;

pub fn measure() {
    pass_through("one_lane", 1);
    pass_through("four_lanes", 4);
}

/// The message of a call that adds its number to an object. The first one of an object carries it.
fn addition(call: u32, object: u32, is_first: bool) -> Message {
    let run = Run {
        call: u64::from(call),
        epoch: 1,
        set: u64::from(object),
        object,
    };
    let op = Step::Add(call);
    let reading = None;
    if is_first {
        Message::Carry {
            run,
            value: 0,
            op,
            reading,
        }
    } else {
        Message::Run { run, op, reading }
    }
}

// Object follows object, and lane follows lane.
#[inline(never)] // so that nothing is known of the number of lanes
fn send_all(lines: &[Line]) {
    for call in 0..MESSAGES {
        let object = call % OBJECTS;
        let line = &lines[object as usize % lines.len()];
        line.send(addition(call, object, call < OBJECTS));
    }
    for line in lines {
        line.send(Message::Stop);
    }
}

fn pass_through(name: &str, lanes: u32) {
    let lines: Vec<Line> = (0..lanes).map(|_| open_line()).collect();
    let start = Instant::now();
    send_all(&lines);
    let stores: Vec<Store> = lines.into_iter().map(Line::close).collect();
    part(name, MESSAGES, start);
    let runs: usize = stores.iter().map(|store| store.runs.len()).sum();
    let total = stores
        .iter()
        .map(|store| store.total)
        .fold(0, u64::wrapping_add);
    let sum = stores.iter().map(Store::sum).fold(0, u64::wrapping_add);
    println!("checksum runs {runs}");
    println!("checksum total {total}");
    println!("checksum sum {sum}");
}
