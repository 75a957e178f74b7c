//! What a delegate holds: objects by their numbers, what operations contributed, and a log of them.

use std::collections::BTreeMap;
use std::sync::Arc;

#[derive(Clone, Copy)]
#[allow(dead_code)] // nobody reads a log
pub struct Run {
    pub call: u64,
    pub epoch: u64,
    pub set: u64,
    pub object: u32,
}

#[derive(Clone, Copy)]
#[allow(dead_code)] // the measured programs don't multiply
pub enum Step {
    Add(u32),
    Mul(u32),
    /// Multiplies by 31 and adds the value read, or 0 where none is.
    Mix,
}

/// A message to a delegate, with the value that its operation reads, if it reads one.
pub enum Message {
    /// An object, and an operation on it.
    Carry {
        run: Run,
        value: u32,
        op: Step,
        reading: Option<Arc<u32>>,
    },
    /// An operation on an object that an earlier message carried.
    Run {
        run: Run,
        op: Step,
        reading: Option<Arc<u32>>,
    },
    Stop,
}

#[derive(Default)]
pub struct Store {
    pub values: BTreeMap<u32, u32>,
    pub total: u64,
    pub runs: Vec<Run>,
}

impl Store {
    pub fn take(&mut self, message: Message) {
        match message {
            Message::Carry {
                run,
                value,
                op,
                reading,
            } => {
                self.values.insert(run.object, value);
                self.run(run, op, reading);
            }
            Message::Run { run, op, reading } => self.run(run, op, reading),
            Message::Stop => {}
        }
    }

    // Runs an operation and logs it, where its object is there. Each contributes 1.
    fn run(&mut self, run: Run, op: Step, reading: Option<Arc<u32>>) {
        if let Some(value) = self.values.get_mut(&run.object) {
            *value = match op {
                Step::Add(number) => value.wrapping_add(number),
                Step::Mul(number) => value.wrapping_mul(number),
                Step::Mix => value
                    .wrapping_mul(31)
                    .wrapping_add(reading.map_or(0, |read| *read)),
            };
            self.total = self.total.wrapping_add(1);
            self.runs.push(run);
        }
    }

    /// The sum of the values, each times its object's number.
    pub fn sum(&self) -> u64 {
        self.values.iter().fold(0, |sum, (object, value)| {
            sum.wrapping_add(u64::from(*object).wrapping_mul(u64::from(*value)))
        })
    }
}
