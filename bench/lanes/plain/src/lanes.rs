//! A runtime with lanes: objects at home in a `Vec`, each moved to its lane at the first operation
//! delegated to it, and what the partition rule knows of them.

use std::mem;
use std::sync::Arc;

use crate::line::{open_line, Line};
use crate::marks::{Marks, Refusal};
use crate::store::{Message, Run, Step};

/// What the program context has of an object.
enum Object {
    Here(u32),
    /// Its value, which delegated operations may be reading.
    Shared(Arc<u32>),
    /// Nothing: it went to this lane.
    Away(usize),
}

impl Object {
    /// The value of an object at home.
    fn value(&self) -> u32 {
        match self {
            Object::Here(value) => *value,
            Object::Shared(shared) => **shared,
            Object::Away(lane) => panic!("the object is in lane {lane}"),
        }
    }
}

pub struct Lanes {
    marks: Marks,
    objects: Vec<Object>,
    /// The lanes that are at work.
    lines: Vec<Option<Line>>,
    /// What lanes had run when they came home.
    logs: Vec<Vec<Run>>,
    total: u64,
}

impl Lanes {
    /// So many objects of value 0 that are mapped by the object, and one of value 7 that is read-only.
    pub fn new(delegates: u32, objects: u32) -> Lanes {
        Lanes {
            marks: Marks::new(objects),
            objects: (0..objects)
                .map(|_| Object::Here(0))
                .chain([Object::Here(7)])
                .collect(),
            lines: (0..delegates).map(|_| None).collect(),
            logs: Vec::new(),
            total: 0,
        }
    }

    pub fn begin(&mut self) -> Result<(), Refusal> {
        self.marks.begin()
    }

    /// Delegates an operation, which may read another object, and gives the call's number.
    pub fn delegate(
        &mut self,
        object: u32,
        op: Step,
        reading: Option<u32>,
    ) -> Result<u64, Refusal> {
        let call = self.marks.calls();
        let set = self.marks.delegate(object, 0, reading)?;
        let run = Run {
            call,
            epoch: self.marks.epoch(),
            set,
            object,
        };
        let lane = set as usize % self.lines.len();
        let reading = reading.map(|other| self.share(other));
        let message = match self.objects[object as usize] {
            Object::Away(there) if there == lane => Message::Run { run, op, reading },
            _ => Message::Carry {
                run,
                value: self.send_object(object, lane),
                op,
                reading,
            },
        };
        self.lines[lane].get_or_insert_with(open_line).send(message);
        Ok(call)
    }

    /// Ends the epoch: all that was delegated is done, and every object is at home.
    pub fn end(&mut self) -> Result<(), Refusal> {
        self.marks.end()?;
        for line in self.lines.iter().flatten() {
            line.send(Message::Stop);
        }
        for lane in 0..self.lines.len() {
            self.take_home(lane);
        }
        Ok(())
    }

    /// How many operations lanes have run.
    pub fn runs(&self) -> usize {
        self.logs.iter().map(Vec::len).sum()
    }

    /// The sum of the objects' values, each times its number.
    pub fn sum(&self) -> u64 {
        self.objects
            .iter()
            .zip(0u64..)
            .fold(0, |sum, (object, place)| {
                sum.wrapping_add(u64::from(object.value()).wrapping_mul(place))
            })
    }

    // A share of the value that an operation reads.
    fn share(&mut self, object: u32) -> Arc<u32> {
        self.bring_home(object);
        let object = &mut self.objects[object as usize];
        if let Object::Shared(shared) = object {
            return shared.clone();
        }
        let shared = Arc::new(object.value());
        *object = Object::Shared(shared.clone());
        shared
    }

    fn send_object(&mut self, object: u32, lane: usize) -> u32 {
        self.bring_home(object);
        mem::replace(&mut self.objects[object as usize], Object::Away(lane)).value()
    }

    fn bring_home(&mut self, object: u32) {
        if let Object::Away(lane) = self.objects[object as usize] {
            if let Some(line) = &self.lines[lane] {
                line.send(Message::Stop);
            }
            self.take_home(lane);
        }
    }

    // Takes what a lane has that was sent a stop.
    fn take_home(&mut self, lane: usize) {
        if let Some(line) = self.lines[lane].take() {
            let store = line.close();
            for (object, value) in store.values {
                self.objects[object as usize] = Object::Here(value);
            }
            self.total = self.total.wrapping_add(store.total);
            self.logs.push(store.runs);
        }
    }
}
