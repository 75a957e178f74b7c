//! The partition check over a `Vec` of small marks, with the tests of the measured crate in its
//! order. A call tests and marks at once. The program of lanes has this file too.

const MOST_CALLS: u64 = 1 << 60;

#[derive(Clone, Copy)]
#[allow(dead_code)] // the measured objects are mapped in one of the three ways
enum By {
    Object,
    Sequence,
    Own,
}

#[derive(Debug)]
#[allow(dead_code)] // what a refusal tells is only printed
pub enum Refusal {
    UnknownObject(u32),
    NotIsolating,
    Isolating,
    ReadOnly(u32),
    TwoSets(u32, u64, u64),
    Shared(u32),
    SelfRead(u32),
    Private(u32, u64),
    TooManyCalls,
}

/// What is known of an object. The set, and whether the object is held to it, count in the epoch of
/// the set alone, and the reader in that of the reader.
struct Mark {
    by: Option<By>,
    is_held: bool,
    set_epoch: u64,
    /// Of an object by sequence the only set that it can have, from the start.
    set: u64,
    read_epoch: u64,
}

impl Mark {
    fn is_held_in(&self, epoch: u64) -> bool {
        self.set_epoch == epoch && self.is_held
    }
}

/// What the rule knows of a program's calls.
pub struct Marks {
    objects: Vec<Mark>,
    calls: u64,
    epochs: u64,
    is_open: bool,
}

impl Marks {
    /// Objects that are mapped by the object, and one more that is read-only.
    pub fn new(objects: u32) -> Marks {
        let objects = (0..objects)
            .map(|_| Some(By::Object))
            .chain([None])
            .map(|by| Mark {
                by,
                is_held: false,
                set_epoch: 0,
                set: 0,
                read_epoch: 0,
            })
            .collect::<Vec<_>>();
        Marks {
            calls: objects.len() as u64,
            objects,
            epochs: 0,
            is_open: false,
        }
    }

    pub fn calls(&self) -> u64 {
        self.calls
    }

    pub fn epoch(&self) -> u64 {
        self.epochs
    }

    pub fn begin(&mut self) -> Result<(), Refusal> {
        if self.is_open {
            return Err(Refusal::Isolating);
        }
        self.count_call()?;
        self.epochs += 1;
        self.is_open = true;
        Ok(())
    }

    pub fn end(&mut self) -> Result<(), Refusal> {
        if !self.is_open {
            return Err(Refusal::NotIsolating);
        }
        self.count_call()?;
        self.is_open = false;
        Ok(())
    }

    pub fn delegate(
        &mut self,
        object: u32,
        own: u64,
        reading: Option<u32>,
    ) -> Result<u64, Refusal> {
        let epoch = self.epochs;
        let mark = match self.objects.get(object as usize) {
            None => return Err(Refusal::UnknownObject(object)),
            Some(mark) => mark,
        };
        let other = match reading {
            None => None,
            Some(number) => match self.objects.get(number as usize) {
                None => return Err(Refusal::UnknownObject(number)),
                Some(other) => Some((number, other)),
            },
        };
        if !self.is_open {
            return Err(Refusal::NotIsolating);
        }
        let set = match mark.by {
            None => return Err(Refusal::ReadOnly(object)),
            Some(By::Object) => u64::from(object),
            Some(By::Sequence) => mark.set,
            Some(By::Own) => own,
        };
        if mark.is_held_in(epoch) && mark.set != set {
            return Err(Refusal::TwoSets(object, mark.set, set));
        }
        if mark.read_epoch == epoch {
            return Err(Refusal::Shared(object));
        }
        if let Some((number, other)) = other {
            if number == object {
                return Err(Refusal::SelfRead(number));
            }
            if other.by.is_some() && other.is_held_in(epoch) {
                return Err(Refusal::Private(number, other.set));
            }
        }
        self.count_call()?;
        let mark = &mut self.objects[object as usize];
        mark.is_held = true;
        mark.set_epoch = epoch;
        mark.set = set;
        if let Some(number) = reading {
            self.objects[number as usize].read_epoch = epoch;
        }
        Ok(set)
    }

    #[allow(dead_code)] // of the programs that have this file one asks
    pub fn delegated_to(&self, object: u32) -> Option<u64> {
        let mark = self.objects.get(object as usize)?;
        (self.is_open && mark.set_epoch == self.epochs).then_some(mark.set)
    }

    fn count_call(&mut self) -> Result<(), Refusal> {
        if self.calls >= MOST_CALLS {
            return Err(Refusal::TooManyCalls);
        }
        self.calls += 1;
        Ok(())
    }
}
