//! A lane with a delegate in a thread at its other end. It is a bounded channel of
//! crossbeam-channel.

use std::thread::{self, JoinHandle};

use crossbeam_channel::{bounded, Receiver, Sender};

use crate::store::{Message, Store};

const PLACES: usize = 256;

pub struct Line {
    sender: Sender<Message>,
    worker: JoinHandle<Store>,
}

pub fn open_line() -> Line {
    let (sender, receiver) = bounded(PLACES);
    let worker = thread::spawn(move || work(&receiver));
    Line { sender, worker }
}

/// Takes messages up to the first stop.
fn work(receiver: &Receiver<Message>) -> Store {
    let mut store = Store::default();
    for message in receiver {
        if matches!(message, Message::Stop) {
            break;
        }
        store.take(message);
    }
    store
}

impl Line {
    /// Sends a message, and waits for a free place as long as there is none.
    pub fn send(&self, message: Message) {
        self.sender.send(message).unwrap();
    }

    /// Waits for the delegate to take a stop.
    pub fn close(self) -> Store {
        self.worker.join().unwrap()
    }
}
