//! The `ref` flow behind a mutex, with condition variables on which waiting threads sleep.
//!
//! A call of `next` that ends no emission wakes no thread. Each emission wakes the subscribers that sleep.
use crate::crowd::Shared;
use crate::flows::Flow;
use crate::shared::{Emit, Next};
use crate::slab::Id;
use std::sync::{Condvar, Mutex, MutexGuard};

struct Inside {
    flow: Flow,
    /// How many subscribers sleep.
    readers: usize,
    /// How many emitters sleep.
    emitters: usize,
}

pub struct Sleeping {
    inside: Mutex<Inside>,
    /// A value was added.
    value: Condvar,
    /// An emission has ended.
    room: Condvar,
}

impl Sleeping {
    fn emit(&self, value: i64) {
        let mut inside = self.inside.lock().unwrap();
        let emitted = inside.flow.emit(value).expect("there are numbers");
        let Emit::Queued(number) = emitted else {
            return self.leave(inside, false);
        };
        if inside.readers > 0 {
            self.value.notify_all();
        }
        while inside.flow.is_waiting(number) {
            inside.emitters += 1;
            inside = self.room.wait(inside).unwrap();
            inside.emitters -= 1;
        }
    }

    fn receive(&self, id: Id) -> i64 {
        let mut inside = self.inside.lock().unwrap();
        loop {
            let waiting = inside.flow.emissions_waiting();
            if let Next::Value(value) = inside.flow.next(id) {
                if inside.flow.emissions_waiting() < waiting {
                    self.leave(inside, true);
                }
                return value;
            }
            inside.readers += 1;
            inside = self.value.wait(inside).unwrap();
            inside.readers -= 1;
        }
    }

    /// Leaves the mutex after a value was added, and wakes the threads that sleep.
    fn leave(&self, inside: MutexGuard<Inside>, has_ended: bool) {
        let (readers, emitters) = (inside.readers, inside.emitters);
        drop(inside);
        if readers > 0 {
            self.value.notify_all();
        }
        if has_ended && emitters > 0 {
            self.room.notify_all();
        }
    }
}

impl Shared for Sleeping {
    fn new(flow: Flow) -> Self {
        let inside = Inside {
            flow,
            readers: 0,
            emitters: 0,
        };
        Sleeping {
            inside: Mutex::new(inside),
            value: Condvar::new(),
            room: Condvar::new(),
        }
    }

    fn emit_all(&self, first: i64, count: i64) {
        for value in first..first + count {
            self.emit(value);
        }
    }

    fn read_all(&self, id: Id, count: u64) -> i64 {
        (0..count).fold(0i64, |sum, _| sum.wrapping_add(self.receive(id)))
    }
}
