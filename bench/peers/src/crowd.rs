//! Threads that emit into one flow, and threads that each receive all of its values.
//!
//! No subscriber loses a value: an emitter waits for the slowest one. An operation is a delivery, and the time is that
//! of all threads, and includes making them.
use crate::arguments::{Sizes, Taken};
use crate::config::{Config, Overflow};
use crate::flows::{Flow, AT_ONCE};
use crate::locks::Lock;
use crate::shared::{Emit, Next};
use crate::slab::Id;
use std::thread;
use std::time::Duration;

/// A way for threads to call the flow that they share.
pub trait Shared: Sync {
    fn new(flow: Flow) -> Self;

    /// Emits `count` values, from `first` on.
    fn emit_all(&self, first: i64, count: i64);

    /// Receives `count` values, and returns their sum.
    fn read_all(&self, id: Id, count: u64) -> i64;
}

/// A flow whose subscribers receive by `next`. A waiting thread yields.
pub struct PollNext<L>(L);

/// A flow whose subscribers receive by `drain`. A waiting thread yields.
pub struct PollDrain<L>(L);

impl<L: Lock<Flow>> Shared for PollNext<L> {
    fn new(flow: Flow) -> Self {
        PollNext(L::new(flow))
    }

    fn emit_all(&self, first: i64, count: i64) {
        emit_all(&self.0, first, count);
    }

    fn read_all(&self, id: Id, count: u64) -> i64 {
        read_by_next(&self.0, id, count)
    }
}

impl<L: Lock<Flow>> Shared for PollDrain<L> {
    fn new(flow: Flow) -> Self {
        PollDrain(L::new(flow))
    }

    fn emit_all(&self, first: i64, count: i64) {
        emit_all(&self.0, first, count);
    }

    fn read_all(&self, id: Id, count: u64) -> i64 {
        read_by_drain(&self.0, id, count)
    }
}

fn emit_all<L: Lock<Flow>>(flow: &L, first: i64, count: i64) {
    for value in first..first + count {
        let emitted = flow
            .with(|flow| flow.emit(value))
            .expect("there are numbers");
        if let Emit::Queued(number) = emitted {
            while flow.with(|flow| flow.is_waiting(number)) {
                thread::yield_now();
            }
        }
    }
}

fn read_by_next<L: Lock<Flow>>(flow: &L, id: Id, count: u64) -> i64 {
    let mut sum = 0i64;
    let mut left = count;
    while left > 0 {
        match flow.with(|flow| flow.next(id)) {
            Next::Value(value) => {
                sum = sum.wrapping_add(value);
                left -= 1;
            }
            Next::Empty | Next::Gone => thread::yield_now(),
        }
    }
    sum
}

fn read_by_drain<L: Lock<Flow>>(flow: &L, id: Id, count: u64) -> i64 {
    let mut sum = 0i64;
    let mut left = count;
    let mut values = Vec::with_capacity(AT_ONCE);
    while left > 0 {
        values.clear();
        let took_most = flow.with(|flow| flow.drain(id, AT_ONCE, &mut values));
        sum = values.iter().copied().fold(sum, i64::wrapping_add);
        left -= values.len() as u64;
        if !took_most {
            thread::yield_now();
        }
    }
    sum
}

fn run<S: Shared>(shared: &S, ids: Vec<Id>, sizes: Sizes) -> i64 {
    let emitted = sizes.threads * sizes.count;
    let count = sizes.count as i64;
    thread::scope(|scope| {
        let readers: Vec<_> = ids
            .into_iter()
            .map(|id| scope.spawn(move || shared.read_all(id, emitted)))
            .collect();
        for emitter in 0..sizes.threads as i64 {
            scope.spawn(move || shared.emit_all(emitter * count, count));
        }
        let sums = readers
            .into_iter()
            .map(|reader| reader.join().expect("a reader does not panic"));
        sums.fold(0, i64::wrapping_add)
    })
}

/// Returns how many values are delivered.
pub fn deliveries(sizes: Sizes) -> u64 {
    sizes.threads * sizes.count * sizes.subscribers
}

/// Returns a flow that keeps `room` values, and its subscribers.
fn subscribed<S: Shared>(room: u64, subscribers: u64) -> (S, Vec<Id>) {
    let config = Config::new(0, room as u32, Overflow::Suspend);
    let mut flow = Flow::new(config).expect("the configuration is right");
    let ids = (0..subscribers)
        .map(|_| flow.subscribe().expect("there are numbers"))
        .collect();
    (S::new(flow), ids)
}

/// Times a crowd over the `ref` flow.
pub fn time_crowd<S: Shared>(sizes: Sizes) -> Taken {
    let (shared, ids) = subscribed::<S>(sizes.room, sizes.subscribers);
    Taken::by(deliveries(sizes), || run(&shared, ids, sizes))
}

/// Times a subscriber that waits for a second, and receives one value.
pub fn time_idle<S: Shared>() -> Taken {
    let (shared, ids) = subscribed::<S>(1, 1);
    let (shared, id) = (&shared, ids[0]);
    Taken::by(1, || {
        thread::scope(|scope| {
            let reader = scope.spawn(move || shared.read_all(id, 1));
            thread::sleep(Duration::from_secs(1));
            shared.emit_all(1, 1);
            reader.join().expect("a reader does not panic")
        })
    })
}
