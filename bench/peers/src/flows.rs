//! The `ref` flow with its subscribers, as the workloads of one thread call it: without a lock, and behind one.
use crate::config::{Config, Overflow};
use crate::delivery::{Admission, Delivery, ROOM};
use crate::locks::Lock;
use crate::shared::{Emit, Next, SharedFlow};
use crate::slab::Id;

/// The most values that a drain takes at once.
pub const AT_ONCE: usize = 64;

pub type Flow = SharedFlow<i64>;

/// A way to call the flow.
pub trait Reach {
    fn with<R>(&mut self, call: impl FnOnce(&mut Flow) -> R) -> R;
}

/// The flow itself.
pub struct Alone(Flow);

/// The flow behind a lock.
pub struct Locked<L>(L);

impl Reach for Alone {
    fn with<R>(&mut self, call: impl FnOnce(&mut Flow) -> R) -> R {
        call(&mut self.0)
    }
}

impl<L: Lock<Flow>> Reach for Locked<L> {
    fn with<R>(&mut self, call: impl FnOnce(&mut Flow) -> R) -> R {
        self.0.with(call)
    }
}

/// Subscribers that receive by `next`, one call for each value.
pub struct ByNext<F> {
    flow: F,
    ids: Vec<Id>,
}

/// Subscribers that receive by `drain`.
pub struct ByDrain<F> {
    flow: F,
    ids: Vec<Id>,
    values: Vec<i64>,
}

/// A flow with room for 64 values, and its subscribers.
fn subscribed(overflow: Overflow, subscribers: u64) -> (Flow, Vec<Id>) {
    let config = Config::new(0, ROOM as u32, overflow);
    let mut flow = Flow::new(config).expect("the configuration is right");
    let ids = (0..subscribers)
        .map(|_| flow.subscribe().expect("there are numbers"))
        .collect();
    (flow, ids)
}

pub fn alone(overflow: Overflow, subscribers: u64) -> (Alone, Vec<Id>) {
    let (flow, ids) = subscribed(overflow, subscribers);
    (Alone(flow), ids)
}

pub fn locked<L: Lock<Flow>>(overflow: Overflow, subscribers: u64) -> (Locked<L>, Vec<Id>) {
    let (flow, ids) = subscribed(overflow, subscribers);
    (Locked(L::new(flow)), ids)
}

impl<F: Reach> ByNext<F> {
    pub fn new((flow, ids): (F, Vec<Id>)) -> Self {
        ByNext { flow, ids }
    }
}

impl<F: Reach> ByDrain<F> {
    pub fn new((flow, ids): (F, Vec<Id>)) -> Self {
        let values = Vec::with_capacity(AT_ONCE);
        ByDrain { flow, ids, values }
    }
}

fn emit<F: Reach>(flow: &mut F, value: i64) {
    let accepted = flow.with(|flow| flow.try_emit(value));
    debug_assert!(matches!(accepted, Ok(true)));
}

impl<F: Reach> Delivery for ByNext<F> {
    fn emit(&mut self, value: i64) {
        emit(&mut self.flow, value);
    }

    fn read_all(&mut self) -> i64 {
        let mut sum = 0i64;
        for &id in &self.ids {
            while let Next::Value(value) = self.flow.with(|flow| flow.next(id)) {
                sum = sum.wrapping_add(value);
            }
        }
        sum
    }
}

impl<F: Reach> Delivery for ByDrain<F> {
    fn emit(&mut self, value: i64) {
        emit(&mut self.flow, value);
    }

    fn read_all(&mut self) -> i64 {
        let mut sum = 0i64;
        for &id in &self.ids {
            let values = &mut self.values;
            let mut took_most = true;
            while took_most {
                values.clear();
                took_most = self.flow.with(|flow| flow.drain(id, AT_ONCE, values));
                sum = values.iter().copied().fold(sum, i64::wrapping_add);
            }
        }
        sum
    }
}

impl<F: Reach> Admission for ByNext<F> {
    fn offer(&mut self, value: i64) -> bool {
        self.flow
            .with(|flow| flow.try_emit(value))
            .expect("there are numbers")
    }

    fn admit(&mut self, value: i64) -> i64 {
        let emitted = self
            .flow
            .with(|flow| flow.emit(value))
            .expect("there are numbers");
        let mut sum = 0i64;
        for &id in &self.ids {
            if let Next::Value(received) = self.flow.with(|flow| flow.next(id)) {
                sum = sum.wrapping_add(received);
            }
        }
        match emitted {
            Emit::Queued(number) => assert!(!self.flow.with(|flow| flow.is_waiting(number))),
            Emit::Done => panic!("there was room"),
        }
        sum
    }
}
