//! Workloads over one flow and its subscribers, called by one thread.
use crate::arguments::{Sizes, Taken};

/// The number of values that are emitted between two readings.
const BATCH: u64 = 16;

/// The number of values that a flow keeps for its subscribers.
pub const ROOM: usize = 64;

/// A flow that keeps 64 values and drops the oldest, and its subscribers.
pub trait Delivery {
    fn emit(&mut self, value: i64);

    /// Lets each subscriber receive all that it can. Returns the sum.
    fn read_all(&mut self) -> i64;
}

/// A flow with room for 64 values whose emitters wait, and its subscribers, none of which has received anything yet.
pub trait Admission {
    /// Returns whether the value was accepted without a wait.
    fn offer(&mut self, value: i64) -> bool;

    /// Emits a value that has to wait, lets each subscriber receive one value, and checks that the wait has ended.
    /// Returns the sum of what was received.
    fn admit(&mut self, value: i64) -> i64;
}

/// What a channel returns to a receiver that asks for a value.
pub enum Received {
    Value(i64),
    /// Values were dropped before this receiver received them.
    Lost,
    Nothing,
}

/// Lets each receiver take all that it can. Returns the sum.
pub fn sum_received<R>(receivers: &mut [R], next: impl Fn(&mut R) -> Received) -> i64 {
    let mut sum = 0i64;
    for receiver in receivers {
        loop {
            match next(receiver) {
                Received::Value(value) => sum = sum.wrapping_add(value),
                Received::Lost => {}
                Received::Nothing => break,
            }
        }
    }
    sum
}

fn emit_batch(flow: &mut impl Delivery, batch: u64) {
    for place in 0..BATCH {
        flow.emit((batch * BATCH + place) as i64);
    }
}

fn emit_and_read(flow: &mut impl Delivery, batches: u64) -> i64 {
    let mut sum = 0i64;
    for batch in 0..batches {
        emit_batch(flow, batch);
        sum = sum.wrapping_add(flow.read_all());
    }
    sum
}

fn emit_all(flow: &mut impl Delivery, batches: u64) {
    for batch in 0..batches {
        emit_batch(flow, batch);
    }
}

/// Emits values in batches; after each, every subscriber reads until nothing is left. An operation is a delivery.
pub fn time_reading(mut flow: impl Delivery, sizes: Sizes) -> Taken {
    emit_and_read(&mut flow, sizes.before / BATCH);
    let batches = sizes.count / BATCH;
    let operations = batches * BATCH * sizes.subscribers;
    Taken::by(operations, || emit_and_read(&mut flow, batches))
}

/// Emits values that no subscriber reads. An operation is an emission.
pub fn time_emitting(mut flow: impl Delivery, sizes: Sizes) -> Taken {
    emit_all(&mut flow, sizes.before / BATCH);
    let batches = sizes.count / BATCH;
    let taken = Taken::by(batches * BATCH, || {
        emit_all(&mut flow, batches);
        0
    });
    Taken {
        sum: flow.read_all(),
        ..taken
    }
}

/// Emits into a full flow, so each emission waits until every subscriber has received a value. An operation is a
/// delivery.
pub fn time_admitting(mut flow: impl Admission, sizes: Sizes) -> Taken {
    let mut room = 0;
    while flow.offer(room) {
        room += 1;
    }
    let count = sizes.count as i64;
    Taken::by(sizes.count * sizes.subscribers, || {
        let received = (0..count).map(|value| flow.admit(value));
        received.fold(0, i64::wrapping_add)
    })
}
