//! Workloads over one number that is a state flow.
use crate::arguments::{Sizes, Taken};
use crate::locks::Lock;
use crate::shared::Next;
use crate::slab::Id;
use crate::state::StateFlow;
use std::marker::PhantomData;
use std::thread;

pub type State = StateFlow<i64>;

/// A state flow and one subscriber of it.
pub trait Number {
    fn set(&mut self, value: i64);

    fn value(&mut self) -> i64;

    fn compare_and_set(&mut self, expect: i64, update: i64) -> bool;

    /// Returns what the subscriber receives, if the value is not the one that it received last.
    fn next(&mut self) -> Option<i64>;
}

/// The `ref` state flow without a lock.
pub struct Alone {
    state: State,
    id: Id,
}

/// The `ref` state flow behind a lock.
pub struct Locked<L> {
    state: L,
    id: Id,
}

fn received(next: Next<i64>) -> Option<i64> {
    match next {
        Next::Value(value) => Some(value),
        Next::Empty | Next::Gone => None,
    }
}

fn subscribed() -> (State, Id) {
    let mut state = State::new(0, u64::MAX);
    let id = state.subscribe().expect("there are numbers");
    (state, id)
}

impl Alone {
    pub fn new() -> Self {
        let (state, id) = subscribed();
        Alone { state, id }
    }
}

impl<L: Lock<State>> Locked<L> {
    pub fn new() -> Self {
        let (state, id) = subscribed();
        Locked {
            state: L::new(state),
            id,
        }
    }
}

impl Number for Alone {
    fn set(&mut self, value: i64) {
        self.state.set(value);
    }

    fn value(&mut self) -> i64 {
        self.state.value()
    }

    fn compare_and_set(&mut self, expect: i64, update: i64) -> bool {
        self.state.compare_and_set(&expect, update)
    }

    fn next(&mut self) -> Option<i64> {
        received(self.state.next(self.id))
    }
}

impl<L: Lock<State>> Number for Locked<L> {
    fn set(&mut self, value: i64) {
        self.state.with(|state| state.set(value));
    }

    fn value(&mut self) -> i64 {
        self.state.with(|state| state.value())
    }

    fn compare_and_set(&mut self, expect: i64, update: i64) -> bool {
        self.state
            .with(|state| state.compare_and_set(&expect, update))
    }

    fn next(&mut self) -> Option<i64> {
        received(self.state.with(|state| state.next(self.id)))
    }
}

/// Times calls of one thread. An operation is a call; in `state_next` it is a `set` and a `next`. Returns `None` if
/// there is no such workload.
pub fn time_number(workload: &str, mut number: impl Number, sizes: Sizes) -> Option<Taken> {
    let count = sizes.count as i64;
    let taken = match workload {
        "state_value" => Taken::by(sizes.count, || {
            (0..count)
                .map(|_| number.value())
                .fold(0, i64::wrapping_add)
        }),
        "state_set" => Taken::by(sizes.count, || {
            (0..count).for_each(|value| number.set(value));
            number.value()
        }),
        "state_cas" => Taken::by(sizes.count, || {
            let won = (0..count).filter(|value| number.compare_and_set(*value, value + 1));
            won.count() as i64
        }),
        "state_next" => Taken::by(sizes.count, || {
            let received = (1..=count).filter_map(|value| {
                number.set(value);
                number.next()
            });
            received.fold(0, i64::wrapping_add)
        }),
        _ => return None,
    };
    Some(taken)
}

/// Times threads that each add 1 `count` times. An operation is an addition.
pub fn time_updates<L: Lock<State>>(_lock: PhantomData<L>, sizes: Sizes) -> Taken {
    let state = L::new(State::new(0, u64::MAX));
    let count_up = || {
        for _ in 0..sizes.count {
            state.with(|state| state.set(state.value() + 1));
        }
    };
    Taken::by(sizes.count * sizes.threads, || {
        thread::scope(|scope| {
            for _ in 0..sizes.threads {
                scope.spawn(count_up);
            }
        });
        state.with(|state| state.value())
    })
}
