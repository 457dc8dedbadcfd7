//! `ref`: a state flow (`MutableStateFlow`) in plain Rust, with all documented rules, for one thread.
use crate::shared::{Exhausted, Next};
use crate::slab::{Id, Slab};

pub struct StateFlow<T> {
    value: T,
    /// The last value that each subscriber received.
    subscribers: Slab<Option<T>>,
    issued: u64,
    limit: u64,
}

impl<T: Clone + PartialEq> StateFlow<T> {
    pub fn new(value: T, limit: u64) -> Self {
        StateFlow {
            value,
            subscribers: Slab::new(),
            issued: 0,
            limit,
        }
    }

    pub fn value(&self) -> T {
        self.value.clone()
    }

    pub fn set(&mut self, value: T) {
        self.value = value;
    }

    /// Sets the value to `update` if it equals `expect`. Returns whether it did.
    pub fn compare_and_set(&mut self, expect: &T, update: T) -> bool {
        let is_expected = self.value == *expect;
        if is_expected {
            self.value = update;
        }
        is_expected
    }

    pub fn subscribe(&mut self) -> Result<Id, Exhausted<()>> {
        if self.issued == self.limit {
            return Err(Exhausted(()));
        }
        self.issued += 1;
        Ok(self.subscribers.insert(self.issued, None))
    }

    /// Returns the current value unless it equals the one that the subscriber received last.
    pub fn next(&mut self, id: Id) -> Next<T> {
        match self.subscribers.get_mut(id) {
            None => Next::Gone,
            Some(Some(last)) if *last == self.value => Next::Empty,
            Some(last) => {
                *last = Some(self.value.clone());
                Next::Value(self.value.clone())
            }
        }
    }

    /// Removes the subscriber. Returns whether it was subscribed.
    pub fn unsubscribe(&mut self, id: Id) -> bool {
        self.subscribers.remove(id).is_some()
    }

    pub fn subscription_count(&self) -> usize {
        self.subscribers.len()
    }
}
