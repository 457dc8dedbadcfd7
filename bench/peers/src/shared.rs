//! `ref`: a shared flow (`MutableSharedFlow`) in plain Rust, with all documented rules, for one thread.
//!
//! Every call takes constant time, except that one call may admit several queued emissions. Each value that is kept has
//! the number of subscribers that receive it next, so that the flow knows without a search whether it is blocked, and
//! which values it may drop.
mod rules;

use crate::config::{Config, ConfigError, Overflow};
use crate::slab::{Id, Slab};
use std::collections::VecDeque;

/// The refusal when no number is left to issue. Hands back the value, or the subscriber's own first values.
#[derive(Debug)]
pub struct Exhausted<T>(pub T);

#[derive(Clone, Copy, Debug, PartialEq, Eq)]
pub enum Emit {
    Done,
    /// The emitter waits, by this number.
    Queued(u64),
}

#[derive(Clone, Copy, Debug, PartialEq, Eq)]
pub enum Next<T> {
    Value(T),
    Empty,
    Gone,
}

/// A value that is kept.
struct Slot<T> {
    value: T,
    /// The number of subscribers that receive it next.
    readers: usize,
}

struct Subscriber<T> {
    /// Its own first values, which it receives before any emitted one.
    own: VecDeque<T>,
    position: u64,
}

struct Queued<T> {
    number: u64,
    value: T,
}

pub struct SharedFlow<T> {
    config: Config,
    /// The most values that a subscriber may still have to receive.
    window: usize,
    /// The values that a new or an old subscriber may still receive, the oldest first.
    slots: VecDeque<Slot<T>>,
    /// The number of values that were emitted.
    emitted: u64,
    /// The number of subscribers that have received all of them.
    caught_up: usize,
    /// A position below this one is read as this one.
    floor: u64,
    /// The number of the last emitted value.
    newest: u64,
    reset_mark: u64,
    queue: VecDeque<Queued<T>>,
    subscribers: Slab<Subscriber<T>>,
    issued: u64,
}

impl<T: Clone> SharedFlow<T> {
    pub fn new(config: Config) -> Result<Self, ConfigError> {
        config.check()?;
        Ok(SharedFlow {
            config,
            window: config.window(),
            slots: VecDeque::with_capacity(config.window() + 1),
            emitted: 0,
            caught_up: 0,
            floor: 0,
            newest: 0,
            reset_mark: 0,
            queue: VecDeque::new(),
            subscribers: Slab::new(),
            issued: 0,
        })
    }

    /// Emits a value unless the emitter would have to wait. Returns whether the flow took or dropped the value.
    pub fn try_emit(&mut self, value: T) -> Result<bool, Exhausted<T>> {
        if self.is_open() {
            let number = match self.issue() {
                Some(number) => number,
                None => return Err(Exhausted(value)),
            };
            self.append(value, number);
            return Ok(true);
        }
        match self.config.overflow {
            Overflow::Suspend => Ok(false),
            Overflow::DropLatest => Ok(true),
            Overflow::DropOldest => self.append_dropping(value).map(|()| true),
        }
    }

    /// Emits a value, or queues it until there is room.
    pub fn emit(&mut self, value: T) -> Result<Emit, Exhausted<T>> {
        if self.config.overflow != Overflow::Suspend || self.is_open() {
            return self.try_emit(value).map(|_| Emit::Done);
        }
        let number = match self.issue() {
            Some(number) => number,
            None => return Err(Exhausted(value)),
        };
        if self.is_blocked() {
            self.queue.push_back(Queued { number, value });
        } else {
            self.append(value, number);
        }
        Ok(Emit::Queued(number))
    }

    /// Returns whether the emission of this number still waits.
    pub fn is_waiting(&self, number: u64) -> bool {
        self.is_offered(number) || self.place_in_queue(number).is_some()
    }

    /// Returns how many emissions wait.
    pub fn emissions_waiting(&self) -> usize {
        self.queue.len() + usize::from(self.is_offering())
    }

    /// Ends the wait of an emission. Returns whether it waited.
    pub fn cancel(&mut self, number: u64) -> bool {
        if self.is_offered(number) {
            self.withdraw_offer();
        } else if let Some(place) = self.place_in_queue(number) {
            self.queue.remove(place);
        } else {
            return false;
        }
        self.settle();
        true
    }

    pub fn subscribe(&mut self) -> Result<Id, Exhausted<VecDeque<T>>> {
        self.subscribe_with(VecDeque::new())
    }

    /// Adds a subscriber that receives these values of its own first (`onSubscription`).
    pub fn subscribe_with(&mut self, own: VecDeque<T>) -> Result<Id, Exhausted<VecDeque<T>>> {
        let number = match self.issue() {
            Some(number) => number,
            None => return Err(Exhausted(own)),
        };
        let position = if self.is_offering() {
            self.emitted - 1
        } else {
            self.cache_start()
        };
        *self.readers_at(position) += 1;
        Ok(self
            .subscribers
            .insert(number, Subscriber { own, position }))
    }

    pub fn next(&mut self, id: Id) -> Next<T> {
        let emitted = self.emitted;
        let start = self.start();
        let subscriber = match self.subscribers.get_mut(id) {
            Some(subscriber) => subscriber,
            None => return Next::Gone,
        };
        if let Some(value) = subscriber.own.pop_front() {
            return Next::Value(value);
        }
        let position = subscriber.position.max(self.floor);
        if position == emitted {
            return Next::Empty;
        }
        subscriber.position = position + 1;
        let place = (position - start) as usize;
        match self.slots.get_mut(place + 1) {
            Some(next) => next.readers += 1,
            None => self.caught_up += 1,
        }
        let slot = &mut self.slots[place];
        slot.readers -= 1;
        let value = slot.value.clone();
        if place == 0 && slot.readers == 0 {
            self.settle();
        }
        Next::Value(value)
    }

    /// Takes at most `most` values that the subscriber can receive now. Returns whether it took that many.
    pub fn drain(&mut self, id: Id, most: usize, values: &mut Vec<T>) -> bool {
        for _ in 0..most {
            match self.next(id) {
                Next::Value(value) => values.push(value),
                Next::Empty | Next::Gone => return false,
            }
        }
        true
    }

    /// Removes the subscriber. Returns whether it was subscribed.
    pub fn unsubscribe(&mut self, id: Id) -> bool {
        match self.subscribers.remove(id) {
            Some(subscriber) => {
                *self.readers_at(subscriber.position.max(self.floor)) -= 1;
                self.settle();
                true
            }
            None => false,
        }
    }

    pub fn subscription_count(&self) -> usize {
        self.subscribers.len()
    }

    pub fn replay_cache(&self) -> Vec<T> {
        let first = (self.cache_start() - self.start()) as usize;
        let cached = self.slots.iter().skip(first);
        cached.map(|slot| slot.value.clone()).collect()
    }

    pub fn reset_replay_cache(&mut self) {
        self.reset_mark = self.emitted;
        self.trim();
    }
}
