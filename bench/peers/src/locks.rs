//! Locks that a flow may be behind.
use std::sync::{Mutex, TryLockError};
use std::thread;

pub trait Lock<T>: Send + Sync {
    fn new(value: T) -> Self;

    fn with<R>(&self, call: impl FnOnce(&mut T) -> R) -> R;
}

impl<T: Send> Lock<T> for Mutex<T> {
    fn new(value: T) -> Self {
        Mutex::new(value)
    }

    fn with<R>(&self, call: impl FnOnce(&mut T) -> R) -> R {
        call(&mut self.lock().unwrap())
    }
}

/// A mutex whose waiting callers yield instead of sleeping.
pub struct Yielding<T>(Mutex<T>);

impl<T: Send> Lock<T> for Yielding<T> {
    fn new(value: T) -> Self {
        Yielding(Mutex::new(value))
    }

    fn with<R>(&self, call: impl FnOnce(&mut T) -> R) -> R {
        loop {
            match self.0.try_lock() {
                Ok(mut inside) => return call(&mut inside),
                Err(TryLockError::WouldBlock) => thread::yield_now(),
                Err(TryLockError::Poisoned(poisoned)) => panic!("{poisoned}"),
            }
        }
    }
}

#[cfg(feature = "parking_lot")]
impl<T: Send> Lock<T> for parking_lot::Mutex<T> {
    fn new(value: T) -> Self {
        parking_lot::Mutex::new(value)
    }

    fn with<R>(&self, call: impl FnOnce(&mut T) -> R) -> R {
        call(&mut self.lock())
    }
}
