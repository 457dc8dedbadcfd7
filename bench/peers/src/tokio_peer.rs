//! tokio's `broadcast`, which drops the oldest value, and its `watch`.
use crate::delivery::{sum_received, Delivery, Received, ROOM};
use crate::states::Number;
use tokio::sync::broadcast::{self, error::TryRecvError};
use tokio::sync::watch;

pub struct Broadcast {
    sender: broadcast::Sender<i64>,
    receivers: Vec<broadcast::Receiver<i64>>,
}

pub struct Watch {
    sender: watch::Sender<i64>,
    receiver: watch::Receiver<i64>,
}

impl Broadcast {
    pub fn new(subscribers: u64) -> Self {
        let (sender, _receiver) = broadcast::channel(ROOM);
        let receivers = (0..subscribers).map(|_| sender.subscribe()).collect();
        Broadcast { sender, receivers }
    }
}

impl Delivery for Broadcast {
    fn emit(&mut self, value: i64) {
        self.sender.send(value).expect("there are receivers");
    }

    fn read_all(&mut self) -> i64 {
        sum_received(&mut self.receivers, |receiver| match receiver.try_recv() {
            Ok(value) => Received::Value(value),
            Err(TryRecvError::Lagged(_)) => Received::Lost,
            Err(_) => Received::Nothing,
        })
    }
}

impl Watch {
    pub fn new() -> Self {
        let (sender, receiver) = watch::channel(0);
        Watch { sender, receiver }
    }
}

impl Number for Watch {
    fn set(&mut self, value: i64) {
        self.sender.send_replace(value);
    }

    fn value(&mut self) -> i64 {
        *self.sender.borrow()
    }

    fn compare_and_set(&mut self, expect: i64, update: i64) -> bool {
        self.sender.send_if_modified(|value| {
            let is_expected = *value == expect;
            if is_expected {
                *value = update;
            }
            is_expected
        })
    }

    fn next(&mut self) -> Option<i64> {
        match self.receiver.has_changed() {
            Ok(true) => Some(*self.receiver.borrow_and_update()),
            _ => None,
        }
    }
}
