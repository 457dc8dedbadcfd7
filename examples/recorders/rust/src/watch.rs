//! tokio's `watch`, recorded as a state flow.
use crate::block_on;
use crate::recorder::{Answer, Caller, Recording};
use std::sync::{Arc, Barrier, Weak};
use std::thread;
use tokio::sync::watch::{self, Sender};

const VALUES: u64 = 150;

/// Sends a value. Without receivers `send` fails, and the value stays what it was.
fn send(caller: &mut Caller, sender: &Sender<u64>, value: u64) {
    caller.begin("set", &[("value", value)]);
    match sender.send(value) {
        Ok(()) => caller.end(Answer::Done),
        Err(_) => caller.leave_out(),
    }
}

/// Sends values that no other caller sends, and each third one twice.
fn write(mut caller: Caller, sender: Arc<Sender<u64>>, first: u64, fault: bool) {
    for number in first..first + VALUES {
        let value = number - u64::from(number % 3 == 0);
        if number % 4 == 0 {
            send(&mut caller, &sender, value);
        } else {
            caller.begin("update", &[]);
            let old = sender.send_replace(value);
            caller.end(Answer::Update { old, value });
        }
        let is_stale = fault && number == first + VALUES / 2;
        let look = || if is_stale { 0 } else { *sender.borrow() };
        caller.record("value", &[], look, |value| Answer::Value(*value));
        let count = || sender.receiver_count();
        caller.record("subscription_count", &[], count, |it| Answer::Count(*it));
        if number % 5 == 0 {
            let replay = || vec![*sender.borrow()];
            caller.record("replay_cache", &[], replay, |it| Answer::Values(it.clone()));
        }
        thread::yield_now();
    }
}

/// Receives values until the senders are gone. Subscribes anew after each fiftieth, and before that
/// takes one value by a subscription of its own.
async fn read(mut caller: Caller, senders: Weak<Sender<u64>>) {
    while let Some(sender) = senders.upgrade() {
        let first = || *sender.subscribe().borrow();
        caller.record("first", &[], first, |it| Answer::Value(*it));
        let mut receiver = caller.record("subscribe", &[], || sender.subscribe(), |_| Answer::Done);
        drop(sender);
        // A subscriber of a state flow receives the value that is there. `changed` skips it.
        let mut last = caller.record("next", &[], || *receiver.borrow(), |it| Answer::Value(*it));
        for _ in 0..50 {
            caller.begin("next", &[]);
            if matches!(receiver.has_changed(), Ok(false)) {
                caller.end(Answer::Empty);
                caller.begin("next", &[]);
            }
            if receiver.changed().await.is_err() {
                caller.leave_out();
                break;
            }
            let value = *receiver.borrow_and_update();
            // A subscriber of a state flow never receives a value that equals its last one.
            let call = if value == last { "value" } else { "next" };
            caller.end_as(call, Answer::Value(value));
            last = value;
        }
        caller.record("unsubscribe", &[], || drop(receiver), |_| Answer::Done);
    }
}

pub fn run(recording: &Recording, fault: bool) -> &'static str {
    let (sender, receiver) = watch::channel(0);
    drop(receiver);
    let sender = Arc::new(sender);
    let start = &Barrier::new(4);
    thread::scope(|scope| {
        for name in ["r1", "r2"] {
            let (caller, senders) = (recording.caller(name), Arc::downgrade(&sender));
            scope.spawn(move || {
                start.wait();
                block_on(read(caller, senders));
            });
        }
        for (name, first, fault) in [("w1", 1_001, fault), ("w2", 2_002, false)] {
            let (caller, sender) = (recording.caller(name), sender.clone());
            scope.spawn(move || {
                start.wait();
                write(caller, sender, first, fault);
            });
        }
        drop(sender);
    });
    r#"{"kind": "state", "initial": 0}"#
}
