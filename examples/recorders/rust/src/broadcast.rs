//! tokio's `broadcast`, recorded as a shared flow that drops the oldest value.
use crate::block_on;
use crate::recorder::{Answer, Caller, Recording};
use std::sync::{Arc, Barrier};
use std::thread;
use std::time::Duration;
use tokio::sync::broadcast::{self, error::RecvError, Receiver, Sender};
use tokio::time::sleep;

const VALUES: u64 = 300;

/// Sends values. Without receivers `send` fails: a shared flow without replay loses the value, too.
fn write(mut caller: Caller, sender: &Sender<u64>, first: u64) {
    for value in first..first + VALUES {
        caller.begin("try_emit", &[("value", value)]);
        let _ = sender.send(value);
        caller.end(Answer::Bool(true));
        let count = || sender.receiver_count();
        caller.record("subscription_count", &[], count, |it| Answer::Count(*it));
        if value % 8 == 0 {
            thread::sleep(Duration::from_micros(50));
        }
    }
}

/// Receives a value. A call that answers `Lagged` is left out: it says that the receiver goes on
/// with the oldest value that is kept, as a subscriber does whose next values were dropped.
async fn receive(caller: &mut Caller, receiver: &mut Receiver<u64>, stale: Option<u64>) -> u64 {
    loop {
        caller.begin("next", &[]);
        match receiver.recv().await {
            Ok(value) => {
                caller.end(Answer::Value(stale.unwrap_or(value)));
                return value;
            }
            Err(RecvError::Lagged(_)) => caller.leave_out(),
            Err(RecvError::Closed) => unreachable!("the reader holds a sender"),
        }
    }
}

/// Receives one value by a subscription of its own.
async fn first(caller: &mut Caller, sender: &Sender<u64>) {
    caller.begin("first", &[]);
    let mut receiver = sender.subscribe();
    let value = loop {
        match receiver.recv().await {
            Ok(value) => break value,
            Err(RecvError::Lagged(_)) => {}
            Err(RecvError::Closed) => unreachable!("the reader holds a sender"),
        }
    };
    drop(receiver);
    caller.end(Answer::Value(value));
}

/// Receives values for ever. Sleeps after each tenth. After each twentieth it takes one value by a
/// subscription of its own, and subscribes anew.
async fn read(mut caller: Caller, sender: &Sender<u64>, start: &Barrier, fault: bool) {
    let mut stale = None;
    for round in 0.. {
        let mut receiver = caller.record("subscribe", &[], || sender.subscribe(), |_| Answer::Done);
        if round == 0 {
            start.wait();
        }
        for number in 0..20 {
            let value = receive(&mut caller, &mut receiver, stale).await;
            stale = (fault && round + number == 0).then_some(value);
            if number == 9 {
                sleep(Duration::from_millis(1)).await;
            }
        }
        caller.record("unsubscribe", &[], || drop(receiver), |_| Answer::Done);
        first(&mut caller, sender).await;
    }
}

pub fn run(recording: &Recording, fault: bool) -> &'static str {
    // The number of kept values is rounded up to a power of two.
    let sender = Arc::new(broadcast::channel(4).0);
    let start = Arc::new(Barrier::new(4));
    // The readers wait for ever in the end: their last calls are pending.
    for (name, fault) in [("r1", fault), ("r2", false)] {
        let caller = recording.caller(name);
        let (sender, start) = (sender.clone(), start.clone());
        thread::spawn(move || block_on(read(caller, &sender, &start, fault)));
    }
    thread::scope(|scope| {
        for (name, first) in [("w1", 1_000), ("w2", 2_000)] {
            let caller = recording.caller(name);
            let (sender, start) = (&sender, &start);
            scope.spawn(move || {
                start.wait();
                write(caller, sender, first);
            });
        }
    });
    thread::sleep(Duration::from_millis(20));
    r#"{"kind": "shared", "replay": 0, "extra": 4, "overflow": "drop_oldest"}"#
}
