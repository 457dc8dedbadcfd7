//! async-broadcast, recorded as a shared flow whose emitters wait for the slowest subscriber.
use crate::block_on;
use crate::recorder::{Answer, Caller, Recording};
use async_broadcast::{broadcast, Receiver, Sender};
use std::thread;
use std::time::Duration;
use tokio::time::{sleep, timeout};

const VALUES: u64 = 300;

/// Sends values: some only if there is room, and the others within a millisecond.
async fn write(mut caller: Caller, sender: Sender<u64>, first: u64) {
    for value in first..first + VALUES {
        if value % 4 == 0 {
            caller.begin("try_emit", &[("value", value)]);
            let sent = sender.try_broadcast(value);
            caller.end(Answer::Bool(sent.is_ok()));
            continue;
        }
        caller.begin("emit", &[("value", value)]);
        match timeout(Duration::from_millis(1), sender.broadcast(value)).await {
            Ok(_) => caller.end(Answer::Done),
            Err(_) => caller.end(Answer::Cancelled),
        }
        let count = || sender.receiver_count();
        caller.record("subscription_count", &[], count, |it| Answer::Count(*it));
    }
}

/// Receives values until the senders are gone. Sleeps after each hundredth.
async fn read(mut caller: Caller, mut receiver: Receiver<u64>, fault: bool) {
    let mut last = 0;
    for number in 1.. {
        caller.begin("next", &[]);
        let value = match receiver.recv().await {
            Ok(value) => value,
            Err(_) => {
                caller.leave_out();
                break;
            }
        };
        let is_stale = fault && number == 20;
        caller.end(Answer::Value(if is_stale { last } else { value }));
        last = value;
        if number % 100 == 0 {
            sleep(Duration::from_millis(3)).await;
        }
    }
    caller.record("unsubscribe", &[], || drop(receiver), |_| Answer::Done);
}

pub fn run(recording: &Recording, fault: bool) -> &'static str {
    let (sender, receiver) = broadcast(2);
    // Without receivers the channel closes: the first one is a subscriber that stays.
    let mut first = recording.caller("r1");
    first.record("subscribe", &[], || (), |_| Answer::Done);
    let mut second = recording.caller("r2");
    let other = second.record("subscribe", &[], || sender.new_receiver(), |_| Answer::Done);
    thread::scope(|scope| {
        scope.spawn(move || block_on(read(first, receiver, fault)));
        scope.spawn(move || block_on(read(second, other, false)));
        for (name, first) in [("w1", 1_000), ("w2", 2_000)] {
            let (caller, sender) = (recording.caller(name), sender.clone());
            scope.spawn(move || block_on(write(caller, sender, first)));
        }
        drop(sender);
    });
    r#"{"kind": "shared", "replay": 0, "extra": 2, "overflow": "suspend"}"#
}
