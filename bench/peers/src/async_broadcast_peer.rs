//! async-broadcast, whose senders wait for the slowest receiver, or drop the oldest value.
use crate::arguments::{Sizes, Taken};
use crate::crowd::deliveries;
use crate::delivery::{sum_received, Admission, Delivery, Received};
use async_broadcast::{broadcast, Receiver, Sender};
use std::future::Future;
use std::pin::Pin;
use std::sync::Arc;
use std::task::{Context, Poll, Wake, Waker};
use std::thread::{self, Thread};

pub struct Broadcast {
    sender: Sender<i64>,
    receivers: Vec<Receiver<i64>>,
    waker: Waker,
}

/// Wakes a thread that is parked.
struct Unpark(Thread);

struct Ignore;

impl Wake for Unpark {
    fn wake(self: Arc<Self>) {
        self.0.unpark();
    }
}

impl Wake for Ignore {
    fn wake(self: Arc<Self>) {}
}

impl Broadcast {
    pub fn new(drops_oldest: bool, room: usize, subscribers: u64) -> Self {
        let (mut sender, first) = broadcast(room);
        sender.set_overflow(drops_oldest);
        let receivers = (0..subscribers).map(|_| sender.new_receiver()).collect();
        drop(first);
        Broadcast {
            sender,
            receivers,
            waker: Arc::new(Ignore).into(),
        }
    }
}

impl Delivery for Broadcast {
    fn emit(&mut self, value: i64) {
        self.sender.try_broadcast(value).expect("there is room");
    }

    fn read_all(&mut self) -> i64 {
        sum_received(&mut self.receivers, |receiver| match receiver.try_recv() {
            Ok(value) => Received::Value(value),
            Err(async_broadcast::TryRecvError::Overflowed(_)) => Received::Lost,
            Err(_) => Received::Nothing,
        })
    }
}

impl Admission for Broadcast {
    fn offer(&mut self, value: i64) -> bool {
        self.sender.try_broadcast(value).is_ok()
    }

    fn admit(&mut self, value: i64) -> i64 {
        let mut context = Context::from_waker(&self.waker);
        let mut emission = self.sender.broadcast(value);
        assert!(Pin::new(&mut emission).poll(&mut context).is_pending());
        let mut sum = 0i64;
        for receiver in &mut self.receivers {
            if let Ok(received) = receiver.try_recv() {
                sum = sum.wrapping_add(received);
            }
        }
        assert!(Pin::new(&mut emission).poll(&mut context).is_ready());
        sum
    }
}

/// Polls a future to its end, and parks the thread while it is pending.
fn block_on<F: Future + Unpin>(waker: &Waker, mut future: F) -> F::Output {
    let mut context = Context::from_waker(waker);
    loop {
        match Pin::new(&mut future).poll(&mut context) {
            Poll::Ready(output) => return output,
            Poll::Pending => thread::park(),
        }
    }
}

fn waker_of_this_thread() -> Waker {
    Arc::new(Unpark(thread::current())).into()
}

fn emit_all(sender: Sender<i64>, first: i64, count: i64) {
    let waker = waker_of_this_thread();
    for value in first..first + count {
        block_on(&waker, sender.broadcast(value)).expect("there are receivers");
    }
}

fn read_all(mut receiver: Receiver<i64>, count: u64) -> i64 {
    let waker = waker_of_this_thread();
    let values =
        (0..count).map(|_| block_on(&waker, receiver.recv()).expect("the senders are there"));
    values.fold(0, i64::wrapping_add)
}

fn run(flow: Broadcast, sizes: Sizes) -> i64 {
    let Broadcast {
        sender, receivers, ..
    } = flow;
    let emitted = sizes.threads * sizes.count;
    let count = sizes.count as i64;
    thread::scope(|scope| {
        let read = |receiver| scope.spawn(move || read_all(receiver, emitted));
        let readers: Vec<_> = receivers.into_iter().map(read).collect();
        for emitter in 0..sizes.threads as i64 {
            let sender = sender.clone();
            scope.spawn(move || emit_all(sender, emitter * count, count));
        }
        let sums = readers
            .into_iter()
            .map(|reader| reader.join().expect("a reader does not panic"));
        sums.fold(0, i64::wrapping_add)
    })
}

/// Times a crowd whose threads park while they wait.
pub fn time_crowd(sizes: Sizes) -> Taken {
    let flow = Broadcast::new(false, sizes.room as usize, sizes.subscribers);
    Taken::by(deliveries(sizes), || run(flow, sizes))
}
