//! What people would use in place of Wumsnair's flows, timed by the same workloads.
//!
//! `peers WORKLOAD PEER [count=N] ..` prints one line of JSON. `peers play` reads calls of flows, and prints what each
//! returns, which tests `ref`. `peers collect` plays a script whose steps collect chains.
mod arguments;
#[cfg(feature = "async-broadcast")]
mod async_broadcast_peer;
mod chain;
mod collect;
mod condvar;
mod config;
mod crowd;
mod delivery;
mod flows;
mod json;
mod locks;
mod play;
mod shared;
mod sharing;
mod slab;
mod state;
mod states;
#[cfg(feature = "tokio")]
mod tokio_peer;
mod turns;

use arguments::{Sizes, Taken};
use condvar::Sleeping;
use config::Overflow::{DropOldest, Suspend};
use crowd::{time_crowd, time_idle, PollDrain, PollNext};
use delivery::{time_admitting, time_emitting, time_reading, Admission, Delivery};
use flows::{alone, locked, ByDrain, ByNext, Flow};
use locks::{Lock, Yielding};
use states::{time_number, time_updates, State};
use std::marker::PhantomData;
use std::process::exit;
use std::sync::Mutex;

fn time_delivery(workload: &str, flow: impl Delivery, sizes: Sizes) -> Option<Taken> {
    match workload {
        "emit_read" => Some(time_reading(flow, sizes)),
        "emit_unread" => Some(time_emitting(flow, sizes)),
        _ => None,
    }
}

fn time_admission(workload: &str, flow: impl Admission, sizes: Sizes) -> Option<Taken> {
    match workload {
        "suspend_admit" => Some(time_admitting(flow, sizes)),
        _ => None,
    }
}

fn alone_by_next(workload: &str, sizes: Sizes) -> Option<Taken> {
    let subscribers = sizes.subscribers;
    match workload {
        "share_turn" => Some(turns::time_turns(sizes)),
        "suspend_admit" => {
            time_admission(workload, ByNext::new(alone(Suspend, subscribers)), sizes)
        }
        _ => time_delivery(workload, ByNext::new(alone(DropOldest, subscribers)), sizes)
            .or_else(|| time_number(workload, states::Alone::new(), sizes)),
    }
}

fn locked_by_next<L: Lock<Flow>, S: Lock<State>>(workload: &str, sizes: Sizes) -> Option<Taken> {
    let subscribers = sizes.subscribers;
    match workload {
        "crowd" => Some(time_crowd::<PollNext<L>>(sizes)),
        "idle" => Some(time_idle::<PollNext<L>>()),
        "state_update" => Some(time_updates(PhantomData::<S>, sizes)),
        "suspend_admit" => time_admission(
            workload,
            ByNext::new(locked::<L>(Suspend, subscribers)),
            sizes,
        ),
        _ => time_delivery(
            workload,
            ByNext::new(locked::<L>(DropOldest, subscribers)),
            sizes,
        )
        .or_else(|| time_number(workload, states::Locked::<S>::new(), sizes)),
    }
}

fn locked_by_drain<L: Lock<Flow>>(workload: &str, sizes: Sizes) -> Option<Taken> {
    match workload {
        "crowd" => Some(time_crowd::<PollDrain<L>>(sizes)),
        _ => time_delivery(
            workload,
            ByDrain::new(locked::<L>(DropOldest, sizes.subscribers)),
            sizes,
        ),
    }
}

fn asleep(workload: &str, sizes: Sizes) -> Option<Taken> {
    match workload {
        "crowd" => Some(time_crowd::<Sleeping>(sizes)),
        "idle" => Some(time_idle::<Sleeping>()),
        _ => None,
    }
}

#[cfg(feature = "tokio")]
fn tokio(workload: &str, sizes: Sizes) -> Option<Taken> {
    use tokio_peer::{Broadcast, Watch};
    time_delivery(workload, Broadcast::new(sizes.subscribers), sizes)
        .or_else(|| time_number(workload, Watch::new(), sizes))
}

#[cfg(feature = "async-broadcast")]
fn async_broadcast(workload: &str, sizes: Sizes) -> Option<Taken> {
    use async_broadcast_peer::{time_crowd, Broadcast};
    let flow = |drops_oldest| Broadcast::new(drops_oldest, delivery::ROOM, sizes.subscribers);
    match workload {
        "crowd" => Some(time_crowd(sizes)),
        "suspend_admit" => time_admission(workload, flow(false), sizes),
        _ => time_delivery(workload, flow(true), sizes),
    }
}

/// Does the work once. Returns `None` if this peer has no such workload.
fn run(workload: &str, peer: &str, sizes: Sizes) -> Option<Taken> {
    match peer {
        "ref" => alone_by_next(workload, sizes),
        "ref_drain" => time_delivery(
            workload,
            ByDrain::new(alone(DropOldest, sizes.subscribers)),
            sizes,
        ),
        "ref_mutex" => locked_by_next::<Mutex<Flow>, Mutex<State>>(workload, sizes),
        "ref_mutex_drain" => locked_by_drain::<Mutex<Flow>>(workload, sizes),
        "ref_condvar" => asleep(workload, sizes),
        "ref_yielding" => locked_by_next::<Yielding<Flow>, Yielding<State>>(workload, sizes),
        "ref_yielding_drain" => locked_by_drain::<Yielding<Flow>>(workload, sizes),
        #[cfg(feature = "parking_lot")]
        "ref_parking_lot" => {
            locked_by_next::<parking_lot::Mutex<Flow>, parking_lot::Mutex<State>>(workload, sizes)
        }
        #[cfg(feature = "parking_lot")]
        "ref_parking_lot_drain" => locked_by_drain::<parking_lot::Mutex<Flow>>(workload, sizes),
        #[cfg(feature = "tokio")]
        "tokio" => tokio(workload, sizes),
        #[cfg(feature = "async-broadcast")]
        "async_broadcast" => async_broadcast(workload, sizes),
        _ => None,
    }
}

fn best(workload: &str, peer: &str, sizes: Sizes) -> Option<Taken> {
    let mut best = run(workload, peer, sizes)?;
    for _ in 1..sizes.repeats {
        let taken = run(workload, peer, sizes)?;
        if taken.nanoseconds < best.nanoseconds {
            best = taken;
        }
    }
    Some(best)
}

fn main() {
    let words: Vec<String> = std::env::args().skip(1).collect();
    match words.as_slice() {
        [word] if word == "play" => play::play(),
        [word] if word == "collect" => collect::play(),
        [workload, peer, sizes @ ..] => match Sizes::parse(sizes) {
            Ok(sizes) => match best(workload, peer, sizes) {
                Some(taken) => taken.print(workload, peer, sizes),
                None => println!("{{\"error\":\"no such workload\"}}"),
            },
            Err(error) => println!("{{\"error\":\"{error}\"}}"),
        },
        _ => {
            eprintln!("peers WORKLOAD PEER [count=N] .., or peers play");
            exit(2);
        }
    }
}
