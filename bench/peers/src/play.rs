//! Plays calls of `ref` flows, one a line, and prints what each returns, as the program `flow_play` does.
//!
//! A line that begins with `flow` makes a flow; every other line names the flow that it calls:
//!
//! ```text
//! flow f shared 1 0 suspend 18446744073709551615
//! flow g state 5 18446744073709551615
//! flow h share 0 stop:100:18446744073709551615 18446744073709551615 10 20 30
//! f subscribe a 8 9
//! f emit e 7
//! ```
use crate::config::{Config, ConfigError, Overflow};
use crate::shared::{Emit, Next, SharedFlow};
use crate::sharing::{Command, Event, Sharing, Started, TurnError};
use crate::slab::Id;
use crate::state::StateFlow;
use std::collections::HashMap;
use std::io::{self, BufRead};
use std::vec::IntoIter;

enum Flow {
    Shared(SharedFlow<i64>),
    State(StateFlow<i64>),
    Share(Sharing<i64, IntoIter<i64>>),
}

/// The subscribers and emissions by their names, without refused subscriptions and emissions that did not have to wait.
#[derive(Default)]
struct Names {
    subscribers: HashMap<String, Id>,
    emissions: HashMap<String, u64>,
}

impl Names {
    /// Keeps a new subscriber under its name.
    fn subscribe<E>(&mut self, name: &str, subscribed: Result<Id, E>) -> String {
        let Ok(id) = subscribed else {
            return EXHAUSTED.to_string();
        };
        self.subscribers.insert(name.to_string(), id);
        "subscribed".to_string()
    }

    fn next(&self, name: &str, next_of: impl FnOnce(Id) -> Next<i64>) -> Next<i64> {
        self.subscribers
            .get(name)
            .map_or(Next::Gone, |&id| next_of(id))
    }

    fn unsubscribe(&self, name: &str, unsubscribes: impl FnOnce(Id) -> bool) -> String {
        self.subscribers
            .get(name)
            .map_or(false, |&id| unsubscribes(id))
            .to_string()
    }
}

fn number<N: std::str::FromStr>(word: &str) -> N {
    word.parse()
        .unwrap_or_else(|_| panic!("{word} is no number"))
}

fn overflow(word: &str) -> Overflow {
    match word {
        "suspend" => Overflow::Suspend,
        "drop_oldest" => Overflow::DropOldest,
        "drop_latest" => Overflow::DropLatest,
        _ => panic!("{word} is no overflow strategy"),
    }
}

fn started(word: &str) -> Started {
    match word.split(':').collect::<Vec<_>>()[..] {
        ["eagerly"] => Started::Eagerly,
        ["lazily"] => Started::Lazily,
        ["stop", stop, expire] => Started::WhileSubscribed {
            stop: number(stop),
            expire: number(expire),
        },
        _ => panic!("{word} is no policy"),
    }
}

fn make(words: &[&str]) -> Result<Flow, ConfigError> {
    match words {
        ["shared", replay, extra, strategy, limit] => {
            let config = Config::new(number(replay), number(extra), overflow(strategy));
            let limit = number(limit);
            SharedFlow::new(Config { limit, ..config }).map(Flow::Shared)
        }
        ["state", initial, limit] => {
            Ok(Flow::State(StateFlow::new(number(initial), number(limit))))
        }
        ["share", replay, policy, limit, items @ ..] => {
            let items: Vec<i64> = items.iter().map(|item| number(item)).collect();
            let chain = items.into_iter();
            Sharing::new(chain, started(policy), number(replay), number(limit)).map(Flow::Share)
        }
        _ => panic!("{words:?} is no flow"),
    }
}

fn received(next: Next<i64>) -> String {
    match next {
        Next::Value(value) => format!("value {value}"),
        Next::Empty => "empty".to_string(),
        Next::Gone => "gone".to_string(),
    }
}

const EXHAUSTED: &str = "refused 4 Exhausted";

fn call_shared(flow: &mut SharedFlow<i64>, names: &mut Names, words: &[&str]) -> String {
    match words {
        ["try_emit", value] => match flow.try_emit(number(value)) {
            Ok(accepted) => accepted.to_string(),
            Err(_) => EXHAUSTED.to_string(),
        },
        ["emit", name, value] => match flow.emit(number(value)) {
            Ok(Emit::Done) => "done".to_string(),
            Ok(Emit::Queued(emission)) => {
                names.emissions.insert(name.to_string(), emission);
                "queued".to_string()
            }
            Err(_) => EXHAUSTED.to_string(),
        },
        ["poll", name] => match names.emissions.get(*name) {
            Some(&emission) if flow.is_waiting(emission) => "waiting".to_string(),
            _ => "done".to_string(),
        },
        ["cancel", name] => {
            let emission = names.emissions.get(*name);
            emission
                .map_or(false, |&emission| flow.cancel(emission))
                .to_string()
        }
        ["subscribe", name, own @ ..] => {
            let own = own.iter().map(|value| number(value)).collect();
            names.subscribe(name, flow.subscribe_with(own))
        }
        ["next", name] => received(names.next(name, |id| flow.next(id))),
        ["unsubscribe", name] => names.unsubscribe(name, |id| flow.unsubscribe(id)),
        ["cache"] => format!("{:?}", flow.replay_cache()),
        ["count"] => flow.subscription_count().to_string(),
        ["reset"] => {
            flow.reset_replay_cache();
            "reset".to_string()
        }
        _ => panic!("{words:?} is no call of a shared flow"),
    }
}

fn call_state(flow: &mut StateFlow<i64>, names: &mut Names, words: &[&str]) -> String {
    match words {
        ["set", value] => {
            flow.set(number(value));
            "set".to_string()
        }
        ["try_emit", value] => {
            flow.set(number(value));
            "true".to_string()
        }
        ["value"] => flow.value().to_string(),
        ["compare_and_set", expect, update] => flow
            .compare_and_set(&number(expect), number(update))
            .to_string(),
        ["subscribe", name] => names.subscribe(name, flow.subscribe()),
        ["next", name] => received(names.next(name, |id| flow.next(id))),
        ["unsubscribe", name] => names.unsubscribe(name, |id| flow.unsubscribe(id)),
        ["cache"] => format!("[{}]", flow.value()),
        ["count"] => flow.subscription_count().to_string(),
        ["reset"] => "refused 5 Unsupported".to_string(),
        _ => panic!("{words:?} is no call of a state flow"),
    }
}

fn turn(sharing: &mut Sharing<i64, IntoIter<i64>>, moment: u64) -> String {
    let (command, event) = match sharing.turn(moment) {
        Ok(report) => report,
        Err(TurnError::Backwards(last)) => return format!("refused 1 Backwards {last}"),
        Err(TurnError::Exhausted) => return "refused 4 Flow 4 Exhausted".to_string(),
    };
    let command = match command {
        Command::Start => "start",
        Command::Stop => "stop",
        Command::StopAndReset => "stop_and_reset",
        Command::Keep => "keep",
    };
    let event = match event {
        Event::Put => "put",
        Event::Queued => "queued",
        Event::Waiting => "waiting",
        Event::Completed => "completed",
        Event::Idle => "idle",
    };
    format!("{command} {event}")
}

fn call(flow: &mut Flow, names: &mut Names, words: &[&str]) -> String {
    match (flow, words) {
        (Flow::Share(sharing), ["turn", moment]) => turn(sharing, number(moment)),
        (Flow::Share(sharing), words) => call_shared(&mut sharing.flow, names, words),
        (Flow::Shared(flow), words) => call_shared(flow, names, words),
        (Flow::State(flow), words) => call_state(flow, names, words),
    }
}

/// Prints a line for each flow that is refused, and for each call. A call of a flow that was refused prints `no flow`.
pub fn play() {
    let mut flows = HashMap::new();
    let mut names = Names::default();
    for line in io::stdin().lock().lines() {
        let line = line.expect("the calls are text");
        let words: Vec<&str> = line.split(' ').collect();
        match words.as_slice() {
            ["flow", name, description @ ..] => match make(description) {
                Ok(flow) => {
                    flows.insert(name.to_string(), flow);
                }
                Err(ConfigError::TooLarge) => println!("{name} refused 2 TooLarge"),
                Err(ConfigError::NeedsBuffer) => println!("{name} refused 3 NeedsBuffer"),
            },
            [name, words @ ..] => match flows.get_mut(*name) {
                Some(flow) => println!("{}", call(flow, &mut names, words)),
                None => println!("no flow"),
            },
            [] => {}
        }
    }
}
