//! `ref`: a chain that a shared flow shares (`shareIn`), in plain Rust, for one thread.
//!
//! A chain is an iterator that can be cloned: each start collects it from its beginning.
use crate::config::{Config, ConfigError, Overflow};
use crate::shared::{Emit, SharedFlow};

/// When the chain is collected (`SharingStarted`).
#[derive(Clone, Copy, Debug, PartialEq, Eq)]
pub enum Started {
    Eagerly,
    Lazily,
    /// The chain stops `stop` milliseconds after the last subscriber has gone, and the replay cache expires `expire`
    /// milliseconds later. `NEVER` for either is a moment that never comes.
    WhileSubscribed {
        stop: u64,
        expire: u64,
    },
}

pub const NEVER: u64 = u64::MAX;

const LEAST_BUFFER: u32 = 64;

#[derive(Clone, Copy, Debug, PartialEq, Eq)]
pub enum Command {
    Start,
    Stop,
    StopAndReset,
    Keep,
}

#[derive(Clone, Copy, Debug, PartialEq, Eq)]
pub enum Event {
    Put,
    Queued,
    Waiting,
    Completed,
    Idle,
}

#[derive(Clone, Copy, Debug, PartialEq, Eq)]
pub enum TurnError {
    /// The moment is before this one, which is that of the last turn.
    Backwards(u64),
    /// No number is left for the item. The next turn tries it again.
    Exhausted,
}

/// What a policy remembers of the turns so far.
struct Observed {
    moment: u64,
    is_subscribed: bool,
    had_subscribers: bool,
    idle_since: Option<u64>,
}

pub struct Sharing<T, C> {
    pub flow: SharedFlow<T>,
    chain: C,
    running: Option<C>,
    started: Started,
    observed: Observed,
    /// An item that the flow has not accepted.
    kept: Option<T>,
    emission: Option<u64>,
    has_completed: bool,
    is_expired: bool,
}

impl Started {
    fn runs(self, observed: &Observed) -> bool {
        match self {
            Started::Eagerly => true,
            Started::Lazily => observed.had_subscribers,
            Started::WhileSubscribed { stop, .. } => {
                let is_before_stop = |since| stop == NEVER || observed.moment - since < stop;
                observed.is_subscribed || observed.idle_since.map_or(false, is_before_stop)
            }
        }
    }

    fn is_expired(self, observed: &Observed) -> bool {
        match (self, observed.idle_since) {
            (Started::WhileSubscribed { stop, expire }, Some(since)) => {
                let ends = stop
                    .checked_add(expire)
                    .filter(|_| stop != NEVER && expire != NEVER);
                ends.map_or(false, |end| end <= observed.moment - since)
            }
            _ => false,
        }
    }
}

impl Observed {
    fn add(&mut self, moment: u64, is_subscribed: bool) {
        if is_subscribed {
            self.idle_since = None;
        } else if self.is_subscribed {
            self.idle_since = Some(moment);
        }
        self.moment = moment;
        self.is_subscribed = is_subscribed;
        self.had_subscribers |= is_subscribed;
    }
}

impl<T: Clone, C: Iterator<Item = T> + Clone> Sharing<T, C> {
    pub fn new(chain: C, started: Started, replay: u32, limit: u64) -> Result<Self, ConfigError> {
        let extra = LEAST_BUFFER.saturating_sub(replay);
        let config = Config {
            limit,
            ..Config::new(replay, extra, Overflow::Suspend)
        };
        Ok(Sharing {
            flow: SharedFlow::new(config)?,
            chain,
            running: None,
            started,
            observed: Observed {
                moment: 0,
                is_subscribed: false,
                had_subscribers: false,
                idle_since: None,
            },
            kept: None,
            emission: None,
            has_completed: false,
            is_expired: false,
        })
    }

    /// Counts the subscribers, starts or stops the chain, and emits at most one item.
    pub fn turn(&mut self, now: u64) -> Result<(Command, Event), TurnError> {
        if now < self.observed.moment {
            return Err(TurnError::Backwards(self.observed.moment));
        }
        self.observed.add(now, self.flow.subscription_count() > 0);
        let command = self.obey();
        let event = self.collect()?;
        Ok((command, event))
    }

    fn obey(&mut self) -> Command {
        let ran = self.running.is_some();
        let runs = self.started.runs(&self.observed);
        let was_expired = self.is_expired;
        self.is_expired = self.started.is_expired(&self.observed);
        if !ran && runs {
            self.running = Some(self.chain.clone());
            self.has_completed = false;
            return Command::Start;
        }
        if ran && !runs {
            self.stop();
        }
        if self.is_expired && !was_expired {
            self.flow.reset_replay_cache();
            return Command::StopAndReset;
        }
        if ran && !runs {
            Command::Stop
        } else {
            Command::Keep
        }
    }

    fn stop(&mut self) {
        self.running = None;
        self.kept = None;
        if let Some(number) = self.emission.take() {
            self.flow.cancel(number);
        }
    }

    fn collect(&mut self) -> Result<Event, TurnError> {
        let chain = match &mut self.running {
            Some(chain) => chain,
            None => return Ok(Event::Idle),
        };
        if self.has_completed {
            return Ok(Event::Completed);
        }
        if let Some(number) = self.emission {
            if self.flow.is_waiting(number) {
                return Ok(Event::Waiting);
            }
            self.emission = None;
        }
        let item = match self.kept.take().or_else(|| chain.next()) {
            Some(item) => item,
            None => {
                self.has_completed = true;
                return Ok(Event::Completed);
            }
        };
        match self.flow.emit(item) {
            Ok(Emit::Done) => Ok(Event::Put),
            Ok(Emit::Queued(number)) => {
                self.emission = Some(number);
                Ok(Event::Queued)
            }
            Err(refused) => {
                self.kept = Some(refused.0);
                Err(TurnError::Exhausted)
            }
        }
    }
}
