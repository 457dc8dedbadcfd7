//! Records the calls that threads or tasks make of a flow, for `judge`. Copy this file.
//!
//! Each caller has a buffer of its own. All callers raise one counter before and after each call.
#![allow(dead_code)]
use std::fmt::{self, Display, Formatter};
use std::io::{self, Write};
use std::sync::atomic::{AtomicU64, Ordering};
use std::sync::{Arc, Mutex};

pub enum Answer {
    Done,
    Cancelled,
    Empty,
    Bool(bool),
    Value(u64),
    Update { old: u64, value: u64 },
    Count(usize),
    Values(Vec<u64>),
}

/// The numbers of a call, by their keys: `&[("expect", 3), ("value", 4)]`.
type Numbers<'a> = &'a [(&'static str, u64)];

struct Recorded {
    call: &'static str,
    numbers: Vec<(&'static str, u64)>,
    begin: u64,
    /// `None` while the call is pending.
    ended: Option<(u64, Answer)>,
}

type Calls = Arc<Mutex<Vec<Recorded>>>;

#[derive(Default)]
pub struct Recording {
    clock: Arc<AtomicU64>,
    callers: Mutex<Vec<(String, Calls)>>,
}

/// A caller makes one call at a time, and has at most one subscription.
pub struct Caller {
    clock: Arc<AtomicU64>,
    calls: Calls,
}

fn tick(clock: &AtomicU64) -> u64 {
    clock.fetch_add(1, Ordering::SeqCst)
}

impl Recording {
    pub fn caller(&self, name: &str) -> Caller {
        let calls = Calls::default();
        let mut callers = self.callers.lock().unwrap();
        callers.push((name.to_string(), calls.clone()));
        let clock = self.clock.clone();
        Caller { clock, calls }
    }

    /// Writes the flow and the calls up to now. Those that have not ended are pending, and their
    /// callers may still wait.
    pub fn write(&self, flow: &str, mut out: impl Write) -> io::Result<()> {
        let cut = tick(&self.clock);
        writeln!(out, r#"{{"flow": {flow}}}"#)?;
        for (by, calls) in self.callers.lock().unwrap().iter() {
            let calls = calls.lock().unwrap();
            for recorded in calls.iter().filter(|it| it.begin < cut) {
                write!(out, r#"{{"by": "{by}", {recorded}"#)?;
                if let Some((end, answer)) = recorded.ended.as_ref().filter(|it| it.0 < cut) {
                    write!(out, r#", "end": {end}, "answer": {answer}"#)?;
                }
                writeln!(out, "}}")?;
            }
        }
        out.flush()
    }
}

impl Caller {
    /// Begins a call. It is pending until `end`; a caller whose call never ends makes no other.
    pub fn begin(&mut self, call: &'static str, numbers: Numbers) {
        let mut calls = self.calls.lock().unwrap();
        let is_over = calls.last().map_or(true, |last| last.ended.is_some());
        assert!(is_over, "the last call has not ended");
        calls.push(Recorded {
            call,
            numbers: numbers.to_vec(),
            begin: tick(&self.clock),
            ended: None,
        });
    }

    /// Ends the call that was begun.
    pub fn end(&mut self, answer: Answer) {
        let ended = Some((tick(&self.clock), answer));
        let mut calls = self.calls.lock().unwrap();
        calls.last_mut().expect("a call was begun").ended = ended;
    }

    /// Ends the call that was begun as another one, which its answer showed it to be.
    pub fn end_as(&mut self, call: &'static str, answer: Answer) {
        self.end(answer);
        let mut calls = self.calls.lock().unwrap();
        calls.last_mut().expect("a call was begun").call = call;
    }

    /// Leaves out the call that was begun, since it changed nothing.
    pub fn leave_out(&mut self) {
        self.calls.lock().unwrap().pop();
    }

    /// Records a call that does not wait.
    pub fn record<T>(
        &mut self,
        call: &'static str,
        numbers: Numbers,
        body: impl FnOnce() -> T,
        answer: impl FnOnce(&T) -> Answer,
    ) -> T {
        self.begin(call, numbers);
        let result = body();
        self.end(answer(&result));
        result
    }
}

impl Display for Recorded {
    fn fmt(&self, f: &mut Formatter) -> fmt::Result {
        write!(f, r#""call": "{}""#, self.call)?;
        for (key, number) in &self.numbers {
            write!(f, r#", "{key}": {number}"#)?;
        }
        write!(f, r#", "begin": {}"#, self.begin)
    }
}

impl Display for Answer {
    fn fmt(&self, f: &mut Formatter) -> fmt::Result {
        match self {
            Answer::Done => write!(f, r#""done""#),
            Answer::Cancelled => write!(f, r#""cancelled""#),
            Answer::Empty => write!(f, r#""empty""#),
            Answer::Bool(answer) => write!(f, "{answer}"),
            Answer::Value(value) => write!(f, r#"{{"value": {value}}}"#),
            Answer::Update { old, value } => write!(f, r#"{{"old": {old}, "value": {value}}}"#),
            Answer::Count(count) => write!(f, "{count}"),
            Answer::Values(values) => write!(f, "{values:?}"),
        }
    }
}
