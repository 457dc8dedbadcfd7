//! Records calls of two writers and two readers: `record watch|broadcast|async_broadcast [--fault]`.
//!
//! With `--fault` one call answers a stale value.
mod async_broadcast;
mod broadcast;
mod recorder;
mod watch;

use recorder::Recording;
use std::env;
use std::future::Future;
use std::io;
use std::process::ExitCode;
use tokio::runtime::Builder;

/// Runs a future on this thread.
fn block_on<F: Future>(future: F) -> F::Output {
    let runtime = Builder::new_current_thread().enable_time().build();
    runtime.expect("a runtime").block_on(future)
}

fn main() -> ExitCode {
    let words: Vec<String> = env::args().skip(1).collect();
    let words: Vec<&str> = words.iter().map(String::as_str).collect();
    let (library, fault) = match words[..] {
        [library] => (library, false),
        [library, "--fault"] => (library, true),
        _ => ("", false),
    };
    let recording = Recording::default();
    let flow = match library {
        "watch" => watch::run(&recording, fault),
        "broadcast" => broadcast::run(&recording, fault),
        "async_broadcast" => async_broadcast::run(&recording, fault),
        _ => {
            eprintln!("record watch|broadcast|async_broadcast [--fault]");
            return ExitCode::from(2);
        }
    };
    recording
        .write(flow, io::stdout().lock())
        .expect("standard output");
    ExitCode::SUCCESS
}
