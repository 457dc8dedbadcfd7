//! The arguments: `WORKLOAD PEER [count=N] [subscribers=N] [before=N] [threads=N] [room=N] [repeats=N]`.
use std::time::Instant;

#[derive(Clone, Copy)]
pub struct Sizes {
    pub count: u64,
    pub subscribers: u64,
    /// Values that are emitted before the clock starts.
    pub before: u64,
    pub threads: u64,
    /// The number of values that the flow of a crowd keeps for its subscribers.
    pub room: u64,
    pub repeats: u64,
}

/// The time of a workload, the number of its operations, and a sum that shows that the work was done.
#[derive(Clone, Copy)]
pub struct Taken {
    pub nanoseconds: u128,
    pub operations: u64,
    pub sum: i64,
}

impl Sizes {
    pub fn parse(words: &[String]) -> Result<Sizes, String> {
        let mut sizes = Sizes {
            count: 1_000_000,
            subscribers: 1,
            before: 0,
            threads: 1,
            room: 16,
            repeats: 5,
        };
        for word in words {
            let (name, digits) = word.split_once('=').ok_or("no size")?;
            let number = digits.parse().map_err(|_| "no number")?;
            match name {
                "count" => sizes.count = number,
                "subscribers" => sizes.subscribers = number,
                "before" => sizes.before = number,
                "threads" => sizes.threads = number,
                "room" => sizes.room = number,
                "repeats" => sizes.repeats = number,
                _ => return Err(format!("no size {name}")),
            }
        }
        Ok(sizes)
    }
}

impl Taken {
    /// Times some work, which returns the sum.
    pub fn by(operations: u64, work: impl FnOnce() -> i64) -> Taken {
        let start = Instant::now();
        let sum = work();
        Taken {
            nanoseconds: start.elapsed().as_nanos(),
            operations,
            sum,
        }
    }

    pub fn print(&self, workload: &str, peer: &str, sizes: Sizes) {
        println!(
            "{{\"workload\":\"{workload}\",\"peer\":\"{peer}\",\"count\":{},\"subscribers\":{},\"before\":{},\"threads\":{},\"nanoseconds\":{},\"operations\":{},\"sum\":{}}}",
            sizes.count, sizes.subscribers, sizes.before, sizes.threads, self.nanoseconds, self.operations, self.sum
        );
    }
}
