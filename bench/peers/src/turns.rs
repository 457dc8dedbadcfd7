//! Turns of a sharing over the `ref` flow.
use crate::arguments::{Sizes, Taken};
use crate::shared::Next;
use crate::sharing::{Sharing, Started};

/// Times a chain of numbers that is shared with subscribers, each of which receives after every turn. An operation is a
/// turn and what the subscribers receive after it.
pub fn time_turns(sizes: Sizes) -> Taken {
    let count = sizes.count as i64;
    let mut sharing =
        Sharing::new(1..=count, Started::Lazily, 0, u64::MAX).expect("there is a buffer");
    let subscribe = |_| sharing.flow.subscribe().expect("there are numbers");
    let ids: Vec<_> = (0..sizes.subscribers).map(subscribe).collect();
    Taken::by(sizes.count, || {
        let mut sum = 0i64;
        for moment in 0..sizes.count {
            sharing.turn(moment).expect("time goes forward");
            for &id in &ids {
                if let Next::Value(value) = sharing.flow.next(id) {
                    sum = sum.wrapping_add(value);
                }
            }
        }
        sum
    })
}
