//! A cold chain that is built at run time, as a boxed enum.
use std::ops::RangeInclusive;
use std::vec::IntoIter;

#[derive(Clone, Copy, Debug, PartialEq, Eq)]
pub enum Fault {
    Overflow,
    NotPositive,
    Source(i64),
    TooDeep,
}

pub enum Entry {
    Item(i64),
    Pending,
    Fault(i64),
}

#[derive(Clone, Copy)]
pub enum Arithmetic {
    Add,
    Mul,
}

#[derive(Clone, Copy)]
pub enum Test {
    Even,
    Odd,
    Less(i64),
    Greater(i64),
    NotEqual(i64),
}

#[derive(Clone, Copy)]
pub enum Pairing {
    By(Arithmetic),
    Left,
    Right,
}

pub enum Node {
    Of(IntoIter<i64>),
    Range(RangeInclusive<i64>),
    Script(IntoIter<Entry>),
    Map(Box<Node>, Arithmetic, i64),
    Filter(Box<Node>, Test),
    /// Takes items until the flag is set.
    TakeWhile(Box<Node>, Test, bool),
    /// Keeps what is left of the last item.
    Transform(Box<Node>, Vec<i64>, IntoIter<i64>),
    Take(Box<Node>, i64),
    Drop(Box<Node>, i64),
    /// The flag is set once the initial value was given.
    Scan(Box<Node>, Arithmetic, i64, bool),
    FlatMapRange(Box<Node>, i64, RangeInclusive<i64>),
    /// Keeps the last item, and how many times it must still be given.
    FlatMapRepeat(Box<Node>, i64, i64, i64),
    Zip(Box<Node>, Box<Node>, Pairing),
    Distinct(Box<Node>, Option<i64>),
    /// Drops items until the flag is set.
    DropWhile(Box<Node>, Test, bool),
    RunningReduce(Box<Node>, Arithmetic, Option<i64>),
}

type Answer = Result<Option<i64>, Fault>;

impl Arithmetic {
    fn of(self, x: i64, y: i64) -> Result<i64, Fault> {
        let result = match self {
            Arithmetic::Add => x.checked_add(y),
            Arithmetic::Mul => x.checked_mul(y),
        };
        result.ok_or(Fault::Overflow)
    }
}

impl Test {
    fn passes(self, x: i64) -> bool {
        match self {
            Test::Even => x % 2 == 0,
            Test::Odd => x % 2 != 0,
            Test::Less(k) => x < k,
            Test::Greater(k) => x > k,
            Test::NotEqual(k) => x != k,
        }
    }
}

fn next_entry(entries: &mut IntoIter<Entry>) -> Answer {
    loop {
        match entries.next() {
            Some(Entry::Item(item)) => return Ok(Some(item)),
            Some(Entry::Pending) => {}
            Some(Entry::Fault(number)) => return Err(Fault::Source(number)),
            None => return Ok(None),
        }
    }
}

fn next_passing(upstream: &mut Node, test: Test) -> Answer {
    loop {
        match upstream.next()? {
            Some(item) if !test.passes(item) => {}
            answer => return Ok(answer),
        }
    }
}

fn next_dropping(upstream: &mut Node, left: &mut i64) -> Answer {
    while *left > 0 {
        if upstream.next()?.is_none() {
            return Ok(None);
        }
        *left -= 1;
    }
    upstream.next()
}

fn next_distinct(upstream: &mut Node, last: &mut Option<i64>) -> Answer {
    loop {
        let item = upstream.next()?;
        if item.is_none() || item != *last {
            *last = item;
            return Ok(item);
        }
    }
}

fn next_transformed(upstream: &mut Node, entries: &[i64], left: &mut IntoIter<i64>) -> Answer {
    loop {
        if let Some(item) = left.next() {
            return Ok(Some(item));
        }
        let item = match upstream.next()? {
            Some(item) => item,
            None => return Ok(None),
        };
        let sums = entries.iter().map(|entry| Arithmetic::Add.of(item, *entry));
        *left = sums.collect::<Result<Vec<_>, _>>()?.into_iter();
    }
}

fn next_of_range(upstream: &mut Node, count: i64, left: &mut RangeInclusive<i64>) -> Answer {
    loop {
        if let Some(item) = left.next() {
            return Ok(Some(item));
        }
        match upstream.next()? {
            Some(item) if count > 0 => *left = item..=Arithmetic::Add.of(item, count - 1)?,
            Some(_) => {}
            None => return Ok(None),
        }
    }
}

fn next_repeated(upstream: &mut Node, count: i64, last: &mut i64, left: &mut i64) -> Answer {
    while *left == 0 {
        match upstream.next()? {
            Some(item) => (*last, *left) = (item, count),
            None => return Ok(None),
        }
    }
    *left -= 1;
    Ok(Some(*last))
}

fn next_pair(left: &mut Node, right: &mut Node, pairing: Pairing) -> Answer {
    let x = match left.next()? {
        Some(x) => x,
        None => return Ok(None),
    };
    let y = match right.next()? {
        Some(y) => y,
        None => return Ok(None),
    };
    match pairing {
        Pairing::By(arithmetic) => arithmetic.of(x, y).map(Some),
        Pairing::Left => Ok(Some(x)),
        Pairing::Right => Ok(Some(y)),
    }
}

impl Node {
    /// Returns the next item, or the end. Asks again while the chain is pending.
    pub fn next(&mut self) -> Answer {
        match self {
            Node::Of(items) => Ok(items.next()),
            Node::Range(range) => Ok(range.next()),
            Node::Script(entries) => next_entry(entries),
            Node::Map(upstream, by, k) => match upstream.next()? {
                Some(item) => by.of(item, *k).map(Some),
                None => Ok(None),
            },
            Node::Filter(upstream, test) => next_passing(upstream, *test),
            Node::TakeWhile(upstream, test, has_ended) => {
                let item = if *has_ended { None } else { upstream.next()? };
                let taken = item.filter(|item| test.passes(*item));
                *has_ended = taken.is_none();
                Ok(taken)
            }
            Node::Transform(upstream, entries, left) => next_transformed(upstream, entries, left),
            Node::Take(_, 0) => Ok(None),
            Node::Take(upstream, left) => {
                *left -= 1;
                upstream.next()
            }
            Node::Drop(upstream, left) => next_dropping(upstream, left),
            Node::Scan(_, _, last, has_begun) if !*has_begun => {
                *has_begun = true;
                Ok(Some(*last))
            }
            Node::Scan(upstream, by, last, _) => {
                let item = upstream.next()?;
                if let Some(item) = item {
                    *last = by.of(*last, item)?;
                }
                Ok(item.map(|_| *last))
            }
            Node::FlatMapRange(upstream, count, left) => next_of_range(upstream, *count, left),
            Node::FlatMapRepeat(upstream, count, last, left) => {
                next_repeated(upstream, *count, last, left)
            }
            Node::Zip(left, right, pairing) => next_pair(left, right, *pairing),
            Node::Distinct(upstream, last) => next_distinct(upstream, last),
            Node::DropWhile(upstream, _, true) => upstream.next(),
            Node::DropWhile(upstream, test, has_begun) => loop {
                match upstream.next()? {
                    Some(item) if test.passes(item) => {}
                    answer => {
                        *has_begun = true;
                        return Ok(answer);
                    }
                }
            },
            Node::RunningReduce(upstream, by, last) => {
                let item = match (upstream.next()?, *last) {
                    (Some(item), Some(last)) => Some(by.of(last, item)?),
                    (item, _) => item,
                };
                *last = item;
                Ok(item)
            }
        }
    }
}
