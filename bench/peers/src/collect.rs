//! Scripts whose steps collect chains, played in plain Rust: what `flow_play` prints of them.
use crate::chain::{Arithmetic, Entry, Fault, Node, Pairing, Test};
use crate::json::Json;
use std::io::{self, Read, Write};

const DEEPEST: usize = 64;

fn arithmetic(word: &str) -> Arithmetic {
    match word {
        "add" => Arithmetic::Add,
        "mul" => Arithmetic::Mul,
        _ => panic!("{word} is no arithmetic"),
    }
}

fn test(op: &Json) -> Test {
    match op.get("by").text() {
        "even" => Test::Even,
        "odd" => Test::Odd,
        "lt" => Test::Less(op.get("k").number()),
        "gt" => Test::Greater(op.get("k").number()),
        "ne" => Test::NotEqual(op.get("k").number()),
        word => panic!("{word} is no test"),
    }
}

fn entry(json: &Json) -> Entry {
    match json {
        Json::Number(item) => Entry::Item(*item),
        Json::Text(_) => Entry::Pending,
        _ => Entry::Fault(json.get("fault").number()),
    }
}

fn source(from: &Json) -> Node {
    if let Some(items) = from.find("of") {
        return Node::Of(items.numbers().into_iter());
    }
    if let Some(ends) = from.find("range") {
        let ends = ends.numbers();
        return Node::Range(ends[0]..=ends[1]);
    }
    let entries: Vec<Entry> = from.get("script").list().iter().map(entry).collect();
    Node::Script(entries.into_iter())
}

fn pairing(word: &str) -> Pairing {
    match word {
        "left" => Pairing::Left,
        "right" => Pairing::Right,
        _ => Pairing::By(arithmetic(word)),
    }
}

/// Returns the chain with one more operator, and its depth.
fn behind(upstream: Node, depth: usize, op: &Json) -> Result<(Node, usize), Fault> {
    let upstream = Box::new(upstream);
    let by = || arithmetic(op.get("by").text());
    let count = || op.get("n").number();
    let mut deepest = depth;
    let node = match op.get("op").text() {
        "map" => Node::Map(upstream, by(), op.get("k").number()),
        "filter" => Node::Filter(upstream, test(op)),
        "take_while" => Node::TakeWhile(upstream, test(op), false),
        "transform" => Node::Transform(upstream, op.get("add").numbers(), Vec::new().into_iter()),
        "take" if count() == 0 => return Err(Fault::NotPositive),
        "take" => Node::Take(upstream, count()),
        "drop" => Node::Drop(upstream, count()),
        "scan" => Node::Scan(upstream, by(), op.get("from").number(), false),
        "flat_map" if op.get("to").text() == "range" => {
            Node::FlatMapRange(upstream, count(), 1..=0)
        }
        "flat_map" => Node::FlatMapRepeat(upstream, count(), 0, 0),
        "zip" => {
            let (other, depth_of_other) = chain(op.get("with"))?;
            deepest = deepest.max(depth_of_other);
            Node::Zip(upstream, Box::new(other), pairing(op.get("by").text()))
        }
        "distinct" => Node::Distinct(upstream, None),
        "drop_while" => Node::DropWhile(upstream, test(op), false),
        "running_reduce" => Node::RunningReduce(upstream, by(), None),
        word => panic!("{word} is no operator"),
    };
    if deepest == DEEPEST {
        return Err(Fault::TooDeep);
    }
    Ok((node, deepest + 1))
}

fn chain(json: &Json) -> Result<(Node, usize), Fault> {
    let first = (source(json.get("from")), 1);
    let mut operators = json.get("ops").list().iter();
    operators.try_fold(first, |(node, depth), op| behind(node, depth, op))
}

fn name(fault: Fault) -> String {
    match fault {
        Fault::Overflow => "2 Overflow".to_string(),
        Fault::NotPositive => "3 NotPositive".to_string(),
        Fault::Source(number) => format!("4 Source {number}"),
        Fault::TooDeep => "5 TooDeep".to_string(),
    }
}

fn collect(json: &Json) -> String {
    let mut node = match chain(json) {
        Ok((node, _)) => node,
        Err(fault) => return format!("refused {}", name(fault)),
    };
    let mut items = Vec::new();
    loop {
        match node.next() {
            Ok(Some(item)) => items.push(item),
            Ok(None) => return format!("{items:?} completed"),
            Err(fault) => return format!("{items:?} failed {}", name(fault)),
        }
    }
}

/// Prints what each step of the script collects.
pub fn play() {
    let mut text = String::new();
    io::stdin()
        .read_to_string(&mut text)
        .expect("the script is text");
    let script = Json::read(&text);
    let steps = script.get("steps").list();
    let lines: String = steps
        .iter()
        .map(|step| collect(step.get("chain")) + "\n")
        .collect();
    io::stdout()
        .write_all(lines.as_bytes())
        .expect("there is a reader");
}
