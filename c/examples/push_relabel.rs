//! Prints the value of a greatest flow of a `max` text, by the push-relabel algorithm, which takes nodes in the order in
//! which they get flow.
//!
//!     push_relabel FILE
use dnorm::{Form, Instance, Kind};
use std::collections::VecDeque;
use std::error::Error;
use std::io::Write;
use std::process::ExitCode;

/// What flow can still be sent over: each arc, and against it. Nodes count from 0 here.
struct Residual {
    /// The arcs of node `v` have the indexes from `first[v]` to `first[v + 1]`, without the last one.
    first: Vec<usize>,
    heads: Vec<usize>,
    room: Vec<i64>,
    /// The index of the arc against each arc.
    twins: Vec<usize>,
}

impl Residual {
    fn of(graph: &Instance) -> Result<Residual, Box<dyn Error>> {
        let nodes = usize::try_from(graph.nodes())?;
        let columns = graph.columns(Form::One);
        let ends = |at: usize| {
            (
                columns.tails[at] as usize - 1,
                columns.heads[at] as usize - 1,
            )
        };
        let count = columns.tails.len();
        let mut first = vec![0; nodes + 1];
        for (tail, head) in (0..count).map(ends) {
            first[tail] += 1;
            first[head] += 1;
        }
        let mut end = 0;
        for it in &mut first {
            end += *it;
            *it = end;
        }
        let mut made = Residual {
            first,
            heads: vec![0; 2 * count],
            room: vec![0; 2 * count],
            twins: vec![0; 2 * count],
        };
        for at in 0..count {
            let (tail, head) = ends(at);
            let (there, back) = (made.place(tail), made.place(head));
            (made.heads[there], made.heads[back]) = (head, tail);
            (made.twins[there], made.twins[back]) = (back, there);
            made.room[there] = columns.a[at];
        }
        Ok(made)
    }

    /// Returns the next free place among the arcs of a node, which are filled from their end.
    fn place(&mut self, node: usize) -> usize {
        self.first[node] -= 1;
        self.first[node]
    }

    fn push(&mut self, at: usize, amount: i64) {
        self.room[at] -= amount;
        self.room[self.twins[at]] += amount;
    }
}

/// Returns the value of a greatest flow, which may need more than 64 bits.
fn greatest_flow(graph: &mut Residual, source: usize, sink: usize) -> i128 {
    let nodes = graph.first.len() - 1;
    let (mut height, mut excess) = (vec![0; nodes], vec![0_i128; nodes]);
    let mut waiting = VecDeque::from([source]);
    height[source] = nodes;
    excess[source] = i128::MAX >> 1;
    while let Some(node) = waiting.pop_front() {
        while excess[node] > 0 {
            let mut lowest = usize::MAX;
            for at in graph.first[node]..graph.first[node + 1] {
                let head = graph.heads[at];
                if graph.room[at] == 0 {
                    continue;
                }
                if height[node] <= height[head] {
                    lowest = lowest.min(height[head]);
                    continue;
                }
                let amount = excess[node].min(i128::from(graph.room[at]));
                if head != source && head != sink && excess[head] == 0 && amount > 0 {
                    waiting.push_back(head);
                }
                graph.push(at, amount as i64);
                excess[node] -= amount;
                excess[head] += amount;
            }
            if node == source || lowest == usize::MAX || excess[node] == 0 {
                break;
            }
            height[node] = lowest + 1;
        }
    }
    excess[sink]
}

fn solve() -> Result<(), Box<dyn Error>> {
    let name = std::env::args().nth(1).ok_or("usage: push_relabel FILE")?;
    let graph = Instance::open(&name)?;
    let ends = graph.items().next().filter(|_| graph.kind() == Kind::Max);
    let ends = ends.ok_or("this is no max text")?;
    let (source, sink) = (ends.id as usize - 1, ends.a as usize - 1);
    let value = greatest_flow(&mut Residual::of(&graph)?, source, sink);
    writeln!(std::io::stdout(), "greatest flow {value}")?;
    Ok(())
}

fn main() -> ExitCode {
    if let Err(error) = solve() {
        eprintln!("{error}");
        return ExitCode::from(2);
    }
    ExitCode::SUCCESS
}
