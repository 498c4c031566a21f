//! Makes a call of suite/calls.json by the crate `dnorm`: CALL FORM TEXT OTHER [UNITS].. Prints its answer, or `code`
//! and the code.
use dnorm::{Difference, Fit, Form, Instance, Refusal};
use std::fmt::Display;

const NOT_A_FLOW: u8 = 42;

fn row<Number: Display>(numbers: &[Number]) -> String {
    let words: Vec<String> = numbers.iter().map(Number::to_string).collect();
    words.join(" ") + "\n"
}

fn taken(text: &str) -> Result<Instance, Refusal> {
    Instance::read_with_lines(text.as_bytes()).map_err(|it| it.refusal().expect("a refusal"))
}

fn facts(it: &Instance) -> String {
    let (lines, pairs, items) = (it.lines(), it.pairs(), it.item_count());
    format!("{} {} {lines} {pairs} {items}\n", it.kind(), it.nodes())
}

fn compared(found: Option<Difference>) -> String {
    let numbers = |it: &[i128]| it.iter().map(i128::to_string).collect::<Vec<_>>();
    let words = |it: Option<i128>| it.map_or("none".to_string(), |it| it.to_string());
    let line = |what, at: i64, to: i64, index: u64, amount: i64, left, right| {
        let first = numbers(&[what, at.into(), to.into(), index.into(), amount.into()]);
        row(&[first, vec![words(left), words(right)]].concat())
    };
    let both = |what, at, left, right| line(what, at, 0, 0, 0, Some(left), Some(right));
    match found {
        None => line(0, 0, 0, 0, 0, None, None),
        Some(Difference::Kinds(left, right)) => both(1, 0, left as i128, right as i128),
        Some(Difference::Nodes(left, right)) => both(2, 0, left, right),
        Some(Difference::Supply(node, left, right)) => both(3, node, left, right),
        Some(Difference::Source(left, right)) => both(4, 0, left, right),
        Some(Difference::Sink(left, right)) => both(5, 0, left, right),
        Some(Difference::Pair {
            tail,
            head,
            amount,
            left,
            right,
        }) => line(6, tail, head, 0, amount, left, right),
        Some(Difference::Length(left, right)) => both(7, 0, left, right),
        Some(Difference::Item(index)) => line(8, 0, 0, index, 0, None, None),
        Some(Difference::Point(id)) => line(9, id, 0, 0, 0, None, None),
    }
}

fn fits(found: Fit) -> String {
    match found {
        Fit::Fits => row(&[0, 0]),
        Fit::NotInGraph(node) => row(&[35, node]),
        Fit::NotKinds => row(&[36, 0]),
    }
}

fn star(graph: &Instance, form: Form) -> Result<String, u8> {
    let mut it = graph.star(form).map_err(|it| it.number)?;
    it.reverse();
    Ok(row(&it.first) + &row(&it.into_first) + &row(&it.into))
}

fn call(words: &[String]) -> Result<String, u8> {
    let form = if words[1] == "1" {
        Form::One
    } else {
        Form::Two
    };
    let graph = taken(&words[2]).map_err(|it| it.number)?;
    let other = taken(&words[3]).map_err(|it| it.number)?;
    let flow = words[4..].iter().map(|it| it.parse().expect("a number"));
    let flow: Vec<i64> = flow.collect();
    Ok(match words[0].as_str() {
        "facts" => facts(&graph),
        "arc_count" => row(&[graph.arc_count(form)]),
        "next" => {
            let arcs = graph.arcs(form);
            arcs.map(|it| row(&[it.tail, it.head, it.a, it.b, it.c]))
                .collect()
        }
        "items" => graph.items().map(|it| row(&[it.id, it.a, it.b])).collect(),
        "canon" => {
            let text = graph.canon(form).map_err(|it| it.number)?;
            String::from_utf8(text).expect("a text")
        }
        "compare" => compared(graph.compare(&other)),
        "fits" => fits(graph.fits(&other)),
        "lines" => {
            let lines = graph.arc_lines().expect("lines").iter();
            let numbers =
                lines.map(|it| row(&[it.line as i64, it.tail, it.head, it.a, it.b, it.c]));
            numbers.collect()
        }
        "spread" => row(&graph.spread(form, &flow).map_err(|_| NOT_A_FLOW)?),
        "star" => star(&graph, form)?,
        other => panic!("no call {other}"),
    })
}

fn main() {
    let words: Vec<String> = std::env::args().skip(1).collect();
    match call(&words) {
        Ok(answer) => print!("{answer}"),
        Err(code) => println!("code {code}"),
    }
}
