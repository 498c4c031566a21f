//! Prints the sum of the distances from each source of an `ss` text to the nodes that it reaches in an `sp` graph, and
//! then how many of these shortest paths go over each arc line of the graph. Four threads search, by the algorithm of
//! Dijkstra.
//!
//!     distances GRAPH SOURCES
use dnorm::{Fit, Form, Instance, Star};
use std::cmp::Reverse;
use std::collections::BinaryHeap;
use std::error::Error;
use std::io::Write;
use std::process::ExitCode;
use std::thread;

const THREADS: usize = 4;

/// What a search finds: the sum of the distances, and the number of shortest paths over each arc.
struct Found {
    sum: i128,
    paths: Vec<i64>,
}

fn search(roads: &Star, source: usize) -> Found {
    let nodes = roads.first.len();
    let mut distance = vec![i64::MAX; nodes];
    // The arc by which each node is reached, and the nodes in the order of their distances.
    let mut by = vec![None; nodes];
    let mut order = Vec::new();
    let mut queue = BinaryHeap::from([Reverse((0, source))]);
    distance[source] = 0;
    while let Some(Reverse((near, node))) = queue.pop() {
        if near > distance[node] {
            continue;
        }
        order.push(node);
        for arc in roads.arcs_of(node) {
            let head = roads.columns.heads[arc] as usize;
            let far = near.saturating_add(roads.columns.a[arc]);
            if far < distance[head] {
                distance[head] = far;
                by[head] = Some(arc);
                queue.push(Reverse((far, head)));
            }
        }
    }
    // The last nodes first, so that each passes on the paths of all behind it.
    let mut paths = vec![0; roads.columns.heads.len()];
    let mut through = vec![0; nodes];
    for node in order.iter().rev() {
        if let Some(arc) = by[*node] {
            paths[arc] = through[*node] + 1;
            through[roads.columns.tails[arc] as usize] += paths[arc];
        }
    }
    let sum = order.iter().map(|it| i128::from(distance[*it])).sum();
    Found { sum, paths }
}

fn run(graph: &str, sources: &str) -> Result<(), Box<dyn Error>> {
    let graph = Instance::open_with_lines(graph)?;
    let sources = Instance::open(sources)?;
    if graph.fits(&sources) != Fit::Fits {
        return Err("the sources do not fit the graph".into());
    }
    let roads = graph.star(Form::One)?;
    if roads.columns.a.iter().any(|it| *it < 0) {
        return Err("a length is below 0".into());
    }
    let ids: Vec<usize> = sources.items().map(|it| it.id as usize).collect();
    let size = (ids.len() / THREADS + 1).min(ids.len().max(1));
    let found: Vec<Found> = thread::scope(|scope| {
        let search_all = |some: &[usize]| some.iter().map(|it| search(&roads, *it)).collect();
        let threads: Vec<_> = ids
            .chunks(size)
            .map(|some| scope.spawn(move || -> Vec<Found> { search_all(some) }))
            .collect();
        let joined = threads.into_iter().map(|it| it.join().unwrap_or_default());
        joined.flatten().collect()
    });
    let mut all = vec![0; roads.columns.heads.len()];
    for it in &found {
        for (sum, paths) in all.iter_mut().zip(&it.paths) {
            *sum += paths;
        }
    }
    let units = graph.spread(Form::One, &all)?;
    let mut out = std::io::stdout().lock();
    for (id, it) in ids.iter().zip(&found) {
        writeln!(out, "d {id} {}", it.sum)?;
    }
    dnorm::write_flow(out, graph.arc_lines().unwrap_or(&[]), &units)?;
    Ok(())
}

fn main() -> ExitCode {
    let words: Vec<String> = std::env::args().collect();
    let [_, graph, sources] = &words[..] else {
        eprintln!("distances GRAPH SOURCES");
        return ExitCode::from(2);
    };
    match run(graph, sources) {
        Ok(()) => ExitCode::SUCCESS,
        Err(why) => {
            eprintln!("{why}");
            ExitCode::from(2)
        }
    }
}
