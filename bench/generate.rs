// Writes one DIMACS network text to standard output. The same arguments always give the same text.
//
//   generate KIND N [SEED] [--noise] [--odd]
//
// N is the number of arcs, met within a small factor, unless the table says otherwise. --noise adds
// comments, blank lines, CRs, tabs and runs of blanks. --odd spells some numbers with `+` and
// leading zeros.
//
// Texts as they are common:
//
// road               sp, sparse grid, both directions, arcs by rising (tail, head)
// road-pairs         the arcs of road, each followed by its reverse, in blocks out of order
// road-shuffled      the arcs of road in random order
// road-descending    the arcs of road by descending (tail, head)
// road-twice         N/2 arcs as of road, and then the same pairs again in random order
// hubs               sp, a power law: few nodes with most arcs, by rising tail, heads of one tail in
//                    random order
// hubs-shuffled      the arcs of hubs in random order
// hubs-pairs         each arc of hubs followed by its reverse
// multi              sp, N/10 ordered pairs with 10 arcs each, random order
// max                frames of grids joined by permutations, 1 arc in 20 between frames doubled
// min                feasible, with LOW > 0, parallel arcs, some negative costs
// min-netgen         feasible, LOW 0, arcs grouped by tail, 1 pair in 50 twice
// co, co-shuffled    N/4 points, by rising ID or in random order
// ss, p2p            N/4 queries
//
// Adversarial texts:
//
// sp-falling         pairs fall
// sp-alternating     tails from both ends: 1, N, 2, N-1, ..
// sp-onepair         all arcs of one ordered pair
// sp-star            all arcs of one tail, heads in random order
// sp-dense           all pairs of a square, by columns
// sp-multiples       random multiples of 1024 as nodes
// sp-far             random nodes beyond 2^40
// sp-far-multiples   random multiples of 2^40 as nodes
// sp-sparse          random nodes of all 63 bits
// sp-collide-first   pairs with the same 4 * tail + head
// sp-collide         pairs of one bucket of the index
// sp-collide-late    pairs as of sp-collide, after as many random pairs
// sp-ring4           a ring, each node joined to the nearest 4, each arc followed by its reverse, in
//                    blocks out of order
// sp-ring10, sp-ring16
//                    rings with the nearest 10 and 16 nodes
// sp-again           N/2 arcs as of sp-ring10, and then the same arcs again in random order
// max-onepair        all arcs of one ordered pair
// min-onepair        all arcs of one ordered pair, all costs different, random order
// min-falling        as min-onepair, but costs fall
// min-one-cost       all arcs of one ordered pair and one cost
// min-nodes-falling  N node lines by falling ID, 1 in 4 of flow 0, and one arc
// co-falling         N points by falling ID
// comments           N comment lines and ten arcs
// empty-lines        N empty lines and ten arcs
// long-comment       a comment of N bytes and ten arcs
// long-blanks        N blanks within a line and ten arcs
// long-number        a number with N leading zeros and ten arcs

use std::io::{self, BufWriter, Write};

struct Random(u64);
impl Random {
    fn next(&mut self) -> u64 {
        self.0 = self.0.wrapping_add(0x9E3779B97F4A7C15);
        let mut z = self.0;
        z = (z ^ (z >> 30)).wrapping_mul(0xBF58476D1CE4E5B9);
        z = (z ^ (z >> 27)).wrapping_mul(0x94D049BB133111EB);
        z ^ (z >> 31)
    }
    fn below(&mut self, n: i64) -> i64 {
        ((self.next() as u128 * n as u128) >> 64) as i64
    }
    fn range(&mut self, low: i64, high: i64) -> i64 {
        low + self.below(high - low + 1)
    }
    fn one_in(&mut self, n: i64) -> bool {
        self.below(n) == 0
    }
    fn one_of<T: Copy>(&mut self, items: &[T]) -> T {
        items[self.below(items.len() as i64) as usize]
    }
    fn pair(&mut self, nodes: i64) -> Pair {
        [self.range(1, nodes), self.range(1, nodes)]
    }
    fn shuffle<T>(&mut self, items: &mut [T]) {
        for i in (1..items.len()).rev() {
            items.swap(i, self.below(i as i64 + 1) as usize);
        }
    }
    fn shuffled<T>(&mut self, mut items: Vec<T>) -> Vec<T> {
        self.shuffle(&mut items);
        items
    }
}

/// Standard output, line by line.
struct Text {
    to: BufWriter<io::StdoutLock<'static>>,
    random: Random,
    noise: bool,
    odd: bool,
}
impl Text {
    fn raw(&mut self, text: &str) {
        self.to.write_all(text.as_bytes()).unwrap();
    }
    fn comment(&mut self, text: &str) {
        self.raw("c ");
        self.raw(text);
        self.raw(if self.noise { "\r\n" } else { "\n" });
    }
    /// Writes this text once in `n` calls, if the text is to be noisy.
    fn noise(&mut self, n: i64, text: &str) {
        if self.noise && self.random.one_in(n) {
            self.raw(text);
        }
    }
    fn blank(&mut self) {
        let is_run = self.noise && self.random.one_in(4);
        let blank = if is_run { self.random.one_of(&["\t", "  ", " \t ", "      "]) } else { " " };
        self.raw(blank);
    }
    fn number(&mut self, n: i64) {
        if self.odd && self.random.one_in(8) {
            let zeros = self.random.one_of(&["", "0", "00", "000"]);
            self.raw(if n < 0 { "-" } else { "+" });
            write!(self.to, "{zeros}{}", n.unsigned_abs()).unwrap();
        } else {
            write!(self.to, "{n}").unwrap();
        }
    }
    fn row(&mut self, head: &str, fields: &[i64], tail: &str) {
        self.noise(50, "c noise: a b c 1 2 3\r\n");
        self.noise(200, " \t\r\n\n");
        self.noise(20, "  ");
        self.raw(head);
        for &n in fields {
            self.blank();
            self.number(n);
        }
        if !tail.is_empty() {
            self.blank();
            self.raw(tail);
        }
        self.noise(10, " \r");
        self.raw("\n");
    }
    fn rows(&mut self, head: &str, rows: &[impl AsRef<[i64]>]) {
        rows.iter().for_each(|row| self.row(head, row.as_ref(), ""));
    }
    /// Writes a graph, whose first and last nodes are the source and the sink in `max`.
    fn graph(&mut self, kind: &str, nodes: i64, supplies: &[Pair], arcs: &[impl AsRef<[i64]>]) {
        self.row(&format!("p {kind}"), &[nodes, arcs.len() as i64], "");
        if kind == "max" {
            self.row("n", &[1], "s");
            self.row("n", &[nodes], "t");
        }
        self.rows("n", supplies);
        self.rows("a", arcs);
    }
    fn companion(&mut self, about: &str, kind: &str, letter: &str, items: &[impl AsRef<[i64]>]) {
        self.comment(about);
        self.row(&format!("p aux sp {kind}"), &[items.len() as i64], "");
        self.rows(letter, items);
    }
}

/// Two nodes.
type Pair = [i64; 2];
/// An arc of `sp` or `max`, or an undirected road: two nodes and a number.
type Arc = [i64; 3];

/// Returns the edges (u < v) of a sparse grid with about `arcs / 2` edges, and the number of nodes.
fn road_edges(arcs: i64, random: &mut Random) -> (i64, Vec<Arc>) {
    // The largest road files have about 2.44 arcs per node, so each of the two grid edges of a node
    // is kept with probability 0.61. A few long edges represent bridges and motorways.
    let n = ((arcs as f64 / 2.44) as i64).max(2);
    let width = ((n as f64).sqrt() as i64).max(1);
    let mut edges = Vec::new();
    for u in 1..=n {
        for v in [u + 1, u + width] {
            if v <= n && random.below(100) < 61 {
                edges.push([u, v, road_length(random)]);
            }
        }
        if random.one_in(500) {
            let v = random.range(1, n);
            if ![0, 1, width].contains(&(u - v).abs()) {
                edges.push([u.min(v), u.max(v), 9 * road_length(random)]);
            }
        }
    }
    edges.sort_unstable();
    edges.dedup_by_key(|edge| (edge[0], edge[1]));
    (n, edges)
}
fn road_length(random: &mut Random) -> i64 {
    random.range(1, 2500) * if random.one_in(6) { 11 } else { 1 }
}

fn road(text: &mut Text, random: &mut Random, n: i64, order: &str) {
    let (nodes, mut edges) = road_edges(if order == "twice" { n / 2 } else { n }, random);
    if order == "pairs" {
        // blocks of edges out of order, as files gathered county by county have them
        let mut blocks = random.shuffled(edges.chunks(400).map(|block| block.to_vec()).collect());
        blocks.iter_mut().for_each(|block| random.shuffle(block));
        edges = blocks.concat();
    }
    let mut arcs: Vec<Arc> = edges.iter().flat_map(|&[u, v, w]| [[u, v, w], [v, u, w]]).collect();
    if !["pairs", "shuffled"].contains(&order) {
        arcs.sort_unstable();
    }
    match order {
        "shuffled" => random.shuffle(&mut arcs),
        "descending" => arcs.reverse(),
        "twice" => {
            let again = arcs.iter().map(|&[u, v, _]| [u, v, road_length(random)]).collect();
            arcs.extend(random.shuffled(again));
        }
        _ => {}
    }
    text.comment("generated: road-like grid");
    text.comment("");
    text.row("p sp", &[nodes, arcs.len() as i64], "");
    text.comment(&format!("graph contains {} nodes and {} arcs", nodes, arcs.len()));
    text.comment("");
    text.rows("a", &arcs);
}

fn multi(text: &mut Text, random: &mut Random, n: i64) {
    let nodes = (n / 40).max(1);
    let mut arcs = Vec::new();
    for _ in 0..(n / 10).max(1) {
        let [u, v] = random.pair(nodes);
        arcs.extend((0..10).map(|_| [u, v, random.range(-50, 1_000_000)]));
    }
    random.shuffle(&mut arcs);
    text.comment("generated: many parallel arcs");
    text.graph("sp", nodes, &[], &arcs);
}

fn max(text: &mut Text, random: &mut Random, n: i64) {
    // b frames of a*a nodes; per node about 4 arcs within the frame and 1 between frames
    let (least, most) = (1, 1000);
    let per = (n as f64 / 5.0).max(8.0);
    let a = (per.cbrt() as i64).max(2);
    let size = a * a;
    let b = ((per / size as f64).ceil() as i64).max(2);
    let mut arcs = Vec::new();
    let mut to: Vec<i64> = (0..size).collect();
    for first in (0..b).map(|frame| frame * size + 1) {
        for at in 0..size {
            let u = first + at;
            for (has_next, v) in [(at % a + 1 < a, u + 1), (at / a + 1 < a, u + a)] {
                if has_next {
                    arcs.extend([[u, v, most * size], [v, u, most * size]]);
                }
            }
        }
        if first + size <= b * size {
            random.shuffle(&mut to);
            for (u, at) in (first..).zip(&to) {
                let v = first + size + at;
                arcs.push([u, v, random.range(least, most)]);
                if random.one_in(20) {
                    arcs.push([u, v, random.range(0, most)]);
                }
            }
        }
    }
    random.shuffle(&mut arcs);
    text.comment(&format!("generated: rmf-like, a {a} b {b} c1 {least} c2 {most}"));
    text.graph("max", size * b, &[], &arcs);
}

/// Paths from sources to sinks carry a flow within LOW and CAP. The supplies follow from it, so the
/// text is feasible. The other arcs are random, 1 in 3 parallel to an earlier one.
fn min(text: &mut Text, random: &mut Random, n: i64) {
    let nodes = (n / 8).max(4);
    let some = (nodes / 10).max(1);
    let mut supply = vec![0; nodes as usize + 1];
    let mut arcs = Vec::new();
    while (arcs.len() as i64) < n * 6 / 10 {
        let mut at = random.range(1, some);
        let end = nodes + 1 - random.range(1, some);
        let flow = random.range(1, 100);
        supply[at as usize] += flow;
        supply[end as usize] -= flow;
        for hop in (0..random.range(2, 6)).rev() {
            let next = if hop == 0 { end } else { random.range(1, nodes) };
            let mut left = flow;
            while left > 0 {
                let part = if random.one_in(3) { random.range(1, left) } else { left };
                let low = if random.one_in(2) { random.range(0, part) } else { 0 };
                let cap = part + random.range(0, 300);
                arcs.push([at, next, low, cap, cost(random)]);
                left -= part;
            }
            at = next;
        }
    }
    while (arcs.len() as i64) < n {
        let [u, v] = if random.one_in(3) {
            let [u, v, ..] = random.one_of(&arcs);
            [u, v]
        } else {
            random.pair(nodes)
        };
        arcs.push([u, v, 0, random.range(0, 500), cost(random)]);
    }
    random.shuffle(&mut arcs);
    text.comment("generated: netgen-like, feasible, with lower bounds and parallel arcs");
    text.graph("min", nodes, &supplies(&supply), &arcs);
}
fn cost(random: &mut Random) -> i64 {
    if random.one_in(10) {
        -random.range(1, 50)
    } else {
        random.range(0, 1000)
    }
}

/// Returns the nodes whose supply, by their IDs, is not 0.
fn supplies(supply: &[i64]) -> Vec<Pair> {
    (0..).zip(supply).map(|(id, &flow)| [id, flow]).filter(|it| it[1] != 0).collect()
}

/// A chain of arcs carries the flow of each source to a sink, and random arcs leave each node of
/// the chain. As in netgen's output, tails rise within a chain, and heads come in random order.
fn netgen(text: &mut Text, random: &mut Random, n: i64) {
    let nodes = (n / 8).max(4);
    let ends = (nodes / 1000).max(1);
    let mut chains: Vec<Vec<i64>> = (1..=ends).map(|source| vec![source]).collect();
    for node in ends + 1..=nodes - ends {
        chains[random.below(ends) as usize].push(node);
    }
    let mut supply = vec![0; nodes as usize + 1];
    let mut next = supply.clone();
    let mut arcs = Vec::new();
    for (chain, sink) in chains.iter().zip(nodes + 1 - ends..) {
        let flow = random.range(1, 1000);
        supply[chain[0] as usize] = flow;
        supply[sink as usize] = -flow;
        let mut at = chain[0];
        for node in random.shuffled(chain[1..].to_vec()).into_iter().chain([sink]) {
            next[at as usize] = node;
            at = node;
        }
        for &tail in chain {
            let most = flow + random.range(0, 1000);
            arcs.push([tail, next[tail as usize], 0, most, random.range(1, 1000)]);
            for _ in 1..8 {
                let head = random.range(ends + 1, nodes);
                for _ in 0..if random.one_in(50) { 2 } else { 1 } {
                    arcs.push([tail, head, 0, random.range(1, 1000), random.range(1, 1000)]);
                }
            }
        }
    }
    text.comment("generated: netgen-like, feasible, arcs grouped by tail");
    text.graph("min", nodes, &supplies(&supply), &arcs);
}

fn points(text: &mut Text, random: &mut Random, ids: Vec<i64>) {
    let mut point = |id| [id, random.range(-124_000_000, -67_000_000), random.range(25_000_000, 49_000_000)];
    let items: Vec<Arc> = ids.into_iter().map(&mut point).collect();
    text.companion("generated: coordinates", "co", "v", &items);
}

fn queries(text: &mut Text, random: &mut Random, n: i64, kind: &str) {
    let pairs = random_pairs(random, n / 4, (n / 3).max(1), |i| i);
    let (letter, count) = if kind == "ss" { ("s", 1) } else { ("q", 2) };
    let items: Vec<&[i64]> = pairs.iter().map(|pair| &pair[..count]).collect();
    text.companion("generated: queries", kind, letter, &items);
}

/// Returns random pairs of the nodes that `node` makes of the numbers 1 to `count`.
fn random_pairs(random: &mut Random, n: i64, count: i64, node: impl Fn(i64) -> i64) -> Vec<Pair> {
    (0..n).map(|_| random.pair(count).map(&node)).collect()
}

// The factors by which the index (crates/pair_index/src/bucket.rt) mixes a tail, a head, and both:
//   both = tail * TAIL ^ (head * HEAD).rotate_left(32),  mixed = (both ^ both >> 32) * BOTH
const TAIL: u64 = 0x9E37_79B9_7F4A_7C15;
const HEAD: u64 = 0xC2B2_AE3D_27D4_EB4F;
const BOTH: u64 = 0xD6E8_FEB8_6659_FD93;

/// Returns the inverse of an odd number modulo 2^64.
fn inverse(odd: u64) -> u64 {
    let mut x = odd; // right in three bits, and each round doubles them
    for _ in 0..5 {
        x = x.wrapping_mul(2u64.wrapping_sub(odd.wrapping_mul(x)));
    }
    x
}

/// Returns different pairs that agree in 4 * tail + head modulo 2^40 and in the upper 32 bits of
/// `mixed`, so that the index puts them into one bucket, for any number of buckets up to 2^32.
fn colliding(random: &mut Random, n: i64) -> Vec<Pair> {
    const HALF: u64 = (1 << 32) - 1;
    const SUM: u64 = 12_345;
    const UPPER: u64 = 0x2545_F491;
    let (tail_back, head_back, both_back) = (inverse(TAIL), inverse(HEAD), inverse(BOTH));
    // With src = tail * TAIL and dst = head * HEAD, the sum says, modulo 2^40:
    //   4 * src + ratio * dst = sum
    let (sum, ratio) = (SUM.wrapping_mul(TAIL), TAIL.wrapping_mul(head_back));
    let mut pairs = Vec::new();
    while (pairs.len() as i64) < n {
        // The lower half of `mixed` is the number of the pair.
        let folded = (UPPER << 32 | pairs.len() as u64).wrapping_mul(both_back);
        let both = folded ^ folded >> 32;
        // For a lower half of dst, the sum modulo 2^32 gives 30 bits of the lower half of src, and
        // these give the upper half of dst. The four possible values of the other bits are tried.
        let dst_low = random.next() & HALF;
        let src_four = sum.wrapping_sub(ratio.wrapping_mul(dst_low)) & HALF;
        let mut tried = (0..if src_four & 3 == 0 { 4 } else { 0 }).map(|top| {
            let src_low = src_four >> 2 | top << 30;
            let dst = ((both ^ src_low) & HALF) << 32 | dst_low;
            let tail = (both ^ dst.rotate_left(32)).wrapping_mul(tail_back);
            [tail as i64, dst.wrapping_mul(head_back) as i64]
        });
        pairs.extend(tried.find(|&[tail, head]| {
            let off = 4i64.wrapping_mul(tail).wrapping_add(head).wrapping_sub(SUM as i64);
            off << 24 == 0 && tail > 0 && head > 0
        }));
    }
    pairs
}

/// Returns each pair followed by its reverse.
fn reversed_too(pairs: &[Pair]) -> Vec<Pair> {
    pairs.iter().flat_map(|&[u, v]| [[u, v], [v, u]]).collect()
}

/// Returns the pairs of a graph that grows: each new node is joined to three older ones, most often
/// to nodes that many others are joined to already.
fn hubs(random: &mut Random, n: i64, kind: &str) -> Vec<Pair> {
    let (mut ends, mut edges) = (vec![1], Vec::new());
    for v in 2..=(n / 6).max(2) {
        for _ in 0..3 {
            let u = if random.one_in(10) { random.range(1, v - 1) } else { random.one_of(&ends) };
            if u != v {
                edges.push([u, v]);
                ends.extend([u, v]);
            }
        }
    }
    let mut pairs = reversed_too(&edges);
    if kind != "hubs-pairs" {
        random.shuffle(&mut pairs);
    }
    if kind == "hubs" {
        pairs.sort_by_key(|pair| pair[0]);
    }
    pairs
}

/// Returns the pairs of a ring in which each node is joined to the nearest `degree` nodes, in
/// blocks of 64.
fn ring(random: &mut Random, n: i64, degree: i64) -> Vec<Pair> {
    let nodes = (n / degree).max(degree + 1);
    let edges: Vec<Pair> =
        (1..=nodes).flat_map(|u| (1..=degree / 2).map(move |k| [u, (u + k - 1) % nodes + 1])).collect();
    reversed_too(&random.shuffled(edges.chunks(64).collect()).concat())
}

/// Writes arcs of pairs that are chosen, with random lengths.
fn sp(text: &mut Text, random: &mut Random, kind: &str, n: i64) {
    let count = n.max(1);
    let pairs = match kind {
        "hubs" | "hubs-shuffled" | "hubs-pairs" => hubs(random, n, kind),
        "sp-falling" => (0..count).rev().map(|i| [1 + i / 4, 1 + i % 4]).collect(),
        "sp-alternating" => {
            let tail = |i| if i % 2 == 0 { 1 + i / 2 } else { count - i / 2 };
            (0..count).map(|i| [tail(i), tail(count - 1 - i)]).collect()
        }
        "sp-onepair" => vec![[1, 2]; n as usize],
        "sp-star" => random.shuffled((1..=count).map(|head| [1, head]).collect()),
        "sp-ring4" => ring(random, n, 4),
        "sp-ring10" => ring(random, n, 10),
        "sp-ring16" => ring(random, n, 16),
        "sp-again" => {
            let first = ring(random, n / 2, 10);
            [first.clone(), random.shuffled(first)].concat()
        }
        "sp-dense" => {
            let side = (1..).take_while(|it| it * it <= n).count() as i64;
            (1..=side).flat_map(|head| (1..=side).map(move |tail| [tail, head])).collect()
        }
        "sp-multiples" => random_pairs(random, n, count, |i| i * 1024),
        "sp-far" => random_pairs(random, n, count, |i| (1 << 40) + i),
        "sp-far-multiples" => random_pairs(random, n, count.min(1 << 22), |i| i << 40),
        "sp-sparse" => random_pairs(random, n, i64::MAX - 1, |i| i),
        // pairs with the same head + 4 * tail
        "sp-collide-first" => random.shuffled((1..=count).map(|tail| [tail, 4 * (count - tail) + 1]).collect()),
        "sp-collide" => colliding(random, n),
        "sp-collide-late" => {
            let pairs = random_pairs(random, n - n / 2, count, |i| i);
            [pairs, colliding(random, n / 2)].concat()
        }
        _ => {
            eprintln!("generate: unknown kind {kind}");
            std::process::exit(3)
        }
    };
    let nodes = match kind {
        "sp-sparse" | "sp-collide" | "sp-collide-late" => i64::MAX,
        _ => pairs.iter().flatten().copied().max().unwrap_or(1),
    };
    let arcs: Vec<Arc> = pairs.iter().map(|&[tail, head]| [tail, head, random.range(0, 999_999)]).collect();
    text.graph("sp", nodes, &[], &arcs);
}

/// Writes arcs of `min` of one pair.
fn one_pair(text: &mut Text, random: &mut Random, kind: &str, n: i64) {
    let mut costs: Vec<i64> = (0..n).map(|i| i * 7 - 1_000_000).collect();
    match kind {
        "min-onepair" => random.shuffle(&mut costs),
        "min-falling" => costs.reverse(),
        _ => costs.fill(7),
    }
    let mut arc = |cost| {
        let low = random.range(0, 3);
        [1, 2, low, low + random.range(0, 1000), cost]
    };
    let arcs: Vec<[i64; 5]> = costs.into_iter().map(&mut arc).collect();
    text.graph("min", 2, &[], &arcs);
}

/// Writes a text of ten arcs in which something else is long.
fn few_arcs(text: &mut Text, kind: &str, n: usize) {
    text.row("p sp", &[10, 10], "");
    let mut filling = String::new();
    match kind {
        "comments" => (0..n).for_each(|i| text.comment(&format!("line {i}"))),
        "empty-lines" => text.raw(&"\n".repeat(n)),
        "long-comment" => text.comment(&"x".repeat(n)),
        "long-blanks" => filling = " ".repeat(n),
        _ => filling = "0".repeat(n),
    }
    text.raw(&format!("a 10 1 {filling}10\n"));
    for u in (1..10).rev() {
        text.row("a", &[u, 11 - u, u], "");
    }
}

fn main() {
    let (flags, words): (Vec<String>, Vec<String>) = std::env::args().skip(1).partition(|word| word.starts_with("--"));
    if words.len() < 2 {
        eprintln!("usage: generate KIND N [SEED] [--noise] [--odd]");
        std::process::exit(3);
    }
    let n = words[1].parse::<u64>().expect("N") as i64;
    let seed: u64 = words.get(2).map_or(1, |word| word.parse().expect("SEED"));
    let random = &mut Random(seed.wrapping_mul(0xA0761D6478BD642F) ^ 0x51ED270B);
    let has = |flag: &str| flags.iter().any(|it| it == flag);
    let text = &mut Text {
        to: BufWriter::with_capacity(1 << 16, io::stdout().lock()),
        random: Random(seed ^ 0xC0FFEE),
        noise: has("--noise"),
        odd: has("--odd"),
    };
    match words[0].as_str() {
        "road" => road(text, random, n, "rising"),
        kind @ ("road-pairs" | "road-shuffled" | "road-descending" | "road-twice") => road(text, random, n, &kind[5..]),
        "multi" => multi(text, random, n),
        "max" => max(text, random, n),
        "min" => min(text, random, n),
        "min-netgen" => netgen(text, random, n),
        "co" => points(text, random, (1..=n / 4).collect()),
        "co-shuffled" => {
            let ids = random.shuffled((1..=n / 4).collect());
            points(text, random, ids);
        }
        "co-falling" => points(text, random, (1..=n).rev().collect()),
        kind @ ("ss" | "p2p") => queries(text, random, n, kind),
        "min-nodes-falling" => {
            let falling: Vec<Pair> = (1..=n).rev().map(|id| [id, id % 4]).collect();
            text.graph("min", n.max(2), &falling, &[[1, 2, 0, 1, 1]]);
        }
        "max-onepair" => {
            let arcs: Vec<Arc> = (0..n).map(|_| [1, 2, random.range(0, 1000)]).collect();
            text.graph("max", 2, &[], &arcs);
        }
        kind @ ("min-onepair" | "min-falling" | "min-one-cost") => one_pair(text, random, kind, n),
        kind @ ("comments" | "empty-lines" | "long-comment" | "long-blanks" | "long-number") => {
            few_arcs(text, kind, n as usize)
        }
        kind => sp(text, random, kind, n),
    }
    text.to.flush().unwrap();
}
