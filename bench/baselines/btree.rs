// Canonical texts of all six kinds (form 1) in plain Rust, from standard input to standard output: the standard library's
// maps, lines, `str::parse` and a `BufWriter`.
//
// Refusals go to standard error as `-:LINE: NUMBER CODE` with status 2. The program is written from docs/FORMAT.md alone
// and shares no code with dnorm, so equal bytes are evidence.

use std::collections::BTreeMap;
use std::io::{self, BufRead, BufWriter, Write};
use std::num::IntErrorKind;
use std::process::ExitCode;

const CODES: [&str; 21] = [
    "BadLine", "EarlyLine", "SecondProblem", "UnknownProblem", "WrongLine", "LateNode", "TooManyLines", "FieldCount",
    "NotANumber", "OutOfRange", "Negative", "BadTerminal", "NodeOutOfRange", "RepeatedNode", "SameTerminal",
    "LowAboveCap", "SumTooLarge", "NoProblem", "MissingTerminal", "TooFewLines", "TooLong",
];

/// A kind: its words after `p`, the letter and the fields of the lines that are counted, and the fields of its node lines.
/// A field is a node (`n`), a number that is not below 0 (`+`), any number (`z`), or the letter of a terminal (`t`).
struct Kind {
    words: &'static [&'static str],
    letter: &'static str,
    fields: &'static str,
    ends: &'static str,
}
const KINDS: [Kind; 6] = [
    Kind { words: &["min"], letter: "a", fields: "nn++z", ends: "nz" },
    Kind { words: &["max"], letter: "a", fields: "nn+", ends: "nt" },
    Kind { words: &["sp"], letter: "a", fields: "nnz", ends: "" },
    Kind { words: &["aux", "sp", "ss"], letter: "s", fields: "n", ends: "" },
    Kind { words: &["aux", "sp", "p2p"], letter: "q", fields: "nn", ends: "" },
    Kind { words: &["aux", "sp", "co"], letter: "v", fields: "nzz", ends: "" },
];

enum Fault {
    Text(Option<u64>, u8),
    Io(io::Error),
}
impl From<io::Error> for Fault {
    fn from(e: io::Error) -> Self {
        Fault::Io(e)
    }
}

#[derive(Default)]
struct Bundle {
    forced: i64,
    cost: i128,
    caps: i64,
    free: BTreeMap<i64, i64>,
}

/// What a text has: in `sp` and `max` a number of each pair; in `min` its bundles; flows or points by nodes; and a list.
struct Instance {
    kind: &'static Kind,
    nodes: i64,
    declared: i64,
    lines: i64,
    ends: [Option<i64>; 2],
    arcs: BTreeMap<(i64, i64), i64>,
    bundles: BTreeMap<(i64, i64), Bundle>,
    points: BTreeMap<i64, (i64, i64)>,
    items: Vec<(i64, i64)>,
}

fn is_digits(word: &str) -> bool {
    let digits = word.strip_prefix(['+', '-']).unwrap_or(word);
    !digits.is_empty() && digits.bytes().all(|b| b.is_ascii_digit())
}

/// The numbers of a line with these fields. Each fault is looked for in all fields before the next one.
fn numbers(fields: &str, words: &[&str], nodes: i64) -> Result<[i64; 5], u8> {
    if words.len() != fields.len() {
        return Err(8);
    }
    let mut found = [0; 5];
    // Whether a number is too large, a number is below 0, a letter is unknown, and a node is.
    let mut faults = [false; 4];
    for ((slot, field), word) in found.iter_mut().zip(fields.bytes()).zip(words) {
        match word.parse::<i64>() {
            _ if field == b't' => faults[2] |= !["s", "t"].contains(word),
            Ok(n) => {
                *slot = n;
                faults[1] |= field == b'+' && n < 0;
                faults[3] |= field == b'n' && !(1..=nodes).contains(&n);
            }
            Err(e) if matches!(e.kind(), IntErrorKind::PosOverflow | IntErrorKind::NegOverflow) && is_digits(word) => {
                faults[0] = true
            }
            Err(_) => return Err(9),
        }
    }
    match faults.iter().zip([10, 11, 12, 13]).find(|it| *it.0) {
        Some((_, code)) => Err(code),
        None => Ok(found),
    }
}

fn problem(words: &[&str]) -> Result<Instance, u8> {
    let kind = KINDS.iter().find(|it| words[1..].starts_with(it.words)).ok_or(4)?;
    let fields = &words[1 + kind.words.len()..];
    let (nodes, declared) = if kind.letter == "a" {
        let [nodes, arcs, ..] = numbers("++", fields, 0)?;
        (nodes, arcs)
    } else {
        (i64::MAX, numbers("+", fields, 0)?[0])
    };
    let (arcs, bundles, points, items) = Default::default();
    Ok(Instance { kind, nodes, declared, lines: 0, ends: [None; 2], arcs, bundles, points, items })
}

impl Instance {
    fn name(&self) -> &'static str {
        self.kind.words[self.kind.words.len() - 1]
    }
    fn add(&mut self, words: &[&str]) -> Result<(), u8> {
        let counted = words[0] == self.kind.letter;
        if !counted && (words[0] != "n" || self.kind.ends.is_empty()) {
            return Err(5);
        }
        if !counted && self.lines > 0 {
            return Err(6);
        }
        if counted && self.lines >= self.declared {
            return Err(7);
        }
        self.lines += counted as i64;
        let fields = if counted { self.kind.fields } else { self.kind.ends };
        let [u, v, a, b, c] = numbers(fields, &words[1..], self.nodes)?;
        match (self.name(), counted) {
            ("sp", _) => {
                self.arcs.entry((u, v)).and_modify(|length| *length = a.min(*length)).or_insert(a);
            }
            ("max", true) => {
                let total = self.arcs.entry((u, v)).or_insert(0);
                *total = total.checked_add(a).ok_or(17)?;
            }
            ("max", false) => {
                let which = (words[2] == "t") as usize;
                if self.ends[which].is_some() {
                    return Err(14);
                }
                if self.ends[1 - which] == Some(u) {
                    return Err(15);
                }
                self.ends[which] = Some(u);
            }
            ("min", true) if a > b => return Err(16),
            ("min", true) => self.bundles.entry((u, v)).or_default().add(a, b, c)?,
            ("ss" | "p2p", _) => self.items.push((u, v)),
            _ if self.points.insert(u, (v, a)).is_some() => return Err(14),
            _ => {}
        }
        Ok(())
    }
}

fn read(input: impl BufRead) -> Result<Instance, Fault> {
    let mut instance: Option<Instance> = None;
    let mut no = 0;
    for line in input.split(b'\n') {
        let line = line?;
        no += 1;
        let fault = |code| Fault::Text(Some(no), code);
        let text = String::from_utf8_lossy(&line);
        let mut words = text.split([' ', '\t', '\r']).filter(|w| !w.is_empty()).peekable();
        match words.peek() {
            None => continue,
            Some(first) if first.starts_with('c') => continue,
            Some(first) if !["p", "n", "a", "s", "q", "v"].contains(first) => return Err(fault(1)),
            Some(_) => {}
        }
        let words: Vec<&str> = words.collect();
        match (&mut instance, words[0]) {
            (None, "p") => instance = Some(problem(&words).map_err(fault)?),
            (None, _) => return Err(fault(2)),
            (Some(_), "p") => return Err(fault(3)),
            (Some(i), _) => i.add(&words).map_err(fault)?,
        }
    }
    let instance = instance.ok_or(Fault::Text(None, 18))?;
    if instance.name() == "max" && instance.ends.contains(&None) {
        return Err(Fault::Text(None, 19));
    }
    if instance.lines < instance.declared {
        return Err(Fault::Text(None, 20));
    }
    Ok(instance)
}

impl Bundle {
    fn add(&mut self, low: i64, cap: i64, cost: i64) -> Result<(), u8> {
        self.caps = self.caps.checked_add(cap).ok_or(17)?;
        self.forced += low;
        self.cost += low as i128 * cost as i128;
        if cap > low {
            *self.free.entry(cost).or_insert(0) += cap - low;
        }
        Ok(())
    }
    /// The canonical arcs (LOW, CAP, COST).
    fn arcs(&self) -> Vec<(i64, i64, i64)> {
        let mut arcs = Vec::new();
        if self.forced > 0 {
            let l = self.forced as i128;
            let (c, r) = (self.cost.div_euclid(l) as i64, self.cost.rem_euclid(l) as i64);
            arcs.push((self.forced - r, self.forced - r, c));
            if r > 0 {
                arcs.push((r, r, c + 1));
            }
        }
        arcs.extend(self.free.iter().map(|(&cost, &cap)| (0, cap, cost)));
        arcs
    }
}

fn write(mut it: Instance, out: &mut impl Write) -> io::Result<()> {
    let name = it.name();
    if name == "max" {
        it.arcs.retain(|_, cap| *cap > 0);
    }
    let bundled: usize = it.bundles.values().map(|bundle| bundle.arcs().len()).sum();
    let points = if name == "co" { it.points.len() } else { 0 };
    write!(out, "p {}", it.kind.words.join(" "))?;
    if it.kind.letter == "a" {
        write!(out, " {}", it.nodes)?;
    }
    writeln!(out, " {}", it.arcs.len() + bundled + points + it.items.len())?;
    if let [Some(source), Some(sink)] = it.ends {
        writeln!(out, "n {source} s\nn {sink} t")?;
    }
    for (id, (x, y)) in &it.points {
        match name {
            "co" => writeln!(out, "v {id} {x} {y}")?,
            _ if *x == 0 => {}
            _ => writeln!(out, "n {id} {x}")?,
        }
    }
    for ((tail, head), number) in &it.arcs {
        writeln!(out, "a {tail} {head} {number}")?;
    }
    for ((tail, head), bundle) in &it.bundles {
        for (low, cap, cost) in bundle.arcs() {
            writeln!(out, "a {tail} {head} {low} {cap} {cost}")?;
        }
    }
    for (id, other) in &it.items {
        match name {
            "ss" => writeln!(out, "s {id}")?,
            _ => writeln!(out, "q {id} {other}")?,
        }
    }
    out.flush()
}

fn canon() -> Result<(), Fault> {
    let instance = read(io::stdin().lock())?;
    Ok(write(instance, &mut BufWriter::new(io::stdout().lock()))?)
}

fn main() -> ExitCode {
    match canon() {
        Ok(()) => ExitCode::SUCCESS,
        Err(Fault::Text(at, code)) => {
            let place = at.map_or("end".to_string(), |no| no.to_string());
            eprintln!("-:{place}: {code} {}", CODES[code as usize - 1]);
            ExitCode::from(2)
        }
        Err(Fault::Io(e)) => {
            eprintln!("-: {e}");
            ExitCode::from(4)
        }
    }
}
