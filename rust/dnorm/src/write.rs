//! Texts of items and arcs.

use crate::{ArcLine, CanonArc, Item, Kind};
use std::io::{self, BufWriter, ErrorKind, Write};

/// Writes a text with these items and arcs in their order, as [`Instance::items`](crate::Instance::items) and
/// [`Instance::arcs`](crate::Instance::arcs) return them: nodes and arcs are for a graph alone. What it is given is not
/// judged: [`Instance::read`](crate::Instance::read) judges the text. The writer takes large pieces, and is flushed.
///
/// # Errors
///
/// The writer failed.
pub fn write(
    out: impl Write,
    kind: Kind,
    nodes: i64,
    items: &[Item],
    arcs: &[CanonArc],
) -> io::Result<()> {
    let mut out = BufWriter::with_capacity(65536, out);
    match kind {
        Kind::Min | Kind::Max | Kind::Sp => writeln!(out, "p {kind} {nodes} {}", arcs.len())?,
        Kind::Ss | Kind::P2p | Kind::Co => writeln!(out, "p aux sp {kind} {}", items.len())?,
    }
    for Item { id, a, b } in items {
        match kind {
            Kind::Min => writeln!(out, "n {id} {a}")?,
            Kind::Max => writeln!(out, "n {id} s\nn {a} t")?,
            Kind::Sp => {}
            Kind::Ss => writeln!(out, "s {id}")?,
            Kind::P2p => writeln!(out, "q {id} {a}")?,
            Kind::Co => writeln!(out, "v {id} {a} {b}")?,
        }
    }
    for arc in arcs {
        let (tail, head, a, b, c) = (arc.tail, arc.head, arc.a, arc.b, arc.c);
        match kind {
            Kind::Min => writeln!(out, "a {tail} {head} {a} {b} {c}")?,
            Kind::Max | Kind::Sp => writeln!(out, "a {tail} {head} {a}")?,
            Kind::Ss | Kind::P2p | Kind::Co => {}
        }
    }
    out.flush()
}

/// Writes the units of each arc line, `f TAIL HEAD UNITS`, in the order of the text, as
/// [`Instance::spread`](crate::Instance::spread) returns them. The writer takes large pieces, and is flushed.
///
/// # Errors
///
/// The writer failed; or there are not as many units as lines, and nothing is written.
pub fn write_flow(out: impl Write, lines: &[ArcLine], units: &[i64]) -> io::Result<()> {
    if units.len() != lines.len() {
        let line = format!("{} units for {} arc lines", units.len(), lines.len());
        return Err(io::Error::new(ErrorKind::InvalidInput, line));
    }
    let mut out = BufWriter::with_capacity(65536, out);
    for (line, units) in lines.iter().zip(units) {
        writeln!(out, "f {} {} {units}", line.tail, line.head)?;
    }
    out.flush()
}
