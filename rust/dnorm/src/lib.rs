//! Reads DIMACS network instances (`min`, `max`, `sp`, and the companions `ss`, `p2p`, `co`) by libdnorm, whose reader
//! is proved. No call is unsafe.
//!
//! ```no_run
//! let graph = dnorm::Instance::open("roads.gr")?;
//! for arc in graph.arcs(dnorm::Form::One) {
//!     println!("{} to {}: {}", arc.tail, arc.head, arc.a);
//! }
//! # Ok::<(), dnorm::ReadError>(())
//! ```
//!
//! [`Reader`] takes a text in pieces and ends as an [`Instance`], or as the [`Refusal`] that says why there is none.
//! Both free what they own when they are dropped, and may go to another thread. Several threads may use one instance at
//! a time.
#![warn(missing_docs, missing_debug_implementations)]

mod codes;
mod columns;
mod difference;
mod handle;
mod instance;
mod lines;
mod reader;
mod refusal;
mod rows;
mod write;

pub use columns::{Columns, Index, Star, Star32, StarOf};
pub use difference::{Difference, Fit};
pub use instance::Instance;
pub use lines::NotAFlow;
pub use reader::{Declared, Reader};
pub use refusal::{Place, ReadError, Refusal};
pub use rows::Rows;
pub use write::{write, write_flow};

use dnorm_sys as sys;
use std::fmt::{Display, Formatter, Result as Printed};
use std::str::FromStr;

/// A canonical arc: its nodes, and its numbers in the order of its line. These are the length (`sp`), the capacity
/// (`max`), or the lower bound, the capacity and the cost of a unit (`min`); those that a kind lacks are 0.
pub type CanonArc = sys::dnorm_arc;

/// An arc line of a text: the number of the line, counted from 1, its nodes, and its numbers as in [`CanonArc`].
pub type ArcLine = sys::dnorm_row;

/// What an instance has beside its arcs: a node `id` and its flow `a`, which is not 0 (`min`); the source `id` and the
/// sink `a`, in one item (`max`); an ID (`ss`); two IDs, `id` and `a` (`p2p`); an ID, x in `a` and y in `b` (`co`).
/// Numbers that a kind lacks are 0.
pub type Item = sys::dnorm_item;

/// The kind of an instance.
#[derive(Clone, Copy, Debug, PartialEq, Eq, Hash)]
#[repr(u8)]
pub enum Kind {
    /// A minimum cost flow problem.
    Min = sys::DNORM_MIN,
    /// A maximum flow problem.
    Max = sys::DNORM_MAX,
    /// A shortest path graph.
    Sp = sys::DNORM_SP,
    /// Sources.
    Ss = sys::DNORM_SS,
    /// Queries from a node to a node.
    P2p = sys::DNORM_P2P,
    /// Coordinates.
    Co = sys::DNORM_CO,
}

impl Kind {
    const ALL: [Kind; 6] = [
        Kind::Min,
        Kind::Max,
        Kind::Sp,
        Kind::Ss,
        Kind::P2p,
        Kind::Co,
    ];

    pub(crate) fn of_number(number: u8) -> Option<Kind> {
        Kind::ALL.into_iter().find(|it| *it as u8 == number)
    }

    /// Returns the name of the kind, as problem lines have it.
    #[must_use]
    pub const fn name(self) -> &'static str {
        match self {
            Kind::Min => "min",
            Kind::Max => "max",
            Kind::Sp => "sp",
            Kind::Ss => "ss",
            Kind::P2p => "p2p",
            Kind::Co => "co",
        }
    }
}

impl Display for Kind {
    fn fmt(&self, to: &mut Formatter<'_>) -> Printed {
        to.pad(self.name())
    }
}

/// A text names none of the six kinds.
#[derive(Clone, Copy, Debug, PartialEq, Eq)]
pub struct NotAKind;

impl Display for NotAKind {
    fn fmt(&self, to: &mut Formatter<'_>) -> Printed {
        to.write_str("a kind is min, max, sp, ss, p2p or co")
    }
}

impl std::error::Error for NotAKind {}

impl FromStr for Kind {
    type Err = NotAKind;

    fn from_str(name: &str) -> Result<Kind, NotAKind> {
        let found = Kind::ALL.into_iter().find(|it| it.name() == name);
        found.ok_or(NotAKind)
    }
}

/// The canonical form, which matters only for `min`.
#[derive(Clone, Copy, Debug, PartialEq, Eq, Hash)]
#[repr(u8)]
pub enum Form {
    /// Separate arcs for forced units and for free capacity.
    One = 1,
    /// One arc for each cost of a pair.
    Two = 2,
}
