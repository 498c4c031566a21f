//! What two instances differ in, and whether a companion fits a graph.

use crate::Kind;
use dnorm_sys as sys;

/// What two instances first differ in, with the values of the left and of the right one.
#[derive(Clone, Copy, Debug, PartialEq, Eq, Hash)]
pub enum Difference {
    /// Their kinds.
    Kinds(Kind, Kind),
    /// The number of their nodes.
    Nodes(i128, i128),
    /// The flow of this node (`min`).
    Supply(i64, i128, i128),
    /// Their sources (`max`).
    Source(i128, i128),
    /// Their sinks (`max`).
    Sink(i128, i128),
    /// The arcs of a pair.
    Pair {
        /// The tail.
        tail: i64,
        /// The head.
        head: i64,
        /// The least amount at which the least costs differ (`min`), or 0.
        amount: i64,
        /// The least length, or `None` without an arc (`sp`); the capacity (`max`); the least cost of the amount, or
        /// `None` if it is infeasible (`min`).
        left: Option<i128>,
        /// The same of the right instance.
        right: Option<i128>,
    },
    /// The number of their items (`ss`, `p2p`).
    Length(i128, i128),
    /// The item of this number, counted from 1 (`ss`, `p2p`).
    Item(u64),
    /// The point of this ID (`co`).
    Point(i64),
}

impl Difference {
    pub(crate) fn of(found: sys::dnorm_difference) -> Option<Difference> {
        let (left, right) = (number(found.left), number(found.right));
        let both = (left.unwrap_or(0), right.unwrap_or(0));
        Some(match found.what {
            sys::DNORM_KINDS_DIFFER => Difference::Kinds(kind(both.0)?, kind(both.1)?),
            sys::DNORM_NODES_DIFFER => Difference::Nodes(both.0, both.1),
            sys::DNORM_SUPPLY_DIFFERS => Difference::Supply(found.at, both.0, both.1),
            sys::DNORM_SOURCE_DIFFERS => Difference::Source(both.0, both.1),
            sys::DNORM_SINK_DIFFERS => Difference::Sink(both.0, both.1),
            sys::DNORM_PAIR_DIFFERS => Difference::Pair {
                tail: found.at,
                head: found.to,
                amount: found.amount,
                left,
                right,
            },
            sys::DNORM_LENGTH_DIFFERS => Difference::Length(both.0, both.1),
            sys::DNORM_ITEM_DIFFERS => Difference::Item(found.index),
            sys::DNORM_POINT_DIFFERS => Difference::Point(found.at),
            _ => return None,
        })
    }
}

fn number(value: sys::dnorm_value) -> Option<i128> {
    let whole = (i128::from(value.high) << 64) | i128::from(value.low);
    value.known.then_some(whole)
}

fn kind(number: i128) -> Option<Kind> {
    Kind::of_number(u8::try_from(number).ok()?)
}

/// Whether a companion fits a graph.
#[derive(Clone, Copy, Debug, PartialEq, Eq, Hash)]
pub enum Fit {
    /// It names only nodes of the graph.
    Fits,
    /// It names this node, which the graph does not have: the first one in the order of the text (`ss`, `p2p`), or the
    /// least one (`co`).
    NotInGraph(i64),
    /// The graph is not `sp`, or the companion is none.
    NotKinds,
}

impl Fit {
    pub(crate) fn of(found: sys::dnorm_fit) -> Fit {
        match found.code {
            sys::DNORM_FITS => Fit::Fits,
            sys::DNORM_NOT_IN_GRAPH => Fit::NotInGraph(found.node),
            _ => Fit::NotKinds,
        }
    }
}
