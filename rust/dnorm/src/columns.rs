//! Arcs by columns, and by their tails.

use crate::refusal::{self, Refusal};
use crate::{Form, Instance, Kind};
use std::num::TryFromIntError;
use std::ops::Range;

/// Canonical arcs by columns, as [`CanonArc`](crate::CanonArc) has their numbers. Columns that the kind lacks are
/// empty: `b` and `c` of `sp` and `max`, and all columns of a companion.
#[derive(Clone, Debug, Default, PartialEq, Eq)]
pub struct Columns<Number> {
    /// The tails.
    pub tails: Vec<Number>,
    /// The heads.
    pub heads: Vec<Number>,
    /// Lengths, capacities, or lower bounds.
    pub a: Vec<Number>,
    /// Capacities (`min`).
    pub b: Vec<Number>,
    /// Costs of a unit (`min`).
    pub c: Vec<Number>,
}

impl<Number: TryFrom<i64>> Columns<Number> {
    pub(crate) fn of(graph: &Instance, form: Form) -> Result<Columns<Number>, Number::Error> {
        let count = graph.arc_count(form);
        let is_min = graph.kind() == Kind::Min;
        let further = if is_min { count } else { 0 };
        let mut made = Columns {
            tails: Vec::with_capacity(count),
            heads: Vec::with_capacity(count),
            a: Vec::with_capacity(count),
            b: Vec::with_capacity(further),
            c: Vec::with_capacity(further),
        };
        for arc in graph.arcs(form) {
            made.tails.push(arc.tail.try_into()?);
            made.heads.push(arc.head.try_into()?);
            made.a.push(arc.a.try_into()?);
            if is_min {
                made.b.push(arc.b.try_into()?);
                made.c.push(arc.c.try_into()?);
            }
        }
        Ok(made)
    }
}

/// Canonical arcs by their tails, a forward star, with indexes and numbers of these types: [`Star`] and [`Star32`].
#[derive(Clone, Debug, Default, PartialEq, Eq)]
pub struct StarOf<Index, Number> {
    /// The arcs of node `v`, counted from 1, have the indexes from `first[v - 1]` to `first[v]`, without the last one.
    pub first: Vec<Index>,
    /// The arcs.
    pub columns: Columns<Number>,
    /// Empty before [`StarOf::reverse`]. The arcs with the head `v` have the indexes `into[i]`, which ascend, for each
    /// `i` from `into_first[v - 1]` to `into_first[v]`, without the last one.
    pub into_first: Vec<Index>,
    /// The indexes of the arcs by their heads.
    pub into: Vec<Index>,
}

/// A forward star of 64 bits.
pub type Star = StarOf<usize, i64>;

/// A forward star of 32 bits.
pub type Star32 = StarOf<i32, i32>;

/// An index of an arc.
pub trait Index: Copy + Default + TryFrom<usize> + TryInto<usize> {}
impl Index for usize {}
impl Index for i32 {}

// An index or a node as a place in a list.
fn at<Any: TryInto<usize>>(index: Any) -> usize {
    index.try_into().unwrap_or(usize::MAX)
}

// An index that is no greater than one that fits.
fn index<I: Index>(place: usize) -> I {
    I::try_from(place).unwrap_or_default()
}

impl<I: Index, Number: Copy + TryFrom<i64> + TryInto<usize>> StarOf<I, Number> {
    // Returns the star of these columns, or no error for indexes that do not fit.
    pub(crate) fn of(nodes: i64, columns: Columns<Number>) -> Result<Option<Self>, Refusal> {
        let room = usize::try_from(nodes).ok().and_then(|it| it.checked_add(1));
        let room = room.ok_or_else(refusal::memory)?;
        let arcs = columns.tails.len();
        if I::try_from(room - 1).is_err() || I::try_from(arcs).is_err() {
            return Ok(None);
        }
        let mut first = Vec::new();
        first
            .try_reserve_exact(room)
            .map_err(|_| refusal::memory())?;
        for (before, tail) in columns.tails.iter().enumerate() {
            first.resize(first.len().max(at(*tail)), index(before));
        }
        first.resize(room, index(arcs));
        Ok(Some(StarOf {
            first,
            columns,
            into_first: Vec::new(),
            into: Vec::new(),
        }))
    }

    /// Finds the arcs into each node.
    pub fn reverse(&mut self) {
        // How many arcs have a head before each node; once all arcs have their places, those with this head as well.
        let mut first = vec![0; self.first.len() + 1];
        for head in &self.columns.heads {
            first[at(*head) + 1] += 1;
        }
        for node in 1..first.len() {
            first[node] += first[node - 1];
        }
        self.into = vec![I::default(); self.columns.heads.len()];
        for (arc, head) in self.columns.heads.iter().enumerate() {
            self.into[first[at(*head)]] = index(arc);
            first[at(*head)] += 1;
        }
        first.pop();
        self.into_first = first.into_iter().map(index).collect();
    }

    /// Returns the indexes of the arcs of a node, which is counted from 1.
    ///
    /// # Panics
    ///
    /// The graph does not have the node.
    pub fn arcs_of(&self, node: usize) -> Range<usize> {
        at(self.first[node - 1])..at(self.first[node])
    }

    /// Returns the indexes of the arcs into a node, which is counted from 1.
    ///
    /// # Panics
    ///
    /// The graph does not have the node, or [`StarOf::reverse`] was not called.
    pub fn arcs_into(&self, node: usize) -> &[I] {
        &self.into[at(self.into_first[node - 1])..at(self.into_first[node])]
    }
}

// The error of a number that does not fit.
pub(crate) fn too_wide() -> TryFromIntError {
    i32::try_from(i64::MAX).expect_err("2^63-1 does not fit 32 bits")
}
