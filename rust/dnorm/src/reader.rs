//! A text that comes in pieces.

use crate::handle::Handle;
use crate::lines::Lines;
use crate::refusal::{self, Refusal};
use crate::{Instance, Kind};
use dnorm_sys as sys;
use std::fmt::{Debug, Formatter, Result as Printed};

/// What the problem line of a text declares.
#[derive(Clone, Copy, Debug, PartialEq, Eq)]
pub struct Declared {
    /// The kind.
    pub kind: Kind,
    /// NODES, or 0 for a companion.
    pub nodes: i64,
    /// The number of arcs, items or points.
    pub lines: i64,
}

/// Reads a text that comes in pieces.
#[must_use]
pub struct Reader {
    handle: Handle,
    lines: Option<Lines>,
}

impl Reader {
    /// Begins a text.
    ///
    /// # Errors
    ///
    /// Memory ran out.
    pub fn new() -> Result<Reader, Refusal> {
        Reader::begun(None)
    }

    /// Begins a text whose arc lines the instance is to keep.
    ///
    /// # Errors
    ///
    /// Memory ran out.
    pub fn with_lines() -> Result<Reader, Refusal> {
        Reader::begun(Some(Lines::new()?))
    }

    fn begun(lines: Option<Lines>) -> Result<Reader, Refusal> {
        let mut handle = Handle::default();
        refusal::checked(unsafe { sys::dnorm_begin(handle.get_mut()) })?;
        Ok(Reader { handle, lines })
    }

    /// Feeds the next piece. A piece may end anywhere, and may be empty.
    ///
    /// # Errors
    ///
    /// The first fault of the text, as soon as its line is complete, or memory ran out. Every later piece and the end
    /// then have the same error.
    pub fn feed(&mut self, piece: &[u8]) -> Result<(), Refusal> {
        let handle = self.handle.get_mut();
        refusal::checked(unsafe { sys::dnorm_feed(handle, piece.as_ptr(), piece.len()) })?;
        self.lines.as_mut().map_or(Ok(()), |it| it.feed(piece))
    }

    /// Returns what the problem line declares, once it was read.
    pub fn declared(&self) -> Option<Declared> {
        let facts = unsafe { sys::dnorm_facts(self.handle.get()) };
        Kind::of_number(facts.kind).map(|kind| Declared {
            kind,
            nodes: facts.nodes,
            lines: facts.lines,
        })
    }

    /// Ends the text.
    ///
    /// # Errors
    ///
    /// The first fault of the text, or memory ran out.
    pub fn finish(mut self) -> Result<Instance, Refusal> {
        refusal::checked(unsafe { sys::dnorm_finish(self.handle.get_mut()) })?;
        let lines = self.lines.map(Lines::finish).transpose()?;
        Instance::of_handle(self.handle, lines)
    }
}

impl Debug for Reader {
    fn fmt(&self, to: &mut Formatter<'_>) -> Printed {
        to.debug_struct("Reader")
            .field("declared", &self.declared())
            .field("keeps_lines", &self.lines.is_some())
            .finish_non_exhaustive()
    }
}
