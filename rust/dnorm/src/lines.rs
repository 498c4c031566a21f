//! The arc lines of a text, and a flow on them.

use crate::handle::Handle;
use crate::refusal::{self, Refusal};
use crate::{ArcLine, Form, Instance};
use dnorm_sys as sys;
use std::error::Error;
use std::fmt::{Display, Formatter, Result as Printed};

/// How many arc lines are read at a time.
const SOME: usize = 512;

/// A reader of the arc lines of a text, and the lines so far.
pub(crate) struct Lines {
    handle: Handle,
    pub(crate) rows: Vec<ArcLine>,
}

impl Lines {
    pub(crate) fn new() -> Result<Lines, Refusal> {
        let mut handle = Handle::default();
        refusal::checked(unsafe { sys::dnorm_lines_begin(handle.get_mut()) })?;
        let rows = Vec::new();
        Ok(Lines { handle, rows })
    }

    /// Takes a piece that the reader of the instance has taken: a line with a fault by itself was refused before.
    pub(crate) fn feed(&mut self, mut piece: &[u8]) -> Result<(), Refusal> {
        let handle = self.handle.get_mut();
        let mut some = [ArcLine::default(); SOME];
        while !piece.is_empty() {
            let (bytes, length) = (piece.as_ptr(), piece.len());
            let given = unsafe { sys::dnorm_lines(handle, bytes, length, some.as_mut_ptr(), SOME) };
            if given.code != sys::DNORM_FINE {
                break;
            }
            self.rows
                .try_reserve(given.count)
                .map_err(|_| refusal::memory())?;
            self.rows.extend_from_slice(&some[..given.count]);
            piece = &piece[given.used..];
        }
        Ok(())
    }

    /// Ends the text.
    pub(crate) fn finish(mut self) -> Result<Vec<ArcLine>, Refusal> {
        self.feed(b"\n")?;
        Ok(self.rows)
    }
}

/// Numbers are no flow on the arc lines: the units of a pair are not between the sums of its lower bounds and of its
/// capacities, there are more or fewer numbers than arcs, the lines were not kept, or a companion has none.
#[derive(Clone, Copy, Debug, PartialEq, Eq)]
pub struct NotAFlow;

impl Display for NotAFlow {
    fn fmt(&self, to: &mut Formatter<'_>) -> Printed {
        to.write_str("the numbers are no flow on the arc lines, or these were not kept")
    }
}

impl Error for NotAFlow {}

/// Puts a flow on canonical arcs back on the arc lines of their text: see [`Instance::spread`].
pub(crate) fn spread(
    graph: &Instance,
    form: Form,
    flow: &[i64],
    lines: &[ArcLine],
) -> Result<Vec<i64>, NotAFlow> {
    let pairs = usize::try_from(graph.pairs()).map_err(|_| NotAFlow)?;
    let mut shares = vec![sys::dnorm_share::default(); pairs];
    let mut units = vec![0; lines.len()];
    let status = unsafe {
        sys::dnorm_spread(
            graph.raw(),
            form as u8,
            flow.as_ptr(),
            flow.len(),
            lines.as_ptr(),
            lines.len(),
            shares.as_mut_ptr(),
            shares.len(),
            units.as_mut_ptr(),
            units.len(),
        )
    };
    refusal::checked(status)
        .map(|()| units)
        .map_err(|_| NotAFlow)
}
