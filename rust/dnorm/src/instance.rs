//! An instance that a text was read as.

use crate::columns::{self, Columns, Star, Star32, StarOf};
use crate::difference::{Difference, Fit};
use crate::handle::Handle;
use crate::lines::{self, NotAFlow};
use crate::refusal::{self, ReadError, Refusal};
use crate::rows::Rows;
use crate::{ArcLine, CanonArc, Form, Item, Kind, Reader};
use dnorm_sys as sys;
use std::fmt::{Debug, Formatter, Result as Printed};
use std::fs::File;
use std::io::{ErrorKind, Read};
use std::num::TryFromIntError;
use std::path::Path;

/// How many rows are copied at a time.
const SOME: usize = 4096;

/// An instance that a text was read as.
#[must_use]
pub struct Instance {
    handle: Handle,
    kind: Kind,
    lines: Option<Vec<ArcLine>>,
}

impl Instance {
    /// Reads a text.
    ///
    /// # Errors
    ///
    /// The first fault of the text, or memory ran out.
    pub fn from_bytes(text: &[u8]) -> Result<Instance, Refusal> {
        let mut reader = Reader::new()?;
        reader.feed(text)?;
        reader.finish()
    }

    /// Reads a text to the end of its source, in pieces.
    ///
    /// # Errors
    ///
    /// The first fault of the text; or that memory ran out; or that the source failed before a line had a fault.
    pub fn read(source: impl Read) -> Result<Instance, ReadError> {
        Instance::read_by(Reader::new()?, source)
    }

    /// Reads a text as [`Instance::read`] does, and keeps its arc lines.
    ///
    /// # Errors
    ///
    /// As [`Instance::read`] has them.
    pub fn read_with_lines(source: impl Read) -> Result<Instance, ReadError> {
        Instance::read_by(Reader::with_lines()?, source)
    }

    fn read_by(mut reader: Reader, mut source: impl Read) -> Result<Instance, ReadError> {
        let mut room = vec![0; 65536];
        loop {
            match source.read(&mut room) {
                Ok(0) => return Ok(reader.finish()?),
                Ok(count) => reader.feed(&room[..count])?,
                Err(error) if error.kind() == ErrorKind::Interrupted => {}
                Err(error) => return Err(error.into()),
            }
        }
    }

    /// Reads the text in a file.
    ///
    /// # Errors
    ///
    /// As [`Instance::read`] has them, or that the file cannot be opened. The error names the file.
    pub fn open(path: impl AsRef<Path>) -> Result<Instance, ReadError> {
        Instance::open_by(path.as_ref(), Instance::read)
    }

    /// Reads the text in a file as [`Instance::open`] does, and keeps its arc lines.
    ///
    /// # Errors
    ///
    /// As [`Instance::open`] has them.
    pub fn open_with_lines(path: impl AsRef<Path>) -> Result<Instance, ReadError> {
        Instance::open_by(path.as_ref(), Instance::read_with_lines)
    }

    fn open_by(
        path: &Path,
        read: impl FnOnce(File) -> Result<Instance, ReadError>,
    ) -> Result<Instance, ReadError> {
        let opened = File::open(path).map_err(ReadError::Failed);
        opened.and_then(read).map_err(|it| it.of_file(path))
    }

    pub(crate) fn of_handle(
        handle: Handle,
        lines: Option<Vec<ArcLine>>,
    ) -> Result<Instance, Refusal> {
        let kind = unsafe { sys::dnorm_facts(handle.get()) }.kind;
        let kind = Kind::of_number(kind).ok_or_else(refusal::of_another_library)?;
        Ok(Instance {
            handle,
            kind,
            lines,
        })
    }

    fn facts(&self) -> sys::dnorm_summary {
        unsafe { sys::dnorm_facts(self.handle.get()) }
    }

    /// Returns the kind.
    pub fn kind(&self) -> Kind {
        self.kind
    }

    /// Returns NODES, or 0 for a companion.
    pub fn nodes(&self) -> i64 {
        self.facts().nodes
    }

    /// Returns the number of arcs, items or points that were read.
    pub fn lines(&self) -> i64 {
        self.facts().lines
    }

    /// Returns the number of ordered pairs that have canonical arcs, or 0 for a companion. Each has one arc in `sp` and
    /// `max`, and one or more in `min`.
    pub fn pairs(&self) -> u64 {
        self.facts().pairs
    }

    /// Returns the number of canonical arcs, or 0 for a companion, or `usize::MAX` if there are more.
    pub fn arc_count(&self, form: Form) -> usize {
        let found = unsafe { sys::dnorm_arc_count(self.handle.get(), form as u8) };
        match found.code {
            sys::DNORM_COUNT_TOO_LARGE => usize::MAX,
            _ => found.count,
        }
    }

    /// Returns the number of items.
    pub fn item_count(&self) -> u64 {
        self.facts().items
    }

    /// Returns the canonical arcs, in the order of the canonical text. A companion has none.
    pub fn arcs(&self, form: Form) -> Rows<'_, CanonArc> {
        // A graph of few lines has few arcs.
        let room = usize::try_from(self.lines()).map_or(SOME, |it| SOME.min(it.saturating_add(1)));
        Rows::new(self, form, room)
    }

    /// Returns what the instance has beside its arcs: flows by ascending node, the source with the sink, items in the
    /// order of the text, or points by ascending ID.
    pub fn items(&self) -> Rows<'_, Item> {
        let count = usize::try_from(self.item_count()).unwrap_or(SOME);
        Rows::new(self, Form::One, SOME.min(count) + 1)
    }

    /// Returns the canonical arcs by columns. Those that the kind lacks are empty.
    pub fn columns(&self, form: Form) -> Columns<i64> {
        Columns::of(self, form).unwrap_or_default()
    }

    /// Returns the canonical arcs by columns of 32 bits.
    ///
    /// # Errors
    ///
    /// A number does not fit.
    pub fn columns_32(&self, form: Form) -> Result<Columns<i32>, TryFromIntError> {
        Columns::of(self, form)
    }

    /// Returns the canonical arcs by their tails. The star has NODES + 1 numbers, and a text can declare any NODES.
    ///
    /// # Errors
    ///
    /// There is no memory for as many numbers.
    pub fn star(&self, form: Form) -> Result<Star, Refusal> {
        let found = StarOf::of(self.nodes(), self.columns(form))?;
        found.ok_or_else(refusal::memory)
    }

    /// Returns the canonical arcs by their tails, with numbers of 32 bits.
    ///
    /// # Errors
    ///
    /// NODES, the number of arcs, or a number of an arc does not fit. Memory that runs out ends the program, as with
    /// any vector of Rust.
    pub fn star_32(&self, form: Form) -> Result<Star32, TryFromIntError> {
        i32::try_from(self.nodes())?;
        let found = StarOf::of(self.nodes(), self.columns_32(form)?);
        found.ok().flatten().ok_or_else(columns::too_wide)
    }

    /// Returns the arc lines of the text, in its order, if they were kept: see [`Instance::open_with_lines`],
    /// [`Instance::read_with_lines`] and [`Reader::with_lines`].
    pub fn arc_lines(&self) -> Option<&[ArcLine]> {
        self.lines.as_deref()
    }

    /// Puts a flow on the canonical arcs back on the arc lines: returns the units of each line. The lines of a pair
    /// share the flow of its arcs: in `min` each has its lower bound, and the rest goes to the cheapest, so that the
    /// cost stays the same; in `max` the first ones are filled; in `sp` the first of the shortest has all.
    ///
    /// # Errors
    ///
    /// The numbers are no flow on the lines, the lines were not kept, or the instance is a companion.
    pub fn spread(&self, form: Form, flow: &[i64]) -> Result<Vec<i64>, NotAFlow> {
        let kept = self.arc_lines().ok_or(NotAFlow)?;
        lines::spread(self, form, flow, kept)
    }

    /// Returns the canonical text.
    ///
    /// # Errors
    ///
    /// Memory ran out, or the text would have more than 2^63-1 counted lines.
    pub fn canon(&self, form: Form) -> Result<Vec<u8>, Refusal> {
        let mut text = Handle::default();
        let into = text.get_mut();
        refusal::checked(unsafe { sys::dnorm_canon(self.handle.get(), form as u8, into) })?;
        let (mut bytes, mut room) = (Vec::new(), vec![0; 65536]);
        loop {
            let (at, size) = (room.as_mut_ptr(), room.len());
            let copied = unsafe { sys::dnorm_text(text.get_mut(), bytes.len(), at, size) };
            bytes.extend_from_slice(&room[..copied.count]);
            if copied.count < size {
                return Ok(bytes);
            }
        }
    }

    /// Returns where two instances first differ, or `None` if they pose the same problem.
    pub fn compare(&self, other: &Instance) -> Option<Difference> {
        Difference::of(unsafe { sys::dnorm_compare(self.handle.get(), other.handle.get()) })
    }

    /// Returns whether a companion fits this instance, a graph.
    pub fn fits(&self, companion: &Instance) -> Fit {
        Fit::of(unsafe { sys::dnorm_fits(self.handle.get(), companion.handle.get()) })
    }

    pub(crate) fn raw(&self) -> *const sys::dnorm {
        self.handle.get()
    }
}

impl Debug for Instance {
    fn fmt(&self, to: &mut Formatter<'_>) -> Printed {
        to.debug_struct("Instance")
            .field("kind", &self.kind)
            .field("nodes", &self.nodes())
            .field("lines", &self.lines())
            .finish_non_exhaustive()
    }
}

impl<'a> IntoIterator for &'a Instance {
    type Item = CanonArc;
    type IntoIter = Rows<'a, CanonArc>;

    /// Returns the canonical arcs in form 1.
    fn into_iter(self) -> Rows<'a, CanonArc> {
        self.arcs(Form::One)
    }
}
