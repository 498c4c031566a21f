//! Why there is no instance or no text.

use crate::codes::CODES;
use dnorm_sys as sys;
use std::error::Error;
use std::fmt::{Debug, Display, Formatter, Result as Printed};
use std::io;
use std::path::{Path, PathBuf};

/// Where a text is refused.
#[derive(Clone, Copy, Debug, PartialEq, Eq, Hash)]
pub enum Place {
    /// At this line, counted from 1.
    Line(u64),
    /// At its end.
    End,
}

/// Why there is no instance or no text.
#[derive(Clone, Copy, PartialEq, Eq, Hash)]
pub struct Refusal {
    /// The number of the refusal, as `dnorm help` lists them: 1 to 21, or 30 if memory ran out, or 34.
    pub number: u8,
    /// Where the text is refused; `None` for 30 and 34.
    pub place: Option<Place>,
}

impl Refusal {
    /// Returns the name of the refusal, as `dnorm help` lists them.
    pub fn name(&self) -> &'static str {
        self.words().0
    }

    /// Returns what the refusal means, in a sentence.
    pub fn sentence(&self) -> &'static str {
        self.words().1
    }

    fn words(&self) -> (&'static str, &'static str) {
        let other = (0, "WrongCall", "The library does not fit this crate.");
        let found = CODES.iter().find(|(number, ..)| *number == self.number);
        let (_, name, sentence) = *found.unwrap_or(&other);
        (name, sentence)
    }

    /// Whether memory ran out.
    pub fn is_memory(&self) -> bool {
        self.number == sys::DNORM_MEMORY
    }
}

impl Display for Refusal {
    /// Prints `line 3: 13 NodeOutOfRange: A node is ..`, with `end: ` at the end of a text, or without a place.
    fn fmt(&self, to: &mut Formatter<'_>) -> Printed {
        match self.place {
            Some(Place::Line(line)) => write!(to, "line {line}: ")?,
            Some(Place::End) => write!(to, "end: ")?,
            None => {}
        }
        write!(to, "{} {}: {}", self.number, self.name(), self.sentence())
    }
}

impl Debug for Refusal {
    /// Prints the same line, which a program shows if its `main` returns the refusal.
    fn fmt(&self, to: &mut Formatter<'_>) -> Printed {
        Display::fmt(self, to)
    }
}

impl Error for Refusal {}

/// Why a source gave no instance.
#[derive(Debug)]
#[non_exhaustive]
pub enum ReadError {
    /// The text is refused, or memory ran out.
    Refused(Refusal),
    /// The source failed.
    Failed(io::Error),
    /// The text in a file is refused, or memory ran out.
    InFile(PathBuf, Refusal),
}

impl ReadError {
    /// Returns why the text is refused, if it is.
    #[must_use]
    pub fn refusal(&self) -> Option<Refusal> {
        match self {
            ReadError::Refused(refusal) | ReadError::InFile(_, refusal) => Some(*refusal),
            ReadError::Failed(_) => None,
        }
    }

    /// Adds the name of a file.
    pub(crate) fn of_file(self, path: &Path) -> ReadError {
        match self {
            ReadError::Refused(refusal) => ReadError::InFile(path.to_owned(), refusal),
            ReadError::InFile(..) => self,
            ReadError::Failed(error) => {
                let line = format!("{}: {error}", path.display());
                ReadError::Failed(io::Error::new(error.kind(), line))
            }
        }
    }
}

impl Display for ReadError {
    fn fmt(&self, to: &mut Formatter<'_>) -> Printed {
        match self {
            ReadError::Refused(refusal) => Display::fmt(refusal, to),
            ReadError::Failed(error) => Display::fmt(error, to),
            ReadError::InFile(path, refusal) => write!(to, "{}: {refusal}", path.display()),
        }
    }
}

// What it prints is all that its sources print.
impl Error for ReadError {}

impl From<Refusal> for ReadError {
    fn from(refusal: Refusal) -> ReadError {
        ReadError::Refused(refusal)
    }
}

impl From<io::Error> for ReadError {
    fn from(error: io::Error) -> ReadError {
        ReadError::Failed(error)
    }
}

/// Returns the result of a call of the library.
pub(crate) fn checked(status: sys::dnorm_status) -> Result<(), Refusal> {
    let place = match status.place {
        sys::DNORM_AT_LINE => Some(Place::Line(status.line)),
        sys::DNORM_AT_END => Some(Place::End),
        _ => None,
    };
    match status.code {
        sys::DNORM_FINE => Ok(()),
        number => Err(Refusal { number, place }),
    }
}

fn without_place(number: u8) -> Refusal {
    let place = None;
    Refusal { number, place }
}

/// Returns that memory ran out.
pub(crate) fn memory() -> Refusal {
    without_place(sys::DNORM_MEMORY)
}

/// Returns the error of a library that does not fit this crate.
pub(crate) fn of_another_library() -> Refusal {
    without_place(sys::DNORM_WRONG_CALL)
}
