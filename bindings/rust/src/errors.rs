//! Why calls fail.

use std::error::Error;
use std::fmt;

/// A part of a text, in bytes.
#[derive(Clone, Copy, Debug, PartialEq, Eq)]
pub struct SourceSpan {
    pub offset: usize,
    pub length: usize,
}

/// A fault of a text. Displays as its label.
#[derive(Clone, Debug, PartialEq, Eq)]
pub struct ParseSingleError {
    /// A name for programs, such as `ExpectedCloseParenthesis`.
    pub code: String,
    pub span: SourceSpan,
    /// What to write at the span.
    pub label: String,
    /// What to write instead. Empty for most faults.
    pub help: String,
}

impl fmt::Display for ParseSingleError {
    fn fmt(&self, f: &mut fmt::Formatter<'_>) -> fmt::Result {
        f.write_str(&self.label)
    }
}

impl Error for ParseSingleError {}

/// A rejected text and its faults, in the order in which they were found.
#[derive(Clone, Debug, PartialEq, Eq)]
pub struct FiltersetParseErrors {
    pub input: String,
    pub errors: Vec<ParseSingleError>,
}

impl fmt::Display for FiltersetParseErrors {
    fn fmt(&self, f: &mut fmt::Formatter<'_>) -> fmt::Result {
        for (i, error) in self.errors.iter().enumerate() {
            let separator = if i == 0 { "" } else { "; " };
            write!(f, "{separator}{error} at {}", error.span.offset)?;
        }
        Ok(())
    }
}

impl Error for FiltersetParseErrors {}

/// Why a call failed.
#[derive(Clone, Debug, PartialEq, Eq)]
#[non_exhaustive]
pub enum FiltersetError {
    /// There was not enough memory, which says nothing about the arguments.
    OutOfMemory,
    /// A text has faults, or nests too deeply, which is the one fault `NestedTooDeeply`.
    Faults(FiltersetParseErrors),
    /// Bytes describe no workspace.
    NotAWorkspace,
    /// The library reports a status that this crate does not know.
    Status(u8),
}

impl fmt::Display for FiltersetError {
    fn fmt(&self, f: &mut fmt::Formatter<'_>) -> fmt::Result {
        match self {
            FiltersetError::OutOfMemory => f.write_str("out of memory"),
            FiltersetError::Faults(errors) => errors.fmt(f),
            FiltersetError::NotAWorkspace => f.write_str("the bytes describe no workspace"),
            FiltersetError::Status(status) => write!(f, "status {status}"),
        }
    }
}

impl Error for FiltersetError {}
