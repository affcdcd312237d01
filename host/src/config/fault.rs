//! What is wrong with a configuration.

use std::path::PathBuf;
use thiserror::Error;

/// Why a configuration isn't taken: file, line, what was expected there, and what
/// was found.
#[derive(Clone, Debug, PartialEq, Eq, Error)]
#[error("{}:{line}: {key}: expected {expected}, found {found}", file.display())]
pub struct ConfigFault {
    /// The configuration's file.
    pub file: PathBuf,
    /// The line, from 1; 0 where the file itself couldn't be read.
    pub line: usize,
    /// The key, with the tables around it, as `peers[1].entries[2].local`.
    pub key: String,
    /// What was expected.
    pub expected: String,
    /// What was found.
    pub found: String,
}
