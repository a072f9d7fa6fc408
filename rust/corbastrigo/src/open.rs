use crate::{Refusal, MAX_MAP_BYTES};
use std::error::Error;
use std::fmt;
use std::fs::File;
use std::io::{self, Read};
use std::path::{Path, PathBuf};

/// Why [`AsMap::open`](crate::AsMap::open) or [`AsMap4::open`](crate::AsMap4::open) made no map of a file. Its words name the file and
/// what failed; the reason stands behind it, as [`source`](Error::source), and is shown by `Debug` too.
#[derive(Debug)]
#[non_exhaustive]
pub enum OpenError {
    /// The file could not be read.
    #[non_exhaustive]
    Unreadable {
        /// The file.
        path: PathBuf,
        /// What the system says.
        error: io::Error,
    },
    /// The file was read, and the check refused what is in it.
    #[non_exhaustive]
    Refused {
        /// The file.
        path: PathBuf,
        /// The check's reason.
        refusal: Refusal,
    },
}

impl OpenError {
    /// The file that was asked for.
    pub fn path(&self) -> &Path {
        match self {
            OpenError::Unreadable { path, .. } | OpenError::Refused { path, .. } => path,
        }
    }

    /// The check's reason, where it was the check that refused.
    pub fn refusal(&self) -> Option<Refusal> {
        match self {
            OpenError::Unreadable { .. } => None,
            OpenError::Refused { refusal, .. } => Some(*refusal),
        }
    }
}

impl fmt::Display for OpenError {
    fn fmt(&self, f: &mut fmt::Formatter<'_>) -> fmt::Result {
        match self {
            OpenError::Unreadable { path, .. } => write!(f, "{} cannot be read", path.display()),
            OpenError::Refused { path, .. } => write!(f, "{} is no sane map", path.display()),
        }
    }
}

impl Error for OpenError {
    fn source(&self) -> Option<&(dyn Error + 'static)> {
        match self {
            OpenError::Unreadable { error, .. } => Some(error),
            OpenError::Refused { refusal, .. } => Some(refusal),
        }
    }
}

/// The bytes of a file, at most one more than the limit.
pub(crate) fn bytes_at(path: &Path) -> io::Result<Vec<u8>> {
    let mut bytes = Vec::new();
    File::open(path)?.take(MAX_MAP_BYTES as u64 + 1).read_to_end(&mut bytes)?;
    Ok(bytes)
}
