//! The version of the library.

use crate::cells;
use std::fmt::{Display, Formatter, Result};

/// The version of this package, and of the library that it was written for.
pub const VERSION: &str = env!("CARGO_PKG_VERSION");

/// A version of the library, later ones above earlier ones.
#[derive(Clone, Copy, Debug, PartialEq, Eq, PartialOrd, Ord)]
pub struct Version {
    /// Another one may break callers.
    pub major: u16,
    /// A higher one has more; while major is 0 it may break callers too.
    pub minor: u8,
    /// A higher one has mistakes mended.
    pub patch: u8,
}

/// The version of the library that is linked.
///
/// ```
/// assert_eq!(gate_host::library_version().to_string(), gate_host::VERSION);
/// ```
pub fn library_version() -> Version {
    let number = cells::library_version();
    Version { major: (number >> 16) as u16, minor: (number >> 8) as u8, patch: number as u8 }
}

impl Display for Version {
    fn fmt(&self, formatter: &mut Formatter<'_>) -> Result {
        write!(formatter, "{}.{}.{}", self.major, self.minor, self.patch)
    }
}
