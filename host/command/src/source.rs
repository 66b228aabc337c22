//! The files that a command reads.

use crate::trouble::Trouble;
use std::ffi::OsStr;
use std::fs::File;
use std::io::Read;
use std::path::Path;

/// More bytes than any image or saved state has. What is longer is neither, and is not read to its end, which may be far away.
const MOST_BYTES: u64 = 1 << 16;

/// The bytes of an image's file.
pub fn image(path: &OsStr) -> Result<Vec<u8>, Trouble> {
    bytes(path, MOST_BYTES)
}

/// The bytes of a saved state's file.
pub fn saved(path: &OsStr) -> Result<Vec<u8>, Trouble> {
    bytes(path, MOST_BYTES)
}

/// The bytes of a file that has so many at most.
pub fn bytes(path: &OsStr, most: u64) -> Result<Vec<u8>, Trouble> {
    let path = Path::new(path);
    let trouble = |error| Trouble::File(path.into(), error);
    let mut bytes = Vec::new();
    let read = File::open(path).map_err(trouble)?.take(most + 1).read_to_end(&mut bytes).map_err(trouble)?;
    if read as u64 > most {
        return Err(Trouble::Content(path.into(), format!("longer than {most} bytes, which is more than such a file has")));
    }
    Ok(bytes)
}
