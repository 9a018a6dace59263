//! Files that a cut-off left beside a book: known for the tool's own by a name that tells their bytes.

use crate::frame::MOST_BYTES;
use crate::sys;
use std::fs::{self, OpenOptions};
use std::io::{self, Read};
use std::os::unix::fs::OpenOptionsExt;
use std::path::Path;

/// How such a name starts.
const PREFIX: &str = ".lindurask-";

/// A number that tells bytes apart (FNV-1a).
fn mark(bytes: &[u8]) -> u64 {
    const START: u64 = 0xcbf2_9ce4_8422_2325;
    const STEP: u64 = 0x0100_0000_01b3;
    bytes.iter().fold(START, |hash, &byte| (hash ^ u64::from(byte)).wrapping_mul(STEP))
}

/// A name for a file that will hold these bytes: their mark, and chance.
pub fn name(bytes: &[u8]) -> io::Result<String> {
    Ok(format!("{PREFIX}{:016x}-{:016x}", mark(bytes), sys::chance()?))
}

/// The file has the name of its bytes, and no program uses it.
fn is_left(path: &Path, name: &str) -> io::Result<bool> {
    let Some(told) = name.strip_prefix(PREFIX).and_then(|rest| rest.split_once('-')) else {
        return Ok(false);
    };
    if !fs::symlink_metadata(path)?.is_file() {
        return Ok(false);
    }
    let how = sys::NONBLOCK | sys::NOFOLLOW;
    let file = OpenOptions::new().read(true).custom_flags(how).open(path)?;
    if !sys::lock(&file)? {
        return Ok(false);
    }
    let mut bytes = Vec::new();
    (&file).take(MOST_BYTES as u64 + 1).read_to_end(&mut bytes)?;
    Ok(told.0 == format!("{:016x}", mark(&bytes)) && told.1.len() == told.0.len())
}

/// Removes what changes that were cut off left in the folder; every other file stays.
pub fn sweep(folder: &Path) {
    let Ok(entries) = fs::read_dir(folder) else { return };
    for entry in entries.flatten() {
        let name = entry.file_name();
        let Some(name) = name.to_str().filter(|name| name.starts_with(PREFIX)) else { continue };
        if matches!(is_left(&entry.path(), name), Ok(true)) {
            let _ = fs::remove_file(entry.path());
        }
    }
}
