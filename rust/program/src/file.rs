//! The file that a command is about.

use crate::fault::Fault;
use crate::markdown;
use std::ffi::OsStr;
use std::fs::File;
use std::io::{self, Read};
use std::path::Path;

/// The most bytes of a file: the largest county's text has 520,015, and a
/// description may say more than its tables.
const MOST: u64 = 16 << 20;

/// Reads a file, or standard input where it is named `-`.
pub fn read(name: &OsStr) -> Result<Vec<u8>, Fault> {
    let bytes = if name == "-" {
        take(io::stdin().lock())
    } else {
        File::open(name).and_then(take)
    };
    let bytes = bytes.map_err(|error| Fault::new(format!("cannot be read: {error}")))?;
    if bytes.len() as u64 > MOST {
        let most = MOST >> 20;
        return Err(Fault::new(format!(
            "has more than {most} MiB: no town's file is so large"
        )));
    }
    Ok(bytes)
}

/// All bytes, but no more than show that they are too many.
fn take(source: impl Read) -> io::Result<Vec<u8>> {
    let mut bytes = Vec::new();
    source.take(MOST + 1).read_to_end(&mut bytes)?;
    Ok(bytes)
}

/// Whether a file is a description with tables rather than a network text: by
/// its name, or because a line begins with a bar, which no network text has.
pub fn is_table(name: &OsStr, bytes: &[u8]) -> bool {
    Path::new(name).extension() == Some(OsStr::new("md")) || markdown::has_rows(bytes)
}
