//! Lists the document of a file or of standard input, in Rust. What it reads, writes and ends with is as in embed/list.c.

use sno_rewrite::{rewrite, Options, LONGEST_DOCUMENT};
use std::env;
use std::ffi::OsStr;
use std::fs::File;
use std::io::{self, Read, Write};
use std::path::Path;
use std::process::ExitCode;

/// Statuses that no call returned.
const WRONG_USE: u8 = 3;
const STREAM_FAILED: u8 = 4;

/// Reads to the end, or one byte past the longest document, which is enough to see that it is too long.
fn read_all(source: impl Read) -> io::Result<Vec<u8>> {
    let mut bytes = Vec::new();
    source
        .take(LONGEST_DOCUMENT as u64 + 1)
        .read_to_end(&mut bytes)?;
    Ok(bytes)
}

fn read_document(path: Option<&Path>) -> io::Result<Vec<u8>> {
    match path {
        Some(path) => read_all(File::open(path)?),
        None => read_all(io::stdin()),
    }
}

fn write_listing(bytes: &[u8]) -> io::Result<()> {
    let mut output = io::stdout();
    output.write_all(bytes)?;
    output.flush()
}

/// Lists the document and returns the status, or a status with the line for standard error.
fn list(path: Option<&Path>) -> Result<u8, (u8, String)> {
    let name = path.map_or("standard input".into(), Path::to_string_lossy);
    let document =
        read_document(path).map_err(|fault| (STREAM_FAILED, format!("{name}: {fault}")))?;
    let listing = rewrite(&document, &Options::default())
        .map_err(|fault| (fault.status(), format!("{name}: {fault}")))?;
    write_listing(&listing.bytes)
        .map_err(|fault| (STREAM_FAILED, format!("standard output: {fault}")))?;
    Ok(listing.status())
}

fn main() -> ExitCode {
    let arguments: Vec<_> = env::args_os().skip(1).collect();
    if arguments.len() > 1 {
        eprintln!("usage: list [FILE]");
        return ExitCode::from(WRONG_USE);
    }
    let path = arguments
        .first()
        .filter(|argument| argument.as_os_str() != OsStr::new("-"))
        .map(Path::new);
    match list(path) {
        Ok(status) => ExitCode::from(status),
        Err((status, line)) => {
            eprintln!("list: {line}");
            ExitCode::from(status)
        }
    }
}
