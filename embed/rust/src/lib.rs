//! Nomyake for Rust: performs the statements of a document in order and lists what they did; reads a [`Pattern`] once, seeks
//! it in any number of texts, and replaces its matches; and keeps a [`Book`], whose texts are read and rewritten line by line.
//!
//! ```
//! use sno_rewrite::{rewrite, Options};
//!
//! fn main() -> Result<(), sno_rewrite::Error> {
//!     let document = br#"{"texts":[{"name":"T","text":"abc"}],"statements":[{"text":"T","pattern":"'b'"}]}"#;
//!     let listing = rewrite(document, &Options::default())?;
//!     assert_eq!(listing.status(), 0);
//!     assert!(listing.to_string().starts_with("texts 1\nT 0 |abc|\n"));
//!     Ok(())
//! }
//! ```
//!
//! `build.rs` links the static library `libsno_rewrite.a`, which it takes from the folder in the environment variable
//! `SNO_REWRITE_LIB_DIR`, or else from `embed/out` of the repository, or else from the folder that pkg-config names.
//!
//! Several threads may call at once, each with patterns, texts and books of its own, and with a stack of 2 MiB or more, as
//! [`std::thread::spawn`] gives it.

mod books;
mod patterns;

pub use books::Book;
pub use patterns::{Assignment, Match, Matches, Pattern, Replaced, Text, Value};

use std::fmt;

/// The limit of trials that [`Options::default`] has.
pub const USUAL_TRIALS: u32 = 1_000_000;

/// A longer document is always a fault.
pub const LONGEST_DOCUMENT: usize = 16_777_216;

/// A listing of up to this length takes one call of the library.
const FIRST_ROOM: usize = 64 * 1024;

const ALL_ACCEPTED: u8 = 0;
const SOME_REFUSED: u8 = 1;
const NO_DOCUMENT: u8 = 2;
const BAD_LIMIT: u8 = 3;
const NO_MEMORY: u8 = 4;
const TOO_SHORT: u8 = 5;

// build.rs links the library.
extern "C" {
    fn sno_rewrite_list(
        document: *const u8,
        document_length: usize,
        anchor: bool,
        json: bool,
        trials: u32,
        buffer: *mut u8,
        buffer_length: usize,
        output_length: *mut usize,
    ) -> u8;
}

/// How a document is run and listed.
#[derive(Clone, Debug, PartialEq, Eq)]
pub struct Options {
    /// Whether a statement without the member `anchored` is anchored.
    pub anchor: bool,
    /// Whether the listing is JSON.
    pub json: bool,
    /// How many trials the match of a statement may take, from 1 to 1,000,000,000.
    pub trials: u32,
}

impl Default for Options {
    fn default() -> Self {
        Options {
            anchor: false,
            json: false,
            trials: USUAL_TRIALS,
        }
    }
}

/// The listing of a document.
#[derive(Clone, Debug, PartialEq, Eq)]
pub struct Listing {
    /// The listing in lines or as JSON. All its bytes are ASCII in lines, and UTF-8 as JSON.
    pub bytes: Vec<u8>,
    /// Whether a statement was refused; the listing names it.
    pub some_refused: bool,
}

impl Listing {
    /// The status with which the program `sno_rewrite` ends: 0, or 1 if a statement was refused.
    pub fn status(&self) -> u8 {
        u8::from(self.some_refused)
    }
}

/// The listing as text.
impl fmt::Display for Listing {
    fn fmt(&self, formatter: &mut fmt::Formatter<'_>) -> fmt::Result {
        formatter.write_str(&String::from_utf8_lossy(&self.bytes))
    }
}

/// Why there is no listing, no book, no pattern, or nothing that was sought.
#[derive(Clone, Debug, PartialEq, Eq)]
#[non_exhaustive]
pub enum Error {
    /// The bytes aren't a document. This is the line of the first fault, as `input: not JSON`.
    NoDocument(String),
    /// The limit of trials isn't from 1 to 1,000,000,000.
    BadLimit(u32),
    /// The call ran out of memory.
    NoMemory,
    /// The rule or a definition can't be read. These lines say what is wrong, where, and what to write instead.
    Fault(String),
    /// The search takes more trials than this limit.
    TooManyTrials(u32),
    /// A text would have more than 16,777,216 bytes.
    TooLong,
    /// The cursor lies past the end of the text.
    PastEnd,
    /// The search would have to keep more than 4,194,304 places to back up to.
    HistoryTooLong,
    /// The library returned a status that it shouldn't have returned.
    Unexpected(u8),
}

impl Error {
    /// The status that the library returned.
    pub fn status(&self) -> u8 {
        match self {
            Error::NoDocument(_) => NO_DOCUMENT,
            Error::BadLimit(_) => BAD_LIMIT,
            Error::NoMemory => NO_MEMORY,
            Error::Fault(_) => patterns::FAULT,
            Error::TooManyTrials(_) => patterns::TOO_MANY_TRIALS,
            Error::TooLong => patterns::TOO_LONG,
            Error::PastEnd => patterns::PAST_END,
            Error::HistoryTooLong => patterns::HISTORY_TOO_LONG,
            Error::Unexpected(status) => *status,
        }
    }
}

impl fmt::Display for Error {
    fn fmt(&self, formatter: &mut fmt::Formatter<'_>) -> fmt::Result {
        match self {
            Error::NoDocument(line) if line.is_empty() => formatter.write_str("not a document"),
            Error::NoDocument(line) => formatter.write_str(line),
            Error::BadLimit(trials) => write!(
                formatter,
                "the limit of trials isn't from 1 to 1000000000: {trials}"
            ),
            Error::NoMemory => formatter.write_str("out of memory"),
            Error::Fault(lines) => formatter.write_str(lines.trim_end()),
            Error::TooManyTrials(trials) => write!(formatter, "more than {trials} trials"),
            Error::TooLong => formatter.write_str("a text of more than 16777216 bytes"),
            Error::PastEnd => formatter.write_str("a cursor past the end of the text"),
            Error::HistoryTooLong => formatter.write_str("a history of more than 4194304 entries"),
            Error::Unexpected(status) => write!(formatter, "unexpected status {status}"),
        }
    }
}

impl std::error::Error for Error {}

/// One call of the library: its status, and how many bytes it reports.
fn call(document: &[u8], options: &Options, buffer: &mut [u8]) -> (u8, usize) {
    let mut length = 0;
    // SAFETY: each pointer comes from a reference. So it isn't null, it is valid for the length after
    // it, and nobody else writes to its bytes during the call. The library keeps no pointer.
    let status = unsafe {
        sno_rewrite_list(
            document.as_ptr(),
            document.len(),
            options.anchor,
            options.json,
            options.trials,
            buffer.as_mut_ptr(),
            buffer.len(),
            &mut length,
        )
    };
    (status, length)
}

/// A buffer of zeros, or a fault if there is no memory for it.
fn zeros(length: usize) -> Result<Vec<u8>, Error> {
    let mut buffer = Vec::new();
    buffer
        .try_reserve_exact(length)
        .map_err(|_| Error::NoMemory)?;
    buffer.resize(length, 0);
    Ok(buffer)
}

/// Performs the statements of a document in order and returns the listing. A listing of more than 64 KiB takes a second
/// run, since only the first one shows how long it is.
pub fn rewrite(document: &[u8], options: &Options) -> Result<Listing, Error> {
    rewrite_with_room(document, options, FIRST_ROOM)
}

/// As [`rewrite`], with `room` bytes for the listing at first: a second run is only needed if the listing is longer.
pub fn rewrite_with_room(
    document: &[u8],
    options: &Options,
    room: usize,
) -> Result<Listing, Error> {
    let mut buffer = zeros(room)?;
    let (mut status, mut length) = call(document, options, &mut buffer);
    if status == TOO_SHORT {
        buffer = zeros(length)?;
        (status, length) = call(document, options, &mut buffer);
    }
    if status != TOO_SHORT {
        buffer.truncate(length);
    }
    match status {
        ALL_ACCEPTED | SOME_REFUSED => Ok(Listing {
            bytes: buffer,
            some_refused: status == SOME_REFUSED,
        }),
        NO_DOCUMENT => Err(Error::NoDocument(
            String::from_utf8_lossy(&buffer).into_owned(),
        )),
        BAD_LIMIT => Err(Error::BadLimit(options.trials)),
        NO_MEMORY => Err(Error::NoMemory),
        _ => Err(Error::Unexpected(status)),
    }
}

#[cfg(test)]
mod book_tests;
#[cfg(test)]
mod pattern_tests;
#[cfg(test)]
mod tests;
