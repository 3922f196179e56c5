//! Books: texts with a journal, which take lines of JSON.

use crate::patterns::{error, Handle, DONE, FAULT, TOO_SHORT};
use crate::{zeros, Error, Options};

/// The line of a fault has at most this many bytes.
const LINE_ROOM: usize = 128;

/// A reply or a listing of up to this length takes one call of the library.
const FIRST_ROOM: usize = 4096;

// build.rs links the library.
extern "C" {
    fn sno_handle_open_book(
        document: *const u8,
        document_length: usize,
        anchor: bool,
        trials: u32,
        line: *mut u8,
        line_room: usize,
        line_length: *mut usize,
        book: *mut Handle,
    ) -> u8;
    fn sno_handle_line(
        book: *mut Handle,
        line: *const u8,
        line_length: usize,
        reply: *mut u8,
        room: usize,
        reply_length: *mut usize,
    ) -> u8;
    fn sno_handle_reply(
        book: *mut Handle,
        reply: *mut u8,
        room: usize,
        reply_length: *mut usize,
    ) -> u8;
    fn sno_handle_listing(
        book: *mut Handle,
        listing: *mut u8,
        room: usize,
        listing_length: *mut usize,
    ) -> u8;
}

// SAFETY of the calls below: as in `patterns`, each pointer comes from a reference.

/// A call that fills a buffer.
type Call = unsafe extern "C" fn(*mut Handle, *mut u8, usize, *mut usize) -> u8;

/// Texts with a journal. A book takes the lines of JSON that `sno serve` takes, and returns the replies that it writes.
///
/// ```
/// use sno_rewrite::{Book, Options};
///
/// fn main() -> Result<(), sno_rewrite::Error> {
///     let document = br#"{"texts":[{"name":"T","text":"the cat"}]}"#;
///     let mut book = Book::new(document, &Options::default())?;
///     book.line(br#"{"text":"T","pattern":"'cat'","object":"'dog'"}"#)?;
///     let reply = book.line(br#"{"read":"T"}"#)?;
///     assert_eq!(reply, b"{\"name\":\"T\",\"text\":\"the dog\",\"version\":1}\n");
///     Ok(())
/// }
/// ```
pub struct Book {
    handle: Handle,
}

impl Book {
    /// Reads a document, and performs its statements on its texts. What the options say of anchors and trials holds for the
    /// statements of lines too; `json` means nothing. Refused: [`Error::NoDocument`], [`Error::BadLimit`] and
    /// [`Error::NoMemory`].
    pub fn new(document: &[u8], options: &Options) -> Result<Book, Error> {
        let mut handle = Handle::closed();
        let mut line = [0; LINE_ROOM];
        let mut length = 0;
        let status = unsafe {
            sno_handle_open_book(
                document.as_ptr(),
                document.len(),
                options.anchor,
                options.trials,
                line.as_mut_ptr(),
                line.len(),
                &mut length,
                &mut handle,
            )
        };
        match status {
            DONE => Ok(Book { handle }),
            FAULT => Err(Error::NoDocument(
                String::from_utf8_lossy(&line[..length]).into_owned(),
            )),
            status => Err(error(status, options.trials)),
        }
    }

    /// Does what a line asks for, once, and returns the reply, which ends in a line feed. A statement that is accepted is one
    /// entry of the journal; one that is refused, and each other line, changes nothing.
    ///
    /// Refused: [`Error::NoMemory`]. If the line's statement was accepted before memory ran out, the journal has its entry.
    pub fn line(&mut self, line: &[u8]) -> Result<Vec<u8>, Error> {
        let mut buffer = zeros(FIRST_ROOM)?;
        let mut length = 0;
        let status = unsafe {
            sno_handle_line(
                &mut self.handle,
                line.as_ptr(),
                line.len(),
                buffer.as_mut_ptr(),
                buffer.len(),
                &mut length,
            )
        };
        match status {
            DONE => {
                buffer.truncate(length);
                Ok(buffer)
            }
            TOO_SHORT => self.filled(sno_handle_reply, length),
            status => Err(error(status, 0)),
        }
    }

    /// The listing as JSON: the texts, the journal, and the statements that were refused. It ends in a line feed. Refused:
    /// [`Error::NoMemory`].
    pub fn listing(&mut self) -> Result<Vec<u8>, Error> {
        self.filled(sno_handle_listing, FIRST_ROOM)
    }

    /// What a call puts in a buffer of this length, or in a longer one if that is too short.
    fn filled(&mut self, call: Call, length: usize) -> Result<Vec<u8>, Error> {
        let mut length = length;
        loop {
            let mut buffer = zeros(length)?;
            let status = unsafe {
                call(
                    &mut self.handle,
                    buffer.as_mut_ptr(),
                    buffer.len(),
                    &mut length,
                )
            };
            match status {
                DONE => {
                    buffer.truncate(length);
                    return Ok(buffer);
                }
                TOO_SHORT => {}
                status => return Err(error(status, 0)),
            }
        }
    }
}
