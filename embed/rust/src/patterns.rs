//! Patterns that are read once and sought in any number of texts.

use crate::{Error, USUAL_TRIALS};

pub(crate) const DONE: u8 = 0;
const NOTHING: u8 = 1;
pub(crate) const FAULT: u8 = 2;
const BAD_LIMIT: u8 = 3;
const NO_MEMORY: u8 = 4;
pub(crate) const TOO_SHORT: u8 = 5;
pub(crate) const TOO_MANY_TRIALS: u8 = 8;
pub(crate) const HISTORY_TOO_LONG: u8 = 11;
const NOTHING_GATHERED: u8 = 12;
pub(crate) const TOO_LONG: u8 = 9;
pub(crate) const PAST_END: u8 = 10;

/// The name of a variable has at most this many bytes.
const LONGEST_NAME: usize = 64;

/// The lines of a fault have at most this many bytes.
const LINE_ROOM: usize = 1024;

/// A new text of up to this length takes one call of the library.
const FIRST_ROOM: usize = 4096;

/// As many searches of a pass are done at once: what one learns of the text serves the next.
const SEARCHES_AT_ONCE: usize = 32;

#[repr(C)]
pub(crate) struct Handle {
    memory: *mut u8,
    is_open: bool,
}

#[repr(C)]
#[derive(Default)]
struct FoundMatch {
    start: usize,
    end: usize,
    next: usize,
    assignments: usize,
}

#[repr(C)]
#[derive(Default)]
struct FoundAssignment {
    name_length: usize,
    start: usize,
    end: usize,
    is_cursor: bool,
}

#[repr(C)]
#[derive(Default)]
struct NewText {
    length: usize,
    matches: u64,
}

// build.rs links the library.
extern "C" {
    fn sno_handle_open_pattern(
        definitions: *const u8,
        definitions_length: usize,
        rule: *const u8,
        rule_length: usize,
        line: *mut u8,
        line_room: usize,
        line_length: *mut usize,
        pattern: *mut Handle,
    ) -> u8;
    fn sno_handle_open_text(bytes: *const u8, length: usize, text: *mut Handle) -> u8;
    fn sno_handle_next(
        pattern: *mut Handle,
        text: *mut Handle,
        from: usize,
        trials: u32,
        found: *mut FoundMatch,
    ) -> u8;
    fn sno_handle_gather(
        pattern: *mut Handle,
        text: *mut Handle,
        from: usize,
        trials: u32,
        most: usize,
    ) -> u8;
    fn sno_handle_take(pattern: *mut Handle, found: *mut FoundMatch) -> u8;
    fn sno_handle_assignment(
        pattern: *mut Handle,
        place: usize,
        name: *mut u8,
        name_room: usize,
        found: *mut FoundAssignment,
    ) -> u8;
    fn sno_handle_replace(
        pattern: *mut Handle,
        text: *mut Handle,
        trials: u32,
        buffer: *mut u8,
        room: usize,
        done: *mut NewText,
    ) -> u8;
    fn sno_handle_close(handle: *mut Handle);
}

// SAFETY of the calls below: each pointer comes from a reference. So it isn't null, it is valid for the length after it, no
// two of one call overlap, and nobody else uses them during the call. The library keeps no pointer but in the handle.

impl Handle {
    pub(crate) fn closed() -> Handle {
        Handle {
            memory: std::ptr::null_mut(),
            is_open: false,
        }
    }
}

impl Drop for Handle {
    fn drop(&mut self) {
        unsafe { sno_handle_close(self) }
    }
}

// SAFETY: what a handle holds is proved to cross threads, and it is used through `&mut` alone.
unsafe impl Send for Handle {}

/// The error of a status that isn't a result.
pub(crate) fn error(status: u8, trials: u32) -> Error {
    match status {
        BAD_LIMIT => Error::BadLimit(trials),
        NO_MEMORY => Error::NoMemory,
        TOO_MANY_TRIALS => Error::TooManyTrials(trials),
        TOO_LONG => Error::TooLong,
        PAST_END => Error::PastEnd,
        HISTORY_TOO_LONG => Error::HistoryTooLong,
        _ => Error::Unexpected(status),
    }
}

/// A text that is kept for searches: a copy of at most 16,777,216 bytes.
pub struct Text {
    handle: Handle,
}

impl Text {
    /// A copy of the bytes. Refused: [`Error::TooLong`] and [`Error::NoMemory`].
    pub fn new(bytes: &[u8]) -> Result<Text, Error> {
        let mut handle = Handle::closed();
        match unsafe { sno_handle_open_text(bytes.as_ptr(), bytes.len(), &mut handle) } {
            DONE => Ok(Text { handle }),
            status => Err(error(status, 0)),
        }
    }
}

/// What a variable was assigned.
#[derive(Clone, Copy, Debug, PartialEq, Eq)]
pub enum Value {
    /// The bytes of the text between two cursors.
    Span(usize, usize),
    /// A cursor.
    Cursor(usize),
}

/// An assignment of a variable.
#[derive(Clone, Debug, PartialEq, Eq)]
pub struct Assignment {
    /// The name of the variable.
    pub name: String,
    /// What it was assigned.
    pub value: Value,
}

/// A match, and the assignments of its search.
#[derive(Clone, Debug, PartialEq, Eq)]
pub struct Match {
    /// The cursor from which it began: how many bytes come before it.
    pub start: usize,
    /// The cursor at which it ended.
    pub end: usize,
    /// First those by `$` and `@`, which are done at once, and after them those by `.`, in the order in which their parts
    /// ended.
    pub assignments: Vec<Assignment>,
    /// Where to go on for the next match; one past the end of the text if there can be none.
    pub next: usize,
}

impl Match {
    /// The value of a variable: that of its last assignment.
    pub fn value(&self, name: &str) -> Option<Value> {
        let assignment = self.assignments.iter().rev().find(|one| one.name == name)?;
        Some(assignment.value)
    }
}

/// A new text.
#[derive(Clone, Debug, PartialEq, Eq)]
pub struct Replaced {
    /// Its bytes.
    pub bytes: Vec<u8>,
    /// How many matches there were; of a repeated rule, in how many rounds there was one.
    pub matches: u64,
}

/// A pattern that was read from a rule.
///
/// ```
/// use sno_rewrite::{Pattern, Text, Value};
///
/// fn main() -> Result<(), sno_rewrite::Error> {
///     let mut pattern = Pattern::new("SPAN('0123456789') . N = '<' N '>'")?;
///     let mut text = Text::new(b"a12b345")?;
///     for found in pattern.matches(&mut text) {
///         let found = found?;
///         assert_eq!(found.value("N"), Some(Value::Span(found.start, found.end)));
///     }
///     let replaced = pattern.replace(&mut text)?.expect("a match");
///     assert_eq!(replaced.bytes, b"a<12>b<345>");
///     Ok(())
/// }
/// ```
pub struct Pattern {
    handle: Handle,
    trials: u32,
}

impl Pattern {
    /// Reads a rule, `PATTERN` or `PATTERN = OBJECT` and perhaps fields, as `sno edit -e` does. Refused: [`Error::Fault`] and
    /// [`Error::NoMemory`].
    pub fn new(rule: &str) -> Result<Pattern, Error> {
        Pattern::with_definitions(rule, "")
    }

    /// The same, with definitions that the rule may refer to, each on a line of its own.
    pub fn with_definitions(rule: &str, definitions: &str) -> Result<Pattern, Error> {
        let mut handle = Handle::closed();
        let mut line = [0; LINE_ROOM];
        let mut length = 0;
        let status = unsafe {
            sno_handle_open_pattern(
                definitions.as_ptr(),
                definitions.len(),
                rule.as_ptr(),
                rule.len(),
                line.as_mut_ptr(),
                line.len(),
                &mut length,
                &mut handle,
            )
        };
        match status {
            DONE => Ok(Pattern {
                handle,
                trials: USUAL_TRIALS,
            }),
            FAULT => Err(Error::Fault(
                String::from_utf8_lossy(&line[..length]).into_owned(),
            )),
            status => Err(error(status, 0)),
        }
    }

    /// The same pattern, each of whose searches may take this many trials, from 1 to 1,000,000,000.
    pub fn limited(mut self, trials: u32) -> Pattern {
        self.trials = trials;
        self
    }

    fn assignments(&mut self, count: usize) -> Result<Vec<Assignment>, Error> {
        let mut all = Vec::new();
        for place in 0..count {
            let mut name = [0; LONGEST_NAME];
            let mut found = FoundAssignment::default();
            let status = unsafe {
                sno_handle_assignment(
                    &mut self.handle,
                    place,
                    name.as_mut_ptr(),
                    name.len(),
                    &mut found,
                )
            };
            if status != DONE {
                return Err(Error::Unexpected(status));
            }
            all.push(Assignment {
                name: String::from_utf8_lossy(&name[..found.name_length]).into_owned(),
                value: if found.is_cursor {
                    Value::Cursor(found.start)
                } else {
                    Value::Span(found.start, found.end)
                },
            });
        }
        Ok(all)
    }

    /// The first match whose start is the cursor `from` or lies past it. Refused: [`Error::BadLimit`], [`Error::PastEnd`],
    /// [`Error::TooManyTrials`], [`Error::HistoryTooLong`] and [`Error::NoMemory`].
    pub fn find_from(&mut self, text: &mut Text, from: usize) -> Result<Option<Match>, Error> {
        let mut found = FoundMatch::default();
        let status = unsafe {
            sno_handle_next(
                &mut self.handle,
                &mut text.handle,
                from,
                self.trials,
                &mut found,
            )
        };
        self.searched(status, found)
    }

    /// What a search found.
    fn searched(&mut self, status: u8, found: FoundMatch) -> Result<Option<Match>, Error> {
        match status {
            DONE => Ok(Some(Match {
                start: found.start,
                end: found.end,
                next: found.next,
                assignments: self.assignments(found.assignments)?,
            })),
            NOTHING => Ok(None),
            status => Err(error(status, self.trials)),
        }
    }

    /// Does many searches at once that follow one another. All of them together may take as many trials as one of them may.
    fn gather(&mut self, text: &mut Text, from: usize) -> bool {
        let status = unsafe {
            sno_handle_gather(
                &mut self.handle,
                &mut text.handle,
                from,
                self.trials,
                SEARCHES_AT_ONCE,
            )
        };
        status == DONE
    }

    /// What the first of the gathered searches found; `None` if none is left.
    fn take(&mut self) -> Option<Result<Option<Match>, Error>> {
        let mut found = FoundMatch::default();
        match unsafe { sno_handle_take(&mut self.handle, &mut found) } {
            NOTHING_GATHERED => None,
            status => Some(self.searched(status, found)),
        }
    }

    /// All matches of one pass, one after the other. A null string at the end of the match before is none of them. Each search
    /// may take as many trials as the pattern; after an error there is no further match.
    pub fn matches<'p>(&'p mut self, text: &'p mut Text) -> Matches<'p> {
        Matches {
            pattern: self,
            text,
            from: 0,
            before: None,
            is_over: false,
            is_gathered: false,
            alone: 1,
            pause: SEARCHES_AT_ONCE,
        }
    }

    fn replace_into(&mut self, text: &mut Text, buffer: &mut [u8]) -> (u8, NewText) {
        let mut done = NewText::default();
        let status = unsafe {
            sno_handle_replace(
                &mut self.handle,
                &mut text.handle,
                self.trials,
                buffer.as_mut_ptr(),
                buffer.len(),
                &mut done,
            )
        };
        (status, done)
    }

    /// What the rule makes of the text; `None` if there was no match or the rule has no object. Refused: [`Error::BadLimit`],
    /// [`Error::TooManyTrials`], [`Error::TooLong`], [`Error::HistoryTooLong`] and [`Error::NoMemory`].
    pub fn replace(&mut self, text: &mut Text) -> Result<Option<Replaced>, Error> {
        let mut bytes = crate::zeros(FIRST_ROOM)?;
        let (mut status, mut done) = self.replace_into(text, &mut bytes);
        if status == TOO_SHORT {
            bytes = crate::zeros(done.length)?;
            (status, done) = self.replace_into(text, &mut bytes);
        }
        match status {
            DONE => {
                bytes.truncate(done.length);
                Ok(Some(Replaced {
                    bytes,
                    matches: done.matches,
                }))
            }
            NOTHING => Ok(None),
            status => Err(error(status, self.trials)),
        }
    }
}

/// The matches of a pass over a text. The first is sought alone, and the further ones many at once: nobody else gathers with
/// the pattern meanwhile, since it is borrowed.
pub struct Matches<'p> {
    pattern: &'p mut Pattern,
    text: &'p mut Text,
    from: usize,
    before: Option<usize>,
    is_over: bool,
    /// Whether searches that were gathered may be left.
    is_gathered: bool,
    /// How many searches are done alone before more are gathered, and how many there will be if that is refused.
    alone: usize,
    pause: usize,
}

impl Matches<'_> {
    /// What the next search finds. Gathered searches have one limit of trials together, and each may take all. So if they
    /// are refused, searches are done alone, which find out whether one of them is.
    fn search(&mut self) -> Result<Option<Match>, Error> {
        loop {
            if self.is_gathered {
                if let Some(found) = self.pattern.take() {
                    return found;
                }
            } else if self.alone > 0 {
                self.alone -= 1;
                return self.pattern.find_from(self.text, self.from);
            }
            self.is_gathered = self.pattern.gather(self.text, self.from);
            if self.is_gathered {
                self.pause = SEARCHES_AT_ONCE;
            } else {
                self.alone = self.pause;
                self.pause *= 2;
            }
        }
    }
}

impl Iterator for Matches<'_> {
    type Item = Result<Match, Error>;

    fn next(&mut self) -> Option<Result<Match, Error>> {
        while !self.is_over {
            match self.search() {
                Ok(Some(found)) => {
                    let is_counted = self.before != Some(found.start) || found.start != found.end;
                    self.from = found.next;
                    self.before = Some(found.end);
                    if is_counted {
                        return Some(Ok(found));
                    }
                }
                Ok(None) | Err(Error::PastEnd) => self.is_over = true,
                Err(error) => {
                    self.is_over = true;
                    return Some(Err(error));
                }
            }
        }
        None
    }
}
