//! Why a call failed.

use std::fmt;

/// The kinds of errors, numbered as their statuses in the header.
#[repr(u32)]
#[derive(Clone, Copy, Debug, PartialEq, Eq, Hash)]
#[non_exhaustive]
pub enum ErrorKind {
    /// An allocation failed.
    OutOfMemory = 2,
    /// A number in the settings is too large.
    BadSettings = 3,
    /// The querystring is rejected, at the error's position.
    Parse = 4,
    /// The querystring doesn't fit the shape or the type, the part at the path isn't a value, or two keys have one text.
    Mismatch = 5,
    /// A string that is read isn't UTF-8.
    NotUtf8 = 6,
    /// The shape is rejected, at the error's position.
    BadShape = 7,
    /// The JSON is rejected, at the error's position, or a value can't be written as JSON.
    BadJson = 8,
    /// A value nests deeper than the settings allow.
    TooDeep = 9,
    /// The querystring exceeds `max_length` or `max_pairs`.
    TooLarge = 10,
    /// The JSON exceeds `max_output`.
    TooLong = 11,
    /// The path isn't a key.
    BadPath = 13,
    /// The library is of another version than this crate is written for.
    WrongVersion = u32::MAX - 1,
    /// The library returned a status that this version of the crate doesn't know.
    Unknown = u32::MAX,
}

impl ErrorKind {
    pub(crate) fn of_status(status: u32) -> ErrorKind {
        match status {
            2 => ErrorKind::OutOfMemory,
            3 => ErrorKind::BadSettings,
            4 => ErrorKind::Parse,
            5 => ErrorKind::Mismatch,
            6 => ErrorKind::NotUtf8,
            7 => ErrorKind::BadShape,
            8 => ErrorKind::BadJson,
            9 => ErrorKind::TooDeep,
            10 => ErrorKind::TooLarge,
            11 => ErrorKind::TooLong,
            13 => ErrorKind::BadPath,
            _ => ErrorKind::Unknown,
        }
    }
}

/// Why a call failed. Its `Display` is a text for a user.
///
/// ```
/// let error = serde_qs_proved::parse("user=John&user[ids][0]=1").unwrap_err();
/// assert_eq!(error.kind(), serde_qs_proved::ErrorKind::Parse);
/// assert_eq!(error.position(), 16);
/// ```
#[derive(Clone, Debug, PartialEq, Eq)]
pub struct Error {
    pub(crate) kind: ErrorKind,
    pub(crate) position: usize,
    pub(crate) path: String,
    pub(crate) message: String,
}

impl Error {
    /// Returns the kind of the error.
    pub fn kind(&self) -> ErrorKind {
        self.kind
    }

    /// Returns the error's position in the querystring, the shape or the JSON, in bytes. It is 0 if its kind has no position.
    pub fn position(&self) -> usize {
        self.position
    }

    /// Returns the path to the part of the querystring that a shape doesn't read. It is empty if there is no such part.
    ///
    /// ```
    /// let error = serde_qs_proved::read("{user: {age: u8}}", "user[age]=300").unwrap_err();
    /// assert_eq!(error.path(), "user[age]");
    /// ```
    pub fn path(&self) -> &str {
        &self.path
    }
}

impl fmt::Display for Error {
    fn fmt(&self, f: &mut fmt::Formatter<'_>) -> fmt::Result {
        f.write_str(if self.message.is_empty() { "out of memory" } else { &self.message })
    }
}

impl std::error::Error for Error {}
