//! How a querystring is read and written.

use crate::{calls, Error, ErrorKind};

/// How the index of a list's element is written.
#[repr(u8)]
#[derive(Clone, Copy, Debug, Default, PartialEq, Eq)]
pub enum ArrayFormat {
    /// By its number: `a[0]=x&a[1]=y`.
    #[default]
    Indexed = 0,
    /// By empty brackets: `a[]=x&a[]=y`.
    EmptyIndexed = 1,
    /// Not at all: `a=x&a=y`.
    Unindexed = 2,
}

/// How a querystring is read and written. The default reads five levels of brackets in query mode, and takes the last of several values.
///
/// Each method does the same as the function of its name, and has more errors: [`ErrorKind::BadSettings`](crate::ErrorKind::BadSettings)
/// if `max_depth` is more than 100, and, if a limit is set, [`ErrorKind::TooLarge`](crate::ErrorKind::TooLarge) and
/// [`ErrorKind::TooLong`](crate::ErrorKind::TooLong).
///
/// ```
/// use serde_qs_proved::Settings;
///
/// let form = Settings { form: true, ..Settings::default() };
/// assert_eq!(form.parse("a%5Bb%5D=1")?, r#"{"a":{"b":"1"}}"#);
/// # Ok::<(), serde_qs_proved::Error>(())
/// ```
#[repr(C)]
#[derive(Clone, Copy, Debug, PartialEq, Eq)]
pub struct Settings {
    /// How many levels of brackets may follow the first key, 100 at most.
    pub max_depth: usize,
    /// `true` for form mode, where brackets may be encoded; `false` for query mode.
    pub form: bool,
    /// How the index of a list's element is written.
    pub array_format: ArrayFormat,
    /// Whether several values are an error if one is wanted; otherwise the last is taken.
    pub reject_duplicates: bool,
    /// The most bytes of a querystring that is read; 0 for no limit.
    pub max_length: usize,
    /// The most pairs (the pieces between `&`s) of a querystring that is read; 0 for no limit.
    pub max_pairs: usize,
    /// The most bytes of the JSON that is returned; 0 for no limit.
    pub max_output: usize,
    /// Must be 0. A later version may give other numbers a meaning.
    pub reserved: usize,
}

impl Default for Settings {
    fn default() -> Settings {
        Settings::QUERY
    }
}

impl Settings {
    const QUERY: Settings = Settings {
        max_depth: 5,
        form: false,
        array_format: ArrayFormat::Indexed,
        reject_duplicates: false,
        max_length: 0,
        max_pairs: 0,
        max_output: 0,
        reserved: 0,
    };

    /// For the forms and queries of strangers: form mode, where browsers may encode brackets; at most 1 MiB and 4,096 pairs.
    ///
    /// ```
    /// assert_eq!(serde_qs_proved::Settings::WEB.parse("a%5Bb%5D=1")?, r#"{"a":{"b":"1"}}"#);
    /// # Ok::<(), serde_qs_proved::Error>(())
    /// ```
    pub const WEB: Settings = Settings { form: true, max_length: 1 << 20, max_pairs: 4096, ..Settings::QUERY };

    /// Gets the decoded value at a path of the querystring, as [`get`](crate::get) does.
    pub fn get(&self, path: impl AsRef<[u8]>, query: impl AsRef<[u8]>) -> Result<Option<Vec<u8>>, Error> {
        calls::get(self, path.as_ref(), query.as_ref())
    }

    /// Reads the querystring into JSON, whatever it holds, as [`parse`](crate::parse) does.
    pub fn parse(&self, query: impl AsRef<[u8]>) -> Result<String, Error> {
        calls::parse(self, query.as_ref())
    }

    /// Reads the querystring into JSON by a shape, as [`read`](crate::read) does.
    pub fn read(&self, shape: &str, query: impl AsRef<[u8]>) -> Result<String, Error> {
        let query = query.as_ref();
        calls::read(self, shape, query).map_err(|error| self.with_path(shape, query, error))
    }

    fn with_path(&self, shape: &str, query: &[u8], mut error: Error) -> Error {
        if let ErrorKind::Mismatch | ErrorKind::NotUtf8 = error.kind {
            if let Ok(Some((path, _))) = calls::explain(self, shape, query) {
                error.path = path;
            }
        }
        error
    }

    /// Explains in one line why a shape doesn't read the querystring, as [`explain`](crate::explain) does.
    pub fn explain(&self, shape: &str, query: impl AsRef<[u8]>) -> Result<Option<(String, String)>, Error> {
        calls::explain(self, shape, query.as_ref())
    }

    /// Explains each field of a struct that a shape doesn't read, as [`explain_fields`](crate::explain_fields) does.
    pub fn explain_fields(&self, shape: &str, query: impl AsRef<[u8]>) -> Result<Vec<(String, String)>, Error> {
        calls::explain_fields(self, shape, query.as_ref())
    }

    /// Writes the JSON as a querystring, as [`write`](crate::write) does.
    pub fn write(&self, json: &str) -> Result<String, Error> {
        calls::write(self, json)
    }

    /// Encodes the bytes for form mode or query mode, as [`encode`](crate::encode) does for query mode.
    pub fn encode(&self, bytes: impl AsRef<[u8]>) -> Result<String, Error> {
        calls::encode(self.form, bytes.as_ref())
    }
}
