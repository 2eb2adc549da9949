#![doc = include_str!("../README.md")]
#![warn(missing_docs)]

// The build script doesn't find the library. The documentation needs none.
#[cfg(all(serde_qs_missing, not(doc)))]
compile_error!(env!("SERDE_QS_MISSING"));

mod calls;
mod error;
#[cfg(feature = "serde")]
mod json;
mod settings;
#[cfg(feature = "serde")]
mod typed;

pub use error::{Error, ErrorKind};
pub use settings::{ArrayFormat, Settings};
#[cfg(feature = "serde")]
pub use typed::{from_str, to_string};

/// Gets the decoded value at a path of the querystring, such as `user[name]`, or `ids[0]` for the first item of a list. Returns `None`
/// if the path leads nowhere.
///
/// The path is a key, escaped as in the querystring. The value may hold any bytes. A key without a value, as in `a`, gives an empty result.
/// Several values, as in `a=1&a=2`, give the last, unless the settings reject them.
///
/// # Errors
///
/// [`ErrorKind::BadPath`] if the path isn't a key; [`ErrorKind::Parse`], with its position, if the querystring can't be parsed;
/// [`ErrorKind::Mismatch`] if the path leads to a map; [`ErrorKind::OutOfMemory`].
///
/// ```
/// assert_eq!(serde_qs_proved::get("user[name]", "user[name]=John+B.")?, Some(b"John B.".to_vec()));
/// assert_eq!(serde_qs_proved::get("user[age]", "user[name]=John+B.")?, None);
/// # Ok::<(), serde_qs_proved::Error>(())
/// ```
pub fn get(path: impl AsRef<[u8]>, query: impl AsRef<[u8]>) -> Result<Option<Vec<u8>>, Error> {
    Settings::default().get(path, query)
}

/// Reads the querystring into JSON, whatever it holds.
///
/// A list is an array, and so is a map whose keys are 0, 1 and so on; any other map is an object. A key alone is `null`, and no pairs at
/// all are `{}`. A value without a key is under the empty name.
///
/// # Errors
///
/// [`ErrorKind::Parse`], with its position, if the querystring can't be parsed; [`ErrorKind::Mismatch`] or [`ErrorKind::NotUtf8`] if a
/// string or a key isn't UTF-8; [`ErrorKind::Mismatch`] if two keys of a map have the same text, as in `1=a&%31=b`;
/// [`ErrorKind::OutOfMemory`].
///
/// ```
/// assert_eq!(serde_qs_proved::parse("a[b]=1")?, r#"{"a":{"b":"1"}}"#);
/// assert_eq!(serde_qs_proved::parse("ids[17]=on&ids[23]=on")?, r#"{"ids":{"17":"on","23":"on"}}"#);
/// assert_eq!(serde_qs_proved::parse("")?, "{}");
/// # Ok::<(), serde_qs_proved::Error>(())
/// ```
pub fn parse(query: impl AsRef<[u8]>) -> Result<String, Error> {
    Settings::default().parse(query)
}

/// Reads the querystring into JSON by a shape, such as `{user: {name: text}}`.
///
/// # Errors
///
/// [`ErrorKind::BadShape`], with its position, if the text isn't a shape; [`ErrorKind::Mismatch`] or [`ErrorKind::NotUtf8`] if the
/// querystring is parsed, but the shape doesn't read it; [`ErrorKind::Parse`] and [`ErrorKind::OutOfMemory`], as of [`parse`].
///
/// ```
/// assert_eq!(serde_qs_proved::read("{age: u8}", "age=24")?, r#"{"age":24}"#);
///
/// let error = serde_qs_proved::read("{age: u8}", "age=x").unwrap_err();
/// assert_eq!(error.kind(), serde_qs_proved::ErrorKind::Mismatch);
/// # Ok::<(), serde_qs_proved::Error>(())
/// ```
pub fn read(shape: &str, query: impl AsRef<[u8]>) -> Result<String, Error> {
    Settings::default().read(shape, query)
}

/// Explains in one line why a shape doesn't read the querystring. Returns the path to the wrong part, and the line, which begins with the
/// path. The path is empty if the querystring can't be parsed or is wrong as a whole. Returns `None` if the shape reads the querystring.
///
/// # Errors
///
/// [`ErrorKind::BadShape`], with its position, if the text isn't a shape; [`ErrorKind::OutOfMemory`].
///
/// ```
/// let (path, line) = serde_qs_proved::explain("{user: {age: u8}}", "user[age]=300")?.unwrap();
/// assert_eq!(path, "user[age]");
/// assert_eq!(line, "user[age]: expected u8, found the text \"300\"");
/// # Ok::<(), serde_qs_proved::Error>(())
/// ```
pub fn explain(shape: &str, query: impl AsRef<[u8]>) -> Result<Option<(String, String)>, Error> {
    Settings::default().explain(shape, query)
}

/// Explains each field of a struct that a shape doesn't read, for a page that shows an error beside each of its fields. Returns the path to
/// the wrong part of each, and the reason.
///
/// The path of the first is empty if the querystring can't be parsed or is wrong as a whole. There are none if the shape reads the
/// querystring.
///
/// # Errors
///
/// The same as those of [`explain`].
///
/// ```
/// let wrong = serde_qs_proved::explain_fields("{name: text, age: u8}", "age=300")?;
/// assert_eq!(wrong[0], ("name".to_owned(), "expected a text, found nothing".to_owned()));
/// assert_eq!(wrong[1], ("age".to_owned(), "expected u8, found the text \"300\"".to_owned()));
/// # Ok::<(), serde_qs_proved::Error>(())
/// ```
pub fn explain_fields(shape: &str, query: impl AsRef<[u8]>) -> Result<Vec<(String, String)>, Error> {
    Settings::default().explain_fields(shape, query)
}

/// Writes the JSON as a querystring.
///
/// # Errors
///
/// [`ErrorKind::BadJson`], with its position, if the text can't be read as JSON; [`ErrorKind::TooDeep`] if it nests deeper than the
/// settings allow; [`ErrorKind::OutOfMemory`].
///
/// ```
/// assert_eq!(serde_qs_proved::write(r#"{"a":[1,2]}"#)?, "a[0]=1&a[1]=2");
/// # Ok::<(), serde_qs_proved::Error>(())
/// ```
pub fn write(json: &str) -> Result<String, Error> {
    Settings::default().write(json)
}

/// Encodes the bytes for query mode.
///
/// # Errors
///
/// [`ErrorKind::OutOfMemory`].
///
/// ```
/// assert_eq!(serde_qs_proved::encode("100% a+b")?, "100%25+a%2Bb");
/// # Ok::<(), serde_qs_proved::Error>(())
/// ```
pub fn encode(bytes: impl AsRef<[u8]>) -> Result<String, Error> {
    Settings::default().encode(bytes)
}

/// Decodes the bytes: `+` is a space, and `%` with two hexadecimal digits is one byte.
///
/// # Errors
///
/// [`ErrorKind::OutOfMemory`].
///
/// ```
/// assert_eq!(serde_qs_proved::decode("a%5Bb%5D=1")?, b"a[b]=1");
/// # Ok::<(), serde_qs_proved::Error>(())
/// ```
pub fn decode(bytes: impl AsRef<[u8]>) -> Result<Vec<u8>, Error> {
    calls::decode(bytes.as_ref())
}
