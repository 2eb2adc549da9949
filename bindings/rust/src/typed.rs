//! Types that derive serde's traits, read and written by way of JSON.

use crate::json::json_of;
use crate::{Error, ErrorKind, Settings};
use serde::de::DeserializeOwned;
use serde::Serialize;

/// Reads the querystring into a value by a shape.
///
/// # Errors
///
/// Those of [`read`](crate::read), and [`ErrorKind::Mismatch`] if the shape's JSON doesn't fit the type.
///
/// ```
/// #[derive(Debug, PartialEq, serde::Deserialize)]
/// struct User {
///     name: String,
///     ids: Vec<u8>,
/// }
///
/// let user: User = serde_qs_proved::from_str("{name: text, ids: [u8]}", "name=John&ids[0]=1")?;
/// assert_eq!(user, User { name: "John".to_owned(), ids: vec![1] });
/// # Ok::<(), serde_qs_proved::Error>(())
/// ```
pub fn from_str<T: DeserializeOwned>(shape: &str, query: &str) -> Result<T, Error> {
    Settings::default().from_str(shape, query)
}

/// Writes the value as a querystring.
///
/// # Errors
///
/// Those of [`write`](crate::write), and [`ErrorKind::BadJson`] for what JSON can't say: bytes that aren't UTF-8, a floating point number
/// that isn't finite, a map's key that isn't a text, a number or a boolean.
///
/// ```
/// #[derive(serde::Serialize)]
/// struct User {
///     name: String,
///     ids: Vec<u8>,
/// }
///
/// let user = User { name: "John".to_owned(), ids: vec![1] };
/// assert_eq!(serde_qs_proved::to_string(&user)?, "name=John&ids[0]=1");
/// # Ok::<(), serde_qs_proved::Error>(())
/// ```
pub fn to_string<T: Serialize + ?Sized>(value: &T) -> Result<String, Error> {
    Settings::default().to_string(value)
}

impl Settings {
    /// Reads the querystring into a value by a shape, as [`from_str`] does.
    pub fn from_str<T: DeserializeOwned>(&self, shape: &str, query: &str) -> Result<T, Error> {
        let json = self.read(shape, query)?;
        serde_json::from_str(&json).map_err(|error| Error {
            kind: ErrorKind::Mismatch,
            position: 0,
            path: String::new(),
            message: error.to_string(),
        })
    }

    /// Writes the value as a querystring, as [`to_string`] does.
    pub fn to_string<T: Serialize + ?Sized>(&self, value: &T) -> Result<String, Error> {
        let json = json_of(value)?;
        if json.is_empty() {
            return Ok(json);
        }
        self.write(&json)
    }
}
