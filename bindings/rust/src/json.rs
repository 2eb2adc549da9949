//! Values of types with serde's derives as JSON. What JSON can't say is an error.

use crate::{Error, ErrorKind};
use serde::ser::{self, Serialize};
use std::fmt::Display;

type Result<T> = std::result::Result<T, Error>;

/// Whether a value is written. A struct without fields isn't, nor is what holds only such.
#[derive(PartialEq)]
pub(crate) enum Written {
    Yes,
    No,
}

impl ser::Error for Error {
    fn custom<T: Display>(message: T) -> Error {
        Error { kind: ErrorKind::BadJson, position: 0, path: String::new(), message: message.to_string() }
    }
}

/// Returns the value as JSON, or the empty text if it isn't written.
pub(crate) fn json_of<T: Serialize + ?Sized>(value: &T) -> Result<String> {
    let mut out = Vec::with_capacity(128);
    value.serialize(Json { out: &mut out, is_key: false })?;
    Ok(String::from_utf8(out).expect("JSON is UTF-8"))
}

/// Appends a text, a number or a boolean.
fn put<T: Serialize + ?Sized>(out: &mut Vec<u8>, value: &T) -> Result<Written> {
    serde_json::to_writer(out, value).map_err(ser::Error::custom)?;
    Ok(Written::Yes)
}

fn finite<T: Into<f64> + Copy>(number: T) -> Result<T> {
    if number.into().is_finite() {
        return Ok(number);
    }
    Err(ser::Error::custom("a number that isn't finite can't be written"))
}

/// Writes one value. A key is a text, a number or a boolean, between quotes.
struct Json<'a> {
    out: &'a mut Vec<u8>,
    is_key: bool,
}

/// Writes the parts of an array or an object, and then `end`. What holds nothing that is written is taken back, but for a list or a map without
/// parts.
struct Parts<'a> {
    out: &'a mut Vec<u8>,
    begin: usize,
    end: &'static str,
    is_empty: bool,
    may_go: bool,
    has_gap: bool,
    /// Where the last part begins, and whether it is the first.
    last: (usize, bool),
}

impl<'a> Json<'a> {
    fn text(self, text: &str) -> Result<Written> {
        put(self.out, text)
    }

    /// Writes a number or a boolean.
    fn word<T: Serialize>(self, value: &T) -> Result<Written> {
        if !self.is_key {
            return put(self.out, value);
        }
        self.out.push(b'"');
        put(self.out, value)?;
        self.out.push(b'"');
        Ok(Written::Yes)
    }

    /// Returns itself if it isn't a key.
    fn value(self) -> Result<Self> {
        if self.is_key {
            return Err(ser::Error::custom("a map's key has to be a text, a number or a boolean"));
        }
        Ok(self)
    }

    fn parts(self, start: &str, end: &'static str) -> Result<Parts<'a>> {
        let out = self.value()?.out;
        let begin = out.len();
        out.extend_from_slice(start.as_bytes());
        Ok(Parts { out, begin, end, is_empty: true, may_go: false, has_gap: false, last: (0, true) })
    }

    fn fields(self) -> Result<Parts<'a>> {
        Ok(Parts { may_go: true, ..self.parts("{", "}")? })
    }

    /// Writes the parts of a variant, which is an object with one member.
    fn variant(self, name: &str, start: &str, end: &'static str) -> Result<Parts<'a>> {
        let mut parts = self.parts("{", end)?;
        parts.name(name)?;
        parts.out.extend_from_slice(start.as_bytes());
        Ok(Parts { is_empty: true, may_go: true, ..parts })
    }
}

impl Parts<'_> {
    /// Begins a part.
    fn part(&mut self) {
        self.last = (self.out.len(), self.is_empty);
        if !self.is_empty {
            self.out.push(b',');
        }
        self.is_empty = false;
    }

    fn name(&mut self, name: &str) -> Result<()> {
        self.part();
        put(self.out, name)?;
        self.out.push(b':');
        Ok(())
    }

    /// Writes the value of the last part, or takes the part back.
    fn value<T: Serialize + ?Sized>(&mut self, value: &T) -> Result<Written> {
        let written = value.serialize(Json { out: self.out, is_key: false })?;
        if written == Written::No {
            self.out.truncate(self.last.0);
            self.is_empty = self.last.1;
            self.may_go = true;
        }
        Ok(written)
    }

    fn item<T: Serialize + ?Sized>(&mut self, value: &T) -> Result<()> {
        self.part();
        let written = self.value(value)?;
        if written == Written::Yes && self.has_gap {
            return Err(ser::Error::custom("a list can't be written that has a struct without fields before another item"));
        }
        self.has_gap |= written == Written::No;
        Ok(())
    }

    fn member<T: Serialize + ?Sized>(&mut self, name: &str, value: &T) -> Result<()> {
        self.name(name)?;
        self.value(value)?;
        Ok(())
    }

    fn close(self) -> Result<Written> {
        if self.is_empty && self.may_go {
            self.out.truncate(self.begin);
            return Ok(Written::No);
        }
        self.out.extend_from_slice(self.end.as_bytes());
        Ok(Written::Yes)
    }
}

macro_rules! words {
    ($($name:ident: $type:ty),*) => {
        $(fn $name(self, value: $type) -> Result<Written> {
            self.word(&value)
        })*
    };
}

impl<'a> ser::Serializer for Json<'a> {
    type Ok = Written;
    type Error = Error;
    type SerializeSeq = Parts<'a>;
    type SerializeTuple = Parts<'a>;
    type SerializeTupleStruct = Parts<'a>;
    type SerializeTupleVariant = Parts<'a>;
    type SerializeMap = Parts<'a>;
    type SerializeStruct = Parts<'a>;
    type SerializeStructVariant = Parts<'a>;

    words!(serialize_bool: bool, serialize_i8: i8, serialize_i16: i16, serialize_i32: i32, serialize_i64: i64, serialize_i128: i128);
    words!(serialize_u8: u8, serialize_u16: u16, serialize_u32: u32, serialize_u64: u64, serialize_u128: u128);

    fn serialize_f32(self, number: f32) -> Result<Written> {
        self.word(&finite(number)?)
    }

    fn serialize_f64(self, number: f64) -> Result<Written> {
        self.word(&finite(number)?)
    }

    fn serialize_char(self, letter: char) -> Result<Written> {
        self.text(letter.encode_utf8(&mut [0; 4]))
    }

    fn serialize_str(self, text: &str) -> Result<Written> {
        self.text(text)
    }

    fn serialize_bytes(self, bytes: &[u8]) -> Result<Written> {
        self.text(std::str::from_utf8(bytes).map_err(|_| ser::Error::custom("bytes can only be written where they are UTF-8"))?)
    }

    fn serialize_none(self) -> Result<Written> {
        self.value()?.out.extend_from_slice(b"null");
        Ok(Written::Yes)
    }

    fn serialize_some<T: Serialize + ?Sized>(self, value: &T) -> Result<Written> {
        value.serialize(self.value()?)
    }

    // The empty text is written `a=`, as a unit is; `null` is written `a`, as `None` is.
    fn serialize_unit(self) -> Result<Written> {
        self.value()?.text("")
    }

    fn serialize_unit_struct(self, _: &'static str) -> Result<Written> {
        self.serialize_unit()
    }

    fn serialize_unit_variant(self, _: &'static str, _: u32, name: &'static str) -> Result<Written> {
        self.text(name)
    }

    fn serialize_newtype_struct<T: Serialize + ?Sized>(self, _: &'static str, value: &T) -> Result<Written> {
        value.serialize(self)
    }

    fn serialize_newtype_variant<T: Serialize + ?Sized>(self, _: &'static str, _: u32, name: &'static str, value: &T) -> Result<Written> {
        let mut parts = self.parts("{", "}")?;
        parts.member(name, value)?;
        parts.close()
    }

    fn serialize_seq(self, _: Option<usize>) -> Result<Parts<'a>> {
        self.parts("[", "]")
    }

    fn serialize_tuple(self, _: usize) -> Result<Parts<'a>> {
        self.parts("[", "]")
    }

    fn serialize_tuple_struct(self, _: &'static str, _: usize) -> Result<Parts<'a>> {
        self.parts("[", "]")
    }

    fn serialize_tuple_variant(self, _: &'static str, _: u32, name: &'static str, _: usize) -> Result<Parts<'a>> {
        self.variant(name, "[", "]}")
    }

    fn serialize_map(self, _: Option<usize>) -> Result<Parts<'a>> {
        self.parts("{", "}")
    }

    fn serialize_struct(self, _: &'static str, _: usize) -> Result<Parts<'a>> {
        self.fields()
    }

    fn serialize_struct_variant(self, _: &'static str, _: u32, name: &'static str, _: usize) -> Result<Parts<'a>> {
        self.variant(name, "{", "}}")
    }
}

macro_rules! items {
    ($($of:ident $name:ident),*) => {
        $(impl ser::$of for Parts<'_> {
            type Ok = Written;
            type Error = Error;

            fn $name<T: Serialize + ?Sized>(&mut self, value: &T) -> Result<()> {
                self.item(value)
            }

            fn end(self) -> Result<Written> {
                self.close()
            }
        })*
    };
}

macro_rules! members {
    ($($of:ident),*) => {
        $(impl ser::$of for Parts<'_> {
            type Ok = Written;
            type Error = Error;

            fn serialize_field<T: Serialize + ?Sized>(&mut self, name: &'static str, value: &T) -> Result<()> {
                self.member(name, value)
            }

            fn end(self) -> Result<Written> {
                self.close()
            }
        })*
    };
}

items!(SerializeSeq serialize_element, SerializeTuple serialize_element, SerializeTupleStruct serialize_field, SerializeTupleVariant serialize_field);
members!(SerializeStruct, SerializeStructVariant);

impl ser::SerializeMap for Parts<'_> {
    type Ok = Written;
    type Error = Error;

    fn serialize_key<T: Serialize + ?Sized>(&mut self, key: &T) -> Result<()> {
        self.part();
        key.serialize(Json { out: self.out, is_key: true })?;
        Ok(())
    }

    fn serialize_value<T: Serialize + ?Sized>(&mut self, value: &T) -> Result<()> {
        self.out.push(b':');
        self.value(value)?;
        Ok(())
    }

    fn end(self) -> Result<Written> {
        self.close()
    }
}
