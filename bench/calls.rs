//! The calls of the static library `qs_bench`, as safe Rust.

/// How many keys a tree has, at its root and under its first key.
#[repr(C)]
#[derive(Clone, Copy, Debug, Default, PartialEq, Eq)]
pub struct Keys {
    pub root: usize,
    pub first: usize,
}

// A slice of the library's crosses as a pointer and then a length; an allocator takes no bytes and isn't passed.
#[rustfmt::skip]
unsafe extern "C" {
    fn qs_bench_parse(input: *const u8, input_len: usize, keys: *mut Keys) -> bool;
    fn qs_bench_decode(bytes: *const u8, bytes_len: usize, out: *mut u8, out_len: usize, len: *mut usize) -> bool;
    fn qs_bench_encode(form: bool, bytes: *const u8, bytes_len: usize, out: *mut u8, out_len: usize, len: *mut usize) -> bool;
    fn qs_bench_write_record(times: usize, out: *mut u8, out_len: usize, len: *mut usize) -> bool;
    fn qs_bench_write_fields(times: usize, keys: usize, count: usize, out: *mut u8, out_len: usize, len: *mut usize) -> bool;
    fn qs_bench_write_numbers(times: usize, count: usize, out: *mut u8, out_len: usize, len: *mut usize) -> bool;
    fn qs_bench_read(times: usize, shape: usize, input: *const u8, input_len: usize, size: *mut usize) -> bool;
    fn qs_bench_write_bytes(times: usize, bytes: *const u8, bytes_len: usize, out: *mut u8, out_len: usize, len: *mut usize) -> bool;
    fn qs_bench_person(reads: usize, writes: usize, input: *const u8, input_len: usize, out: *mut u8, out_len: usize, len: *mut usize) -> bool;
    fn qs_bench_record(reads: usize, writes: usize, input: *const u8, input_len: usize, out: *mut u8, out_len: usize, len: *mut usize) -> bool;
    fn qs_bench_ids(reads: usize, writes: usize, input: *const u8, input_len: usize, out: *mut u8, out_len: usize, len: *mut usize) -> bool;
    fn qs_bench_map(reads: usize, writes: usize, input: *const u8, input_len: usize, out: *mut u8, out_len: usize, len: *mut usize) -> bool;
    fn qs_bench_nested(reads: usize, writes: usize, input: *const u8, input_len: usize, out: *mut u8, out_len: usize, len: *mut usize) -> bool;
    fn qs_bench_derived_person(reads: usize, writes: usize, input: *const u8, input_len: usize, out: *mut u8, out_len: usize, len: *mut usize) -> bool;
    fn qs_bench_derived_record(reads: usize, writes: usize, input: *const u8, input_len: usize, out: *mut u8, out_len: usize, len: *mut usize) -> bool;
    fn qs_bench_derived_ids(reads: usize, writes: usize, input: *const u8, input_len: usize, out: *mut u8, out_len: usize, len: *mut usize) -> bool;
    fn qs_bench_derived_map(reads: usize, writes: usize, input: *const u8, input_len: usize, out: *mut u8, out_len: usize, len: *mut usize) -> bool;
    fn qs_bench_derived_nested(reads: usize, writes: usize, input: *const u8, input_len: usize, out: *mut u8, out_len: usize, len: *mut usize) -> bool;
}

/// Parses the input: how many keys its tree has, or nothing where it is rejected.
pub fn parse(input: &[u8]) -> Option<Keys> {
    let mut keys = Keys::default();
    // SAFETY: the pointers and the length are those of borrows that last for the call.
    let is_parsed = unsafe { qs_bench_parse(input.as_ptr(), input.len(), &mut keys) };
    is_parsed.then_some(keys)
}

/// The decoded bytes go to the front of `out` where it fits: its length, or nothing where memory ran out.
pub fn decode(bytes: &[u8], out: &mut [u8]) -> Option<usize> {
    handed_out(out, |text, room, len| {
        // SAFETY: the pointers and the lengths are those of borrows that last for the call.
        unsafe { qs_bench_decode(bytes.as_ptr(), bytes.len(), text, room, len) }
    })
}

/// What form mode (`form`) or query mode writes for the bytes, as above.
pub fn encode(form: bool, bytes: &[u8], out: &mut [u8]) -> Option<usize> {
    handed_out(out, |text, room, len| {
        // SAFETY: the pointers and the lengths are those of borrows that last for the call.
        unsafe { qs_bench_encode(form, bytes.as_ptr(), bytes.len(), text, room, len) }
    })
}

/// Data to be written.
pub enum Sample {
    /// A record of ten entries.
    Record,
    /// A struct of so many fields, below so many keys.
    Fields { keys: usize, count: usize },
    /// A field with the numbers below a count.
    Numbers { count: usize },
    /// A field with bytes.
    Bytes(Vec<u8>),
}

impl Sample {
    /// Makes the data, writes them so many times, once at least, and puts the last text to the front of `out` where it fits: its
    /// length, or nothing where they can't be written.
    pub fn write(&self, times: usize, out: &mut [u8]) -> Option<usize> {
        handed_out(out, |text, room, len| {
            // SAFETY: the pointers and the lengths are those of borrows that last for the call.
            unsafe {
                match self {
                    Sample::Record => qs_bench_write_record(times, text, room, len),
                    Sample::Fields { keys, count } => {
                        qs_bench_write_fields(times, *keys, *count, text, room, len)
                    }
                    Sample::Numbers { count } => {
                        qs_bench_write_numbers(times, *count, text, room, len)
                    }
                    Sample::Bytes(bytes) => {
                        qs_bench_write_bytes(times, bytes.as_ptr(), bytes.len(), text, room, len)
                    }
                }
            }
        })
    }
}

/// What is read.
#[derive(Clone, Copy)]
pub enum Shape {
    /// A map of texts.
    Map = 0,
    /// The record of ten entries.
    Record = 1,
    /// `ids`, a list of numbers.
    Ids = 2,
    /// `a`, a text.
    Text = 3,
    /// `name`, `age` and `occupation`: a text, a number and a text.
    Person = 4,
    /// A text five keys deep.
    Nested = 5,
}

/// Reads the input so many times, once at least: how many bytes the texts have that were read, of `Ids` how many numbers there are,
/// or nothing where it can't be read.
pub fn read(times: usize, shape: Shape, input: &[u8]) -> Option<usize> {
    let mut size = 0;
    // SAFETY: the pointers and the length are those of borrows that last for the call.
    let is_read = unsafe {
        qs_bench_read(
            times,
            shape as usize,
            input.as_ptr(),
            input.len(),
            &mut size,
        )
    };
    is_read.then_some(size)
}

/// A type whose values are read and written.
#[derive(Clone, Copy)]
pub enum Type {
    /// A struct of three fields.
    Person,
    /// The record of ten entries.
    Record,
    /// `ids`, a list of numbers.
    Ids,
    /// A map of texts.
    Map,
    /// A text five keys deep.
    Nested,
}

/// How often a value is read, and how often it is written: each at least once.
#[derive(Clone, Copy)]
pub struct Times {
    pub reads: usize,
    pub writes: usize,
}

/// How a type is read and written.
#[derive(Clone, Copy)]
pub enum Means {
    /// By the trait `Compound`.
    Compound,
    /// By serde's derives.
    Derives,
}

impl Type {
    /// Reads the input so often, writes the last value so often, and puts the last text to the front of `out` where it fits: its length,
    /// or nothing where the input can't be read.
    pub fn read_and_write(
        self,
        means: Means,
        times: Times,
        input: &[u8],
        out: &mut [u8],
    ) -> Option<usize> {
        let call = match (means, self) {
            (Means::Compound, Type::Person) => qs_bench_person,
            (Means::Compound, Type::Record) => qs_bench_record,
            (Means::Compound, Type::Ids) => qs_bench_ids,
            (Means::Compound, Type::Map) => qs_bench_map,
            (Means::Compound, Type::Nested) => qs_bench_nested,
            (Means::Derives, Type::Person) => qs_bench_derived_person,
            (Means::Derives, Type::Record) => qs_bench_derived_record,
            (Means::Derives, Type::Ids) => qs_bench_derived_ids,
            (Means::Derives, Type::Map) => qs_bench_derived_map,
            (Means::Derives, Type::Nested) => qs_bench_derived_nested,
        };
        handed_out(out, |text, room, len| {
            // SAFETY: the pointers and the lengths are those of borrows that last for the call.
            unsafe {
                call(
                    times.reads,
                    times.writes,
                    input.as_ptr(),
                    input.len(),
                    text,
                    room,
                    len,
                )
            }
        })
    }
}

/// Makes a call with the place of `out`, its length and a place for the text's length: that length, where the call went well.
fn handed_out(
    out: &mut [u8],
    call: impl FnOnce(*mut u8, usize, &mut usize) -> bool,
) -> Option<usize> {
    let mut len = 0;
    call(out.as_mut_ptr(), out.len(), &mut len).then_some(len)
}
