//! The calls of the library, as `include/serde_qs.h` declares them.

use crate::{Error, ErrorKind, Settings};

/// The version of the library that this crate is written for, as `QS_VERSION` has it. A later one of the same major version is right too.
const WANTED: u32 = 1 << 24 | 1 << 16 | 3 << 8 | 1;

const OK: u32 = 0;
const TOO_SMALL: u32 = 1;
const ABSENT: u32 = 12;

/// What a call returns in addition to its status.
#[repr(C)]
#[derive(Default)]
struct Answer {
    len: usize,
    position: usize,
}

extern "C" {
    fn qs_get(
        settings: *const Settings,
        path: *const u8,
        path_size: usize,
        input: *const u8,
        input_size: usize,
        out: *mut u8,
        out_size: usize,
        answer: *mut Answer,
    ) -> u32;
    fn qs_parse(settings: *const Settings, input: *const u8, input_size: usize, out: *mut u8, out_size: usize, answer: *mut Answer) -> u32;
    fn qs_read(
        settings: *const Settings,
        shape: *const u8,
        shape_size: usize,
        input: *const u8,
        input_size: usize,
        out: *mut u8,
        out_size: usize,
        answer: *mut Answer,
    ) -> u32;
    fn qs_explain(
        settings: *const Settings,
        shape: *const u8,
        shape_size: usize,
        input: *const u8,
        input_size: usize,
        out: *mut u8,
        out_size: usize,
        answer: *mut Answer,
    ) -> u32;
    fn qs_explain_fields(
        settings: *const Settings,
        shape: *const u8,
        shape_size: usize,
        input: *const u8,
        input_size: usize,
        out: *mut u8,
        out_size: usize,
        answer: *mut Answer,
    ) -> u32;
    fn qs_write(settings: *const Settings, json: *const u8, json_size: usize, out: *mut u8, out_size: usize, answer: *mut Answer) -> u32;
    fn qs_encode(form: bool, bytes: *const u8, bytes_size: usize, out: *mut u8, out_size: usize, answer: *mut Answer) -> u32;
    fn qs_decode(bytes: *const u8, bytes_size: usize, out: *mut u8, out_size: usize, answer: *mut Answer) -> u32;
    fn qs_version() -> u32;
}

fn test_version() -> Result<(), Error> {
    // SAFETY: the call has no arguments.
    let version = unsafe { qs_version() };
    if version >> 24 == WANTED >> 24 && version >= WANTED && version & 255 >= WANTED & 255 {
        return Ok(());
    }
    Err(Error {
        kind: ErrorKind::WrongVersion,
        position: 0,
        path: String::new(),
        message: format!("the library serde_qs has the version {version:#010x}, and {WANTED:#010x} or later is needed"),
    })
}

pub(crate) fn get(settings: &Settings, path: &[u8], input: &[u8]) -> Result<Option<Vec<u8>>, Error> {
    let mut is_absent = false;
    // SAFETY: each pointer comes from a borrow that lasts for the call.
    let found = result(input.len(), |out, answer| unsafe {
        let status = qs_get(settings, path.as_ptr(), path.len(), input.as_ptr(), input.len(), out.as_mut_ptr(), out.len(), answer);
        is_absent = status == ABSENT;
        status
    });
    if is_absent {
        return Ok(None);
    }
    found.map(Some)
}

pub(crate) fn parse(settings: &Settings, input: &[u8]) -> Result<String, Error> {
    // SAFETY: each pointer comes from a borrow that lasts for the call.
    text(input.len(), |out, answer| unsafe { qs_parse(settings, input.as_ptr(), input.len(), out.as_mut_ptr(), out.len(), answer) })
}

pub(crate) fn read(settings: &Settings, shape: &str, input: &[u8]) -> Result<String, Error> {
    // SAFETY: each pointer comes from a borrow that lasts for the call.
    text(input.len(), |out, answer| unsafe {
        qs_read(settings, shape.as_ptr(), shape.len(), input.as_ptr(), input.len(), out.as_mut_ptr(), out.len(), answer)
    })
}

pub(crate) fn explain(settings: &Settings, shape: &str, input: &[u8]) -> Result<Option<(String, String)>, Error> {
    let mut path_len = 0;
    // SAFETY: each pointer comes from a borrow that lasts for the call.
    let line = text(input.len(), |out, answer| unsafe {
        let status = qs_explain(settings, shape.as_ptr(), shape.len(), input.as_ptr(), input.len(), out.as_mut_ptr(), out.len(), answer);
        path_len = answer.position;
        status
    })?;
    Ok((!line.is_empty()).then(|| (line[..path_len].to_owned(), line)))
}

pub(crate) fn explain_fields(settings: &Settings, shape: &str, input: &[u8]) -> Result<Vec<(String, String)>, Error> {
    // SAFETY: each pointer comes from a borrow that lasts for the call.
    let lines = text(input.len(), |out, answer| unsafe {
        qs_explain_fields(settings, shape.as_ptr(), shape.len(), input.as_ptr(), input.len(), out.as_mut_ptr(), out.len(), answer)
    })?;
    Ok(lines.split_terminator('\n').map(path_and_reason).collect())
}

// A path has no blank, and the first word of a reason no colon at its end.
fn path_and_reason(line: &str) -> (String, String) {
    match line.split_once(' ') {
        Some((word, reason)) if word.ends_with(':') => (word[..word.len() - 1].to_owned(), reason.to_owned()),
        _ => (String::new(), line.to_owned()),
    }
}

pub(crate) fn write(settings: &Settings, json: &str) -> Result<String, Error> {
    // SAFETY: each pointer comes from a borrow that lasts for the call.
    text(json.len(), |out, answer| unsafe { qs_write(settings, json.as_ptr(), json.len(), out.as_mut_ptr(), out.len(), answer) })
}

pub(crate) fn encode(form: bool, bytes: &[u8]) -> Result<String, Error> {
    // SAFETY: each pointer comes from a borrow that lasts for the call.
    text(bytes.len(), |out, answer| unsafe { qs_encode(form, bytes.as_ptr(), bytes.len(), out.as_mut_ptr(), out.len(), answer) })
}

pub(crate) fn decode(bytes: &[u8]) -> Result<Vec<u8>, Error> {
    // SAFETY: each pointer comes from a borrow that lasts for the call.
    result(bytes.len(), |out, answer| unsafe { qs_decode(bytes.as_ptr(), bytes.len(), out.as_mut_ptr(), out.len(), answer) })
}

/// The result of a call whose input has `given` bytes. If the buffer is too small, the call is made again with a larger one.
fn result(given: usize, mut call: impl FnMut(&mut [u8], &mut Answer) -> u32) -> Result<Vec<u8>, Error> {
    test_version()?;
    let mut out = vec![0; 256 + 2 * given];
    let mut answer = Answer::default();
    let mut status = call(&mut out, &mut answer);
    if status == TOO_SMALL || answer.len > out.len() {
        out.resize(answer.len, 0);
        status = call(&mut out, &mut answer);
    }
    out.truncate(answer.len);
    if status == OK {
        return Ok(out);
    }
    Err(Error {
        kind: ErrorKind::of_status(status),
        position: answer.position,
        path: String::new(),
        message: String::from_utf8_lossy(&out).into_owned(),
    })
}

/// The result of a call that returns UTF-8.
fn text(given: usize, call: impl FnMut(&mut [u8], &mut Answer) -> u32) -> Result<String, Error> {
    Ok(String::from_utf8(result(given, call)?).expect("the library returns UTF-8"))
}
