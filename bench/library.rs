//! Measures the calls of the library for other languages, through its Rust crate, and prints a table.
//!
//! `library WORD..` takes the cases whose name holds one of the words, and all without a word. `library --quick ..` takes small
//! cases and doesn't measure them. The status is 1 where a result is wrong.

#[allow(dead_code)]
mod inputs;
mod timing;

use inputs::Order;
use serde_qs_proved::{Error, Settings};
use std::hint::black_box;
use std::process::ExitCode;
use timing::{grouped, nanoseconds};

/// A call, without what it is given.
enum Call {
    Parse,
    /// By this shape.
    Read(&'static str),
    Write,
    Encode,
    Decode,
}

impl Call {
    fn make(&self, settings: &Settings, text: &str) -> Result<Vec<u8>, Error> {
        let bytes = text.as_bytes();
        match self {
            Call::Parse => settings.parse(bytes).map(String::into_bytes),
            Call::Read(shape) => settings.read(shape, bytes).map(String::into_bytes),
            Call::Write => settings.write(text).map(String::into_bytes),
            Call::Encode => settings.encode(bytes).map(String::into_bytes),
            Call::Decode => serde_qs_proved::decode(bytes),
        }
    }
}

struct Case {
    name: String,
    call: Call,
    /// What the call is given, and what it has to return.
    text: String,
    wanted: String,
}

fn case(name: impl Into<String>, call: Call, text: impl Into<String>, wanted: impl Into<String>) -> Case {
    Case {
        name: format!("library, {}", name.into()),
        call,
        text: text.into(),
        wanted: wanted.into(),
    }
}

const RECORD: &str = "id=42&name=Acme&phone=12345&address[city]=Carrot+City&address[street]=Special-Street*+No.+11\
    &address[postcode]=12345&user_ids[0]=1&user_ids[1]=2&user_ids[2]=3&user_ids[3]=4";
const RECORD_SHAPE: &str =
    "{id: u32, name: text, phone: u32, address: {city: text, street: text, postcode: text}, user_ids: [u32]}";
const RECORD_JSON: &str = r#"{"id":42,"name":"Acme","phone":12345,"address":{"city":"Carrot City","street":"Special-Street* No. 11","postcode":"12345"},"user_ids":[1,2,3,4]}"#;

/// The pairs as an object of JSON. Nothing in them needs an escape.
fn object(pairs: &str) -> String {
    let members: Vec<String> = pairs
        .split('&')
        .map(|pair| format!("\"{}\"", pair.replace('=', "\":\"")))
        .collect();
    format!("{{{}}}", members.join(","))
}

fn cases(is_quick: bool) -> Vec<Case> {
    let (count, len) = if is_quick { (10, 100) } else { (1000, 1_000_000) };
    let (pairs, words) = (inputs::pairs(count, Order::InOrder, "key", ""), inputs::words(len));
    let (many, long) = (format!("{} pairs", grouped(count)), format!("{} bytes of words", grouped(len)));
    let (user, user_json) = ("user[name]=John", r#"{"user":{"name":"John"}}"#);
    let plus = words.replace(' ', "+");
    vec![
        case("parse user[name]=John", Call::Parse, user, user_json),
        case(format!("parse {many}"), Call::Parse, pairs.as_str(), object(&pairs)),
        case("read user[name]=John", Call::Read("{user: {name: text}}"), user, user_json),
        case("read the record of ten entries", Call::Read(RECORD_SHAPE), RECORD, RECORD_JSON),
        case(format!("read {many} into a map"), Call::Read("map(text, text)"), pairs.as_str(), object(&pairs)),
        case("write user[name]=John", Call::Write, user_json, user),
        case("write the record of ten entries", Call::Write, RECORD_JSON, RECORD),
        case(format!("write {many}"), Call::Write, object(&pairs), pairs.as_str()),
        case(format!("encode {long}"), Call::Encode, words.as_str(), plus.as_str()),
        case(format!("decode {long}"), Call::Decode, plus, words),
    ]
}

fn main() -> ExitCode {
    let mut words: Vec<String> = std::env::args().skip(1).collect();
    let is_quick = words.first().is_some_and(|word| word == "--quick");
    if is_quick {
        words.remove(0);
    }
    let settings = Settings::default();
    let is_wanted = |case: &Case| words.is_empty() || words.iter().any(|word| case.name.contains(word));
    let cases: Vec<Case> = cases(is_quick).into_iter().filter(is_wanted).collect();
    let mut wrong = 0;
    for case in &cases {
        if case.call.make(&settings, &case.text).as_deref() != Ok(case.wanted.as_bytes()) {
            println!("  FAILED: {}", case.name);
            wrong += 1;
        }
    }
    if is_quick {
        println!("library: {} passed, {wrong} failed", cases.len() - wrong);
    } else if wrong == 0 && !cases.is_empty() {
        println!("| call | bytes | ns a call | MB/s |");
        println!("|---|---:|---:|---:|");
        cases.iter().for_each(|case| print_row(case, &settings));
    }
    ExitCode::from(u8::from(wrong > 0))
}

fn print_row(case: &Case, settings: &Settings) {
    let time = nanoseconds(|times| {
        for _ in 0..times {
            drop(black_box(case.call.make(settings, black_box(&case.text))));
        }
    });
    let len = case.text.len();
    println!(
        "| {} | {} | {} | {:.1} |",
        case.name,
        grouped(len),
        grouped(time.round() as usize),
        len as f64 * 1000.0 / time,
    );
}
