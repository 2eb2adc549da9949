//! What is measured.

mod data;
mod typed;

use crate::calls::{self, Keys, Means, Sample, Shape, Times, Type};
use crate::inputs::{self, Generator, Order};
use crate::timing::grouped;
use std::hint::black_box;

/// A call, and what has to come of it.
enum Call {
    /// Parses the case's bytes: the tree has these keys.
    Parse(Keys),
    /// Parses the case's bytes, which are rejected.
    Reject,
    /// Decodes them: to these.
    Decode(Vec<u8>),
    /// Encodes them for form mode or query mode: to these.
    Encode { form: bool, wanted: Vec<u8> },
    /// Writes the sample: as the case's bytes.
    Write(Sample),
    /// Reads the case's bytes by the shape: so much.
    Read(Shape, usize),
    /// Reads them as a value of the type: it is written as them.
    ReadTyped(Type, Means),
    /// Writes the value of the type that they are read as: as them.
    WriteTyped(Type, Means),
}

pub struct Case {
    pub name: String,
    /// What is read, or written.
    pub bytes: Vec<u8>,
    /// It is the case before with ten times as many pairs.
    pub grows: bool,
    call: Call,
}

impl Case {
    fn new(name: impl Into<String>, bytes: impl Into<Vec<u8>>, call: Call) -> Self {
        Case {
            name: name.into(),
            bytes: bytes.into(),
            grows: false,
            call,
        }
    }

    /// Makes the call once: whether the right thing came of it.
    pub fn is_right(&self) -> bool {
        let mut out = Vec::new();
        match &self.call {
            Call::Parse(keys) => calls::parse(&self.bytes).as_ref() == Some(keys),
            Call::Reject => calls::parse(&self.bytes).is_none(),
            Call::Decode(wanted) => {
                out.resize(wanted.len(), 0);
                calls::decode(&self.bytes, &mut out) == Some(wanted.len()) && out == *wanted
            }
            Call::Encode { form, wanted } => {
                out.resize(wanted.len(), 0);
                calls::encode(*form, &self.bytes, &mut out) == Some(wanted.len()) && out == *wanted
            }
            Call::Write(sample) => {
                out.resize(self.bytes.len(), 0);
                sample.write(1, &mut out) == Some(out.len()) && out == self.bytes
            }
            Call::Read(shape, size) => calls::read(1, *shape, &self.bytes) == Some(*size),
            Call::ReadTyped(of, means) | Call::WriteTyped(of, means) => {
                out.resize(self.bytes.len(), 0);
                let len = of.read_and_write(*means, self.times(1), &self.bytes, &mut out);
                len == Some(out.len()) && out == self.bytes
            }
        }
    }

    /// Makes the call so many times. Where it writes or reads, it first makes the data or the shape, and does so once more.
    pub fn repeat(&self, times: usize) {
        let bytes = black_box(&self.bytes);
        match &self.call {
            Call::Write(sample) => drop(black_box(sample.write(times + 1, &mut []))),
            Call::Read(shape, _) => drop(black_box(calls::read(times + 1, *shape, bytes))),
            Call::ReadTyped(of, means) | Call::WriteTyped(of, means) => drop(black_box(
                of.read_and_write(*means, self.times(times + 1), bytes, &mut []),
            )),
            call => (0..times).for_each(|_| call.make(black_box(bytes))),
        }
    }

    /// So many reads and one write, or one read and so many writes.
    fn times(&self, times: usize) -> Times {
        let is_write = matches!(self.call, Call::WriteTyped(..));
        Times {
            reads: if is_write { 1 } else { times },
            writes: if is_write { times } else { 1 },
        }
    }
}

impl Call {
    /// Makes the call once. What is written or read is repeated within a call of its own.
    fn make(&self, bytes: &[u8]) {
        match self {
            Call::Parse(_) | Call::Reject => drop(black_box(calls::parse(bytes))),
            Call::Decode(_) => drop(black_box(calls::decode(bytes, &mut []))),
            Call::Encode { form, .. } => drop(black_box(calls::encode(*form, bytes, &mut []))),
            Call::Write(_) | Call::Read(..) | Call::ReadTyped(..) | Call::WriteTyped(..) => {}
        }
    }
}

/// All cases, or those with few pairs and short texts.
pub fn all(small: bool) -> Vec<Case> {
    let pairs: &[usize] = if small {
        &[10, 100]
    } else {
        &[10, 100, 1_000, 10_000, 100_000]
    };
    let large: &[usize] = if small { &[] } else { &[30_000, 300_000] };
    let len = if small { 1 << 12 } else { 1 << 20 };
    let mut cases = Vec::new();
    for order in Order::ALL {
        cases.extend(series(pairs, |count| flat(count, order)));
        cases.extend(series(large, |count| flat(count, order)));
    }
    for order in Order::ALL {
        cases.extend(series(&pairs[pairs.len() / 2..], |count| map(count, order)));
        cases.extend(series(large, |count| map(count, order)));
    }
    let many = if small { 100 } else { 1_000 };
    cases.extend(of_choices(many, len));
    cases.extend([
        elements(many),
        pushed(many),
        escaped(many),
        deep(1),
        deep(many),
    ]);
    cases.extend(hostile(len));
    cases.extend(texts(len));
    cases.extend(encoded(len));
    let counts = &pairs[..pairs.len().min(4)];
    cases.extend(data::written(counts, many));
    cases.extend(data::read(counts, many, len));
    cases.extend(typed::all(many));
    cases
}

/// Reads of pairs into a map, each with the number of pairs for its name.
pub fn map_reads() -> Vec<Case> {
    typed::map_reads(&inputs::COUNTS)
}

/// So many of a kind.
fn counted(count: usize, kind: &str) -> String {
    let ending = if count == 1 { "" } else { "s" };
    format!("{} {kind}{ending}", grouped(count))
}

/// Cases that grow.
fn series(counts: &[usize], case: impl Fn(usize) -> Case) -> Vec<Case> {
    let mut cases: Vec<Case> = counts.iter().map(|&count| case(count)).collect();
    for case in cases.iter_mut().skip(1) {
        case.grows = true;
    }
    cases
}

fn flat(count: usize, order: Order) -> Case {
    let name = format!("parse {}, {}", counted(count, "pair"), order.name());
    let keys = Keys {
        root: count,
        first: 0,
    };
    Case::new(
        name,
        inputs::pairs(count, order, "key", ""),
        Call::Parse(keys),
    )
}

fn map(count: usize, order: Order) -> Case {
    let name = format!(
        "parse one map of {} entries, {}",
        grouped(count),
        order.name()
    );
    let keys = Keys {
        root: 1,
        first: count,
    };
    Case::new(
        name,
        inputs::pairs(count, order, "a[key", "]"),
        Call::Parse(keys),
    )
}

fn elements(count: usize) -> Case {
    let name = format!("parse {} elements by number", grouped(count));
    let keys = Keys {
        root: 1,
        first: count,
    };
    let input = inputs::keyed(count, |place| format!("a[{place}]"));
    Case::new(name, input, Call::Parse(keys))
}

fn pushed(count: usize) -> Case {
    let name = format!("parse {} pushed elements", grouped(count));
    let keys = Keys { root: 1, first: 0 };
    let input = inputs::keyed(count, |_| "a[]".into());
    Case::new(name, input, Call::Parse(keys))
}

/// Each pair has an escape in its key.
fn escaped(count: usize) -> Case {
    let name = format!("parse {}, an escape in each", counted(count, "pair"));
    let keys = Keys {
        root: count,
        first: 0,
    };
    let input = inputs::pairs(count, Order::InOrder, "k%65y", "");
    Case::new(name, input, Call::Parse(keys))
}

/// Small inputs, and loads for which docs/DECISIONS.md says what a choice gains.
fn of_choices(many: usize, len: usize) -> Vec<Case> {
    let parsed = |name: &str, input: String, root: usize, first: usize| {
        let keys = Keys { root, first };
        Case::new(format!("parse {name}"), input, Call::Parse(keys))
    };
    let in_turns = inputs::keyed(many, |place| format!("a[{}][b][{}]", place % 2, place / 2));
    let letters = Generator::new().letters(38);
    let wanted = format!("a+{letters}").into_bytes();
    vec![
        flat(1, Order::InOrder),
        parsed("the record of ten entries", data::RECORD.into(), 5, 3),
        parsed("two lists three deep, in turns", in_turns, 1, 2),
        Case::new("parse `[`", "[".repeat(len), Call::Reject),
        parsed("`]`", "]".repeat(len), 1, 0),
        parsed("`&`", "&".repeat(len), 0, 0),
        Case::new(
            "encode 40 bytes with a space at the second",
            format!("a {letters}"),
            Call::Encode {
                form: false,
                wanted,
            },
        ),
    ]
}

/// A conflict at the front, and keys that run over each `&` to the end.
fn hostile(len: usize) -> Vec<Case> {
    let conflict = format!("a=1&a[b]=2&{}", "key=value&".repeat(len / 10));
    let mut cases = vec![Case::new(
        "parse a conflict at the front",
        conflict,
        Call::Reject,
    )];
    for text in ["letters", "+", "%41"] {
        let unit = format!("&a[{text}");
        let input = format!("x=1{}", unit.repeat(len / unit.len()));
        cases.push(Case::new(
            format!("parse unclosed keys of {text}"),
            input,
            Call::Reject,
        ));
    }
    cases
}

fn deep(count: usize) -> Case {
    let name = format!("parse {}, six keys deep", counted(count, "pair"));
    let keys = Keys { root: 1, first: 1 };
    let input = inputs::pairs(count, Order::InOrder, "a[b][c][d][e][", "]");
    Case::new(name, input, Call::Parse(keys))
}

/// Long texts of letters, of words, of the escapes of letters, and of a byte that is always escaped, encoded in both modes.
fn encoded(len: usize) -> Vec<Case> {
    let letters = Generator::new().letters(len);
    let words = inputs::words(len);
    let escapes = inputs::escapes(len);
    let case = |kind: &str, form: bool, text: &str, wanted: String| {
        let mode = if form { ", form mode" } else { "" };
        let wanted = wanted.into_bytes();
        Case::new(
            format!("encode {kind}{mode}"),
            text,
            Call::Encode { form, wanted },
        )
    };
    let (ampersands, spaces) = ("&".repeat(len), " ".repeat(len));
    vec![
        case("letters", false, &letters, letters.clone()),
        case("words", false, &words, words.replace(' ', "+")),
        case("words", true, &words, words.replace(' ', "%20")),
        case("escapes", false, &escapes, escapes.replace('%', "%25")),
        case("`&`", false, &ampersands, "%26".repeat(len)),
        case("`&`", true, &ampersands, "%26".repeat(len)),
        case("spaces", false, &spaces, "+".repeat(len)),
        case("spaces", true, &spaces, "%20".repeat(len)),
    ]
}

/// Long texts of letters, of words, of spaces, of the escapes of letters, and of a byte that is always escaped.
fn texts(len: usize) -> Vec<Case> {
    let mut cases = parsed_texts(len);
    cases.extend(decoded_texts(len));
    cases.extend(written_texts(len));
    cases
}

fn parsed_texts(len: usize) -> Vec<Case> {
    let value = Keys { root: 1, first: 0 };
    let parsed = |kind: &str, text: String| {
        Case::new(
            format!("parse one value of {kind}"),
            format!("a={text}"),
            Call::Parse(value),
        )
    };
    vec![
        parsed("letters", Generator::new().letters(len)),
        parsed("escapes", inputs::escapes(len)),
        parsed("words", inputs::words(len).replace(' ', "+")),
        parsed("spaces", "+".repeat(len)),
    ]
}

fn decoded_texts(len: usize) -> Vec<Case> {
    let letters = Generator::new().letters(len);
    let escaped = Generator::new().letters(len / 3);
    let words = inputs::words(len);
    let decoded = |kind: &str, input: String, text: String| {
        Case::new(format!("decode {kind}"), input, Call::Decode(text.into()))
    };
    vec![
        decoded("spaces", "+".repeat(len), " ".repeat(len)),
        decoded("words", words.replace(' ', "+"), words),
        decoded("letters", letters.clone(), letters),
        decoded("escapes", inputs::escapes(len), escaped),
    ]
}

fn written_texts(len: usize) -> Vec<Case> {
    let letters = Generator::new().letters(len);
    let words = inputs::words(len);
    let written = |kind: &str, text: String, bytes: &[u8]| {
        Case::new(
            format!("write one value of {kind}"),
            format!("a={text}"),
            Call::Write(Sample::Bytes(bytes.to_vec())),
        )
    };
    vec![
        written("letters", letters.clone(), letters.as_bytes()),
        written("words", words.replace(' ', "+"), words.as_bytes()),
        written("`&`", "%26".repeat(len / 3), "&".repeat(len / 3).as_bytes()),
    ]
}
