//! Data that are read and written.

use super::{Call, Case, counted, series};
use crate::calls::{Sample, Shape};
use crate::inputs::{self, Generator, Order};
use crate::timing::grouped;

pub(super) const RECORD: &str = "id=42&name=Acme&phone=12345&address[city]=Carrot+City&address[street]=Special-Street*+No.+11\
    &address[postcode]=12345&user_ids[0]=1&user_ids[1]=2&user_ids[2]=3&user_ids[3]=4";

/// A struct, the record, maps, a list, a nested text and long texts.
pub(super) fn read(counts: &[usize], many: usize, len: usize) -> Vec<Case> {
    let record = "AcmeCarrot CitySpecial-Street* No. 1112345".len();
    let mut cases = vec![
        case(
            "three pairs into a struct",
            "name=Alice&age=24&occupation=Student".into(),
            Shape::Person,
            12,
        ),
        case(
            "the record of ten entries",
            RECORD.into(),
            Shape::Record,
            record,
        ),
    ];
    cases.extend(series(counts, |count| read_map(count, Order::InOrder)));
    cases.extend([
        read_map(many, Order::Shuffled),
        case(
            &format!("{} elements by number", grouped(many)),
            (0..many)
                .map(|place| format!("ids[{place}]={place}"))
                .collect::<Vec<_>>()
                .join("&"),
            Shape::Ids,
            many,
        ),
        case(
            "one text, five keys deep",
            "a[b][c][d][e]=text".into(),
            Shape::Nested,
            4,
        ),
    ]);
    cases.extend(read_texts(len));
    cases
}

fn case(kind: &str, input: String, shape: Shape, size: usize) -> Case {
    Case::new(format!("read {kind}"), input, Call::Read(shape, size))
}

fn read_map(count: usize, order: Order) -> Case {
    case(
        &format!("{} into a map, {}", counted(count, "pair"), order.name()),
        inputs::pairs(count, order, "key", ""),
        Shape::Map,
        17 * count,
    )
}

fn read_texts(len: usize) -> Vec<Case> {
    let text = |kind: &str, text: String, size: usize| {
        let input = format!("a={text}");
        case(&format!("one value of {kind}"), input, Shape::Text, size)
    };
    vec![
        text("letters", Generator::new().letters(len), len),
        text("escapes", inputs::escapes(len), len / 3),
        text("spaces", "+".repeat(len), len),
    ]
}

/// The record, structs and a list. The structs grow.
pub(super) fn written(counts: &[usize], many: usize) -> Vec<Case> {
    let mut cases = vec![Case::new(
        "write a record of ten entries",
        RECORD,
        Call::Write(Sample::Record),
    )];
    cases.extend(series(counts, |count| fields(0, count)));
    cases.extend([fields(5, 1), fields(5, many), numbers(many)]);
    cases
}

fn fields(keys: usize, count: usize) -> Case {
    let (place, before, after) = match keys {
        0 => ("", String::new(), ""),
        _ => (
            ", six keys deep",
            format!("a{}[", "[a]".repeat(keys - 1)),
            "]",
        ),
    };
    let name = format!("write {}{place}", counted(count, "field"));
    let text = inputs::fields(&before, after, count);
    Case::new(name, text, Call::Write(Sample::Fields { keys, count }))
}

fn numbers(count: usize) -> Case {
    let name = format!("write {} numbers in a list", grouped(count));
    let entries: Vec<String> = (0..count)
        .map(|number| format!("a[{number}]={number}"))
        .collect();
    Case::new(
        name,
        entries.join("&"),
        Call::Write(Sample::Numbers { count }),
    )
}
