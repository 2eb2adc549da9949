//! Values of types that are read and written.

use super::data::RECORD;
use super::{Call, Case};
use crate::calls::{Means, Type};
use crate::inputs::{self, Order};
use crate::timing::grouped;

/// Reads of so many pairs in order into a map, by serde's derives.
pub(super) fn map_reads(counts: &[usize]) -> Vec<Case> {
    let read = |&count: &usize| {
        let input = inputs::pairs(count, Order::InOrder, "key", "");
        let call = Call::ReadTyped(Type::Map, Means::Derives);
        Case::new(count.to_string(), input, call)
    };
    counts.iter().map(read).collect()
}

/// A struct, the record, a list, a map and a nested text: each is read and written, by `Compound` and by serde's derives.
pub(super) fn all(many: usize) -> Vec<Case> {
    let ids: Vec<String> = (0..many)
        .map(|place| format!("ids[{place}]={place}"))
        .collect();
    let loads = [
        (
            "three fields".to_string(),
            "name=Alice&age=24&occupation=Student".into(),
            Type::Person,
        ),
        (
            "the record of ten entries".into(),
            RECORD.into(),
            Type::Record,
        ),
        (
            format!("a list of {}", grouped(many)),
            ids.join("&"),
            Type::Ids,
        ),
        (
            format!("a map of {}", grouped(many)),
            inputs::pairs(many, Order::InOrder, "key", ""),
            Type::Map,
        ),
        (
            "a text five keys deep".into(),
            "a[b][c][d][e]=text".into(),
            Type::Nested,
        ),
    ];
    loads.into_iter().flat_map(rows).collect()
}

fn rows((kind, input, of): (String, String, Type)) -> [Case; 4] {
    [
        (
            format!("read {kind} as a type"),
            Call::ReadTyped(of, Means::Compound),
        ),
        (
            format!("read {kind} by a derive"),
            Call::ReadTyped(of, Means::Derives),
        ),
        (
            format!("write {kind} of a type"),
            Call::WriteTyped(of, Means::Compound),
        ),
        (
            format!("write {kind} by a derive"),
            Call::WriteTyped(of, Means::Derives),
        ),
    ]
    .map(|(name, call)| Case::new(name, input.clone(), call))
}
