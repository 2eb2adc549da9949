//! Reads types of its own by shapes, prints them, and writes them again.

use serde::{Deserialize, Serialize};
use serde_qs_proved::{Settings, from_str, to_string};
use std::collections::BTreeMap;

#[derive(Debug, PartialEq, Serialize, Deserialize)]
#[serde(rename_all = "lowercase")]
enum Sort {
    New,
    By(String),
}

#[derive(Debug, PartialEq, Serialize, Deserialize)]
struct Search {
    name: String,
    ages: Vec<u8>,
    at: (i16, bool),
    scores: BTreeMap<u32, u64>,
    sort: Sort,
    note: Option<String>,
    #[serde(default)]
    page: u32,
}

struct Bytes(&'static [u8]);

impl Serialize for Bytes {
    fn serialize<S: serde::Serializer>(&self, serializer: S) -> Result<S::Ok, S::Error> {
        serializer.serialize_bytes(self.0)
    }
}

#[derive(Serialize)]
struct Unit;

#[derive(Serialize)]
struct Empty {}

#[derive(Serialize)]
enum Kind {
    Pair(u8, Unit),
    Named { x: (), y: Option<u8> },
}

/// What is written as the original does, and what is an error.
fn write_each() -> Result<(), serde_qs_proved::Error> {
    println!("{}", to_string(&BTreeMap::from([("a", Kind::Pair(7, Unit)), ("b", Kind::Named { x: (), y: None })]))?);
    println!("{}", to_string(&BTreeMap::from([(1u8, (1.5f32, 1e300, u128::MAX, 'x', Bytes(b"a b")))]))?);
    println!("{}", to_string(&BTreeMap::from([(true, vec![(); 2]), (false, vec![])]))?);
    println!("{}", to_string(&BTreeMap::from([("a", vec![None, Some(Empty {})]), ("b", vec![Some(Empty {})]), ("c", vec![])]))?);
    let errors = [
        to_string(&[Bytes(&[97, 255])]),
        to_string(&[Some(Empty {}), None]),
        to_string(&[f64::NAN]),
        to_string(&[f32::INFINITY]),
        to_string(&BTreeMap::from([(Some("a"), 1)])),
        to_string(&BTreeMap::from([(vec![1], 1)])),
    ];
    for error in errors {
        let error = error.unwrap_err();
        println!("{:?} {error}", error.kind());
    }
    Ok(())
}

const SHAPE: &str = "{name: text, ages: [u8], at: (i16, bool), scores: map(u32, u64), sort: enum(new, by(text)), note: text?, page?: u32}";
const QUERY: &str = "name=J%C3%BCrgen+B.&ages[0]=7&ages[1]=255&at[0]=-3&at[1]=true&scores[12]=18446744073709551615&sort[by]=age";

fn main() -> Result<(), serde_qs_proved::Error> {
    let search: Search = from_str(SHAPE, QUERY)?;
    println!("{search:?}");
    let written = to_string(&search)?;
    println!("{written}");
    assert_eq!(from_str::<Search>(SHAPE, &written)?, search);
    let plain: Search = from_str(SHAPE, "name=&ages=&at[0]=0&at[1]=false&scores=&sort=new&note=x&page=2")?;
    println!("{plain:?}");
    let form = Settings { form: true, ..Settings::default() };
    println!("{}", form.to_string(&plain)?);
    let missing = from_str::<Search>("{name: text}", "name=J").unwrap_err();
    println!("{:?} {missing}", missing.kind());
    let too_large = from_str::<Search>(SHAPE, "name=J&ages[0]=256").unwrap_err();
    println!("{:?} {}", too_large.kind(), too_large.path());
    write_each()
}
