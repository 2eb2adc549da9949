//! The conformance cases by the Rust crate serde_qs.
//!
//!     cargo run --manifest-path conformance/runners/rust/Cargo.toml [-- --differences]
//!
//! Each case is read as whatever is there, or by a type with the fields of its shape. As whatever is there the crate reads a map of integer keys as a list,
//! so a tree with such keys is wanted as a list if these are 0, 1, 2 and so on, and else as an error. An error of the parser has to have the same position; any
//! other error agrees with any. What is written has to be the same pieces between `&`s, in any order, since a `Value` sorts its keys. Left out is what these
//! types don't say: other shapes, limits, and strings that aren't UTF-8.
use serde::{ser::SerializeMap, Deserialize, Serialize, Serializer};
use serde_json::{Map, Value};
use serde_qs::{ArrayFormat, Config, DuplicateKeyBehavior};

fn present<'de, D: serde::Deserializer<'de>>(d: D) -> Result<Option<bool>, D::Error> {
    bool::deserialize(d).map(Some)
}

macro_rules! types {
    ($flat:ident, $address:ident, $params:ident, $(#[$strict:meta])?) => {
        #[derive(Serialize, Deserialize)]
        $(#[$strict])?
        struct $flat {
            name: String,
            age: u8,
            occupation: String,
            #[serde(default, deserialize_with = "present", skip_serializing_if = "Option::is_none")]
            active: Option<bool>,
            note: Option<String>,
        }

        #[derive(Serialize, Deserialize)]
        $(#[$strict])?
        struct $address { city: String, street: String, postcode: String }

        #[derive(Serialize, Deserialize)]
        $(#[$strict])?
        struct $params { id: u8, name: String, phone: u32, address: $address, user_ids: Vec<u8> }
    };
}
types!(Flat, Address, Params,);
types!(StrictFlat, StrictAddress, StrictParams, #[serde(deny_unknown_fields)]);

/// JSON that is written with null as a key alone, and a number as it stands.
struct Data<'a>(&'a Value);

impl Serialize for Data<'_> {
    fn serialize<S: Serializer>(&self, s: S) -> Result<S::Ok, S::Error> {
        match self.0 {
            Value::Null => s.serialize_none(),
            Value::Array(items) => s.collect_seq(items.iter().map(Data)),
            Value::Object(members) => {
                let mut map = s.serialize_map(Some(members.len()))?;
                members.iter().try_for_each(|(name, value)| map.serialize_entry(name, &Data(value)))?;
                map.end()
            }
            scalar => scalar.serialize(s),
        }
    }
}

fn config(case: &Value) -> Config {
    Config::new()
        .max_depth(case["depth"].as_u64().unwrap() as usize)
        .use_form_encoding(case["mode"] == "form")
        .duplicate_key_behavior(if case["duplicates"] == "error" { DuplicateKeyBehavior::Error } else { DuplicateKeyBehavior::TakeLast })
        .array_format(match case["array_format"].as_str() {
            Some("empty_indexed") => ArrayFormat::EmptyIndexed,
            Some("unindexed") => ArrayFormat::Unindexed,
            _ => ArrayFormat::Indexed,
        })
}

fn error(text: &str) -> Value {
    let position = text.rsplit_once("at position: ").map_or("", |(_, position)| position);
    Value::String(format!("error {position}"))
}

fn pieces(text: &str) -> Value {
    let mut pieces: Vec<&str> = text.split('&').collect();
    pieces.sort();
    Value::String(pieces.join("&"))
}

fn rewritten<T: for<'de> Deserialize<'de> + Serialize>(config: Config, input: &str) -> Result<Value, serde_qs::Error> {
    config.deserialize_str::<T>(input).and_then(|it| config.serialize_string(&it)).map(|it| pieces(&it))
}

/// The tree as it is read: without integer keys, or nothing where they have a gap.
fn read(tree: &Value) -> Option<Value> {
    let Value::Object(members) = tree else {
        return match tree {
            Value::Array(items) => items.iter().map(read).collect::<Option<_>>().map(Value::Array),
            scalar => Some(scalar.clone()),
        };
    };
    let parts = members.iter().map(|(name, part)| Some((name.clone(), read(part)?))).collect::<Option<Map<_, _>>>()?;
    if !parts.keys().all(|name| name.parse::<u32>().is_ok_and(|number| number.to_string() == *name)) {
        return Some(Value::Object(parts));
    }
    (0..parts.len()).map(|at| parts.get(&at.to_string()).cloned()).collect::<Option<_>>().map(Value::Array)
}

/// What is wanted, if the types say it.
fn wanted(case: &Value) -> Option<Value> {
    let written = !case["array_format"].is_null();
    let is_said = if case["input"].is_null() { case["data"].as_str().is_some() || written } else { written || case["shape"].as_str().unwrap_or("any") == "any" };
    if !is_said || !case["input_hex"].is_null() || !case["tree_encoded"].is_null() || !case["max_length"].is_null() || !case["max_pairs"].is_null() {
        return None;
    }
    Some(match (&case["error"], case.get("tree")) {
        (Value::String(_), _) => error(&case["position"].as_u64().map_or(String::new(), |position| format!("at position: {position}"))),
        (_, Some(tree)) => read(tree).unwrap_or_else(|| error("")),
        _ => case["written"].as_str().map_or_else(|| case["data"].clone(), pieces),
    })
}

fn found(case: &Value) -> Value {
    let config = config(case);
    let result = match (case["input"].as_str(), case["shape"].as_str().unwrap_or("any")) {
        (None, _) => config.serialize_string(&Data(&case["data"])).map(|it| pieces(&it)),
        (Some(input), "any") => config.deserialize_str::<Value>(input),
        (Some(input), shape) if shape.starts_with("strict {id") => rewritten::<StrictParams>(config, input),
        (Some(input), shape) if shape.starts_with("strict") => rewritten::<StrictFlat>(config, input),
        (Some(input), shape) if shape.starts_with("{id") => rewritten::<Params>(config, input),
        (Some(input), _) => rewritten::<Flat>(config, input),
    };
    result.unwrap_or_else(|it| error(&it.to_string()))
}

fn main() {
    let text = std::fs::read_to_string(concat!(env!("CARGO_MANIFEST_DIR"), "/../../cases.json")).expect("cases.json");
    let suite: Value = serde_json::from_str(&text).expect("JSON");
    let shows = std::env::args().any(|word| word == "--differences");
    println!("serde_qs 1.1.3\n{:12} agreed     of  left out", "feature");
    let mut features: Vec<&str> = suite["cases"].as_array().unwrap().iter().map(|case| case["feature"].as_str().unwrap()).collect();
    features.dedup();
    for feature in features {
        let (mut agreed, mut all, mut out) = (0, 0, 0);
        for case in suite["cases"].as_array().unwrap().iter().filter(|case| case["feature"] == feature) {
            let Some(want) = wanted(case) else {
                out += 1;
                continue;
            };
            let got = found(case);
            all += 1;
            let agrees = got == want || case["error"] == "rejected" && got.as_str().is_some_and(|it| it.starts_with("error"));
            agreed += usize::from(agrees);
            if shows && !agrees {
                println!("{feature}/{}: {}: {got}, and not {want}", case["name"], case["input"]);
            }
        }
        println!("{feature:12}{agreed:7}{all:7}{out:10}");
    }
}
