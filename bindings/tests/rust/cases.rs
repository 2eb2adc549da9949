//! Makes the call of each line of the standard input, and prints its status, its position and its text.
//! A line is a call, its settings, a shape or a path, and a text, with tabs between them. The settings are `query`, `form` or `web`,
//! and words after a blank: `depth=N`, `empty` or `unindexed`, `reject`, `length=N`, `pairs=N` and `output=N`.

use serde_qs_proved::{ArrayFormat, Settings, decode};

fn settings_of(words: &str) -> Settings {
    let mut settings = Settings::default();
    for word in words.split(' ') {
        match word {
            "form" => settings.form = true,
            "web" => settings = Settings::WEB,
            "empty" => settings.array_format = ArrayFormat::EmptyIndexed,
            "unindexed" => settings.array_format = ArrayFormat::Unindexed,
            "reject" => settings.reject_duplicates = true,
            _ => {
                if let Some((name, number)) = word.split_once('=') {
                    let number = number.parse().expect("a limit is a number");
                    match name {
                        "depth" => settings.max_depth = number,
                        "length" => settings.max_length = number,
                        "pairs" => settings.max_pairs = number,
                        _ => settings.max_output = number,
                    }
                }
            }
        }
    }
    settings
}

fn main() {
    for line in std::io::stdin().lines() {
        let line = line.expect("the input is text");
        let fields: Vec<&str> = line.split('\t').collect();
        let [call, words, shape, text] = fields[..] else {
            panic!("a line has four fields: {line}");
        };
        let settings = settings_of(words);
        let mut position = 0;
        let result = match call {
            "get" => match settings.get(shape, text) {
                Ok(None) => {
                    println!("12\t0\tnothing is at the path");
                    continue;
                }
                found => found.map(|bytes| String::from_utf8_lossy(&bytes.unwrap_or_default()).into_owned()),
            },
            "parse" => settings.parse(text),
            "read" => settings.read(shape, text),
            "explain" => settings.explain(shape, text).map(|explanation| {
                let (path, line) = explanation.unwrap_or_default();
                position = path.len();
                line
            }),
            "fields" => settings.explain_fields(shape, text).map(|fields| {
                let line = |(path, reason)| if path == "" { format!("{reason}|") } else { format!("{path}: {reason}|") };
                fields.into_iter().map(line).collect()
            }),
            "write" => settings.write(text),
            "encode" => settings.encode(text),
            _ => decode(text).map(|bytes| String::from_utf8_lossy(&bytes).into_owned()),
        };
        match result {
            Ok(text) => println!("0\t{position}\t{text}"),
            Err(error) => println!("{}\t{}\t{error}", error.kind() as u32, error.position()),
        }
    }
}
