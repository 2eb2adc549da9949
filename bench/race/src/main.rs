//! Measures how long `serde_qs` and `serde_urlencoded` take to read pairs into a map. Prints a line for each: the crate, the number of
//! pairs and the nanoseconds, with tabs between them, as `driver --pairs` does for this library.

#[allow(dead_code)]
#[path = "../../inputs.rs"]
mod inputs;
#[allow(dead_code)]
#[path = "../../timing.rs"]
mod timing;

use inputs::{COUNTS, Order};
use std::collections::BTreeMap;
use std::hint::black_box;

type Map = BTreeMap<String, String>;

fn main() {
    for count in COUNTS {
        let input = inputs::pairs(count, Order::InOrder, "key", "");
        let by_qs = || serde_qs::from_str::<Map>(black_box(&input)).expect("serde_qs reads it");
        let by_urlencoded =
            || serde_urlencoded::from_str::<Map>(black_box(&input)).expect("both read it");
        assert_eq!(by_qs(), by_urlencoded());
        print_time("serde_qs 1.1.3", count, by_qs);
        print_time("serde_urlencoded 0.7.1", count, by_urlencoded);
    }
}

fn print_time(name: &str, count: usize, read: impl Fn() -> Map) {
    let time = timing::nanoseconds(|times| (0..times).for_each(|_| drop(black_box(read()))));
    println!("{name}\t{count}\t{time:.0}");
}
