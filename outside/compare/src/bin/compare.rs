//! Compares the proved library with the outside implementation: line, sectors,
//! receiver, bulk, readings, store, sender, guard, listing, sums, v41; image looks
//! for a table that the library is not to have, wrapper holds the typed calls for Rust
//! against the thin ones. All of them where none is named.

use std::process::ExitCode;

use compare::{
    bulk, guard, image, line, listing, readings, receiving, sectors, sending, settled, storing,
    summing, v41, wrapper,
};

/// What a name compares; whether there was no difference.
type Part = (&'static str, fn() -> bool);

const PARTS: [Part; 13] = [
    ("line", line::compare),
    ("sectors", sectors::compare),
    ("receiver", || receiving::compare(1_200_000)),
    ("bulk", || bulk::compare(100_000)),
    ("readings", || readings::compare(1_000_000)),
    ("store", || storing::compare(120_000)),
    ("sender", || sending::compare(200_000)),
    ("guard", || guard::compare(600)),
    ("listing", || listing::compare(20_000)),
    ("sums", || summing::compare(200_000)),
    ("image", image::compare),
    ("v41", || v41::compare(1_100) & settled::compare(250)),
    ("wrapper", || wrapper::compare(2_000)),
];

fn main() -> ExitCode {
    let names: Vec<String> = std::env::args().skip(1).collect();
    let known = |name: &String| PARTS.iter().any(|(part, _)| part == name);
    if let Some(name) = names.iter().find(|name| !known(name)) {
        eprintln!("compare: no part named {name}");
        return ExitCode::from(2);
    }
    let asked = |part: &str| names.is_empty() || names.iter().any(|name| name == part);
    let mut same = true;
    for (_, compare) in PARTS.iter().filter(|(part, _)| asked(part)) {
        same &= compare();
    }
    if same {
        ExitCode::SUCCESS
    } else {
        ExitCode::FAILURE
    }
}
