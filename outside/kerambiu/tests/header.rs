//! The package says what `include/kerambiu.h` says: refusal numbers and sentences,
//! constants, version.

use std::collections::BTreeMap;

use kerambiu::{raw, Refusal};

fn header() -> String {
    let path = concat!(env!("CARGO_MANIFEST_DIR"), "/../../include/kerambiu.h");
    std::fs::read_to_string(path).expect("the header can be read")
}

/// The macros of one word that begin so, without it.
fn macros(header: &str, begin: &str) -> BTreeMap<String, String> {
    let lines = header
        .lines()
        .filter_map(|line| line.strip_prefix("#define "));
    let macros = lines.filter_map(|line| line.strip_prefix(begin)?.split_once(' '));
    macros
        .map(|(name, value)| (name.into(), value.into()))
        .collect()
}

/// The sentences, by the macro's name.
fn sentences(header: &str) -> BTreeMap<String, String> {
    let cases = header.lines().filter_map(|line| {
        let case = line.strip_prefix("    case KERAMBIU_REFUSED_")?;
        case.strip_suffix("\";")?.split_once(": return \"")
    });
    cases
        .map(|(name, sentence)| (name.into(), sentence.into()))
        .collect()
}

#[test]
fn refusals_are_the_headers() {
    let header = header();
    let (numbers, sentences) = (macros(&header, "KERAMBIU_REFUSED_"), sentences(&header));
    assert_eq!(numbers.len(), 18);
    assert_eq!(sentences.len(), 18);
    let own: BTreeMap<u8, &str> = Refusal::all().map(|r| (r.number(), r.sentence())).collect();
    assert_eq!(own.len(), 18);
    for (name, number) in &numbers {
        let number = number.parse().expect("a number");
        assert_eq!(own.get(&number), Some(&sentences[name].as_str()), "{name}");
    }
}

#[test]
fn names_are_the_headers() {
    let numbers = macros(&header(), "KERAMBIU_REFUSED_");
    let own = [
        ("MODE", Refusal::MODE),
        ("ROLE", Refusal::ROLE),
        ("TRAINING_LENGTH", Refusal::TRAINING_LENGTH),
        ("STATE", Refusal::STATE),
        ("BIT", Refusal::BIT),
        ("BIT_COUNT", Refusal::BIT_COUNT),
        ("LENT", Refusal::LENT),
        ("COORDINATE", Refusal::COORDINATE),
        ("NO_INTERVALS", Refusal::NO_INTERVALS),
        ("STORE_SIZE", Refusal::STORE_SIZE),
        ("STORE_HEAD", Refusal::STORE_HEAD),
        ("STORE_INDEX", Refusal::STORE_INDEX),
        ("STORE_RECORD", Refusal::STORE_RECORD),
        ("STORE_TOTAL", Refusal::STORE_TOTAL),
        ("INTERVALS", Refusal::INTERVALS),
        ("STORE_FULL", Refusal::STORE_FULL),
        ("NOT_FINITE", Refusal::NOT_FINITE),
        ("BLOCK_SIZE", Refusal::BLOCK_SIZE),
    ];
    for (name, refusal) in own {
        assert_eq!(numbers[name], refusal.number().to_string(), "{name}");
    }
}

#[test]
fn a_refusal_prints_number_and_sentence() {
    let shown = Refusal::COORDINATE.to_string();
    assert_eq!(shown, "refused 8: a coordinate is outside -16384 to 16384");
}

#[test]
fn constants_and_version_are_the_headers() {
    let all = macros(&header(), "KERAMBIU_");
    let own = [
        ("STATE_BYTES", raw::STATE_BYTES),
        ("ANSWER_BYTES", raw::ANSWER_BYTES),
        ("REFERENCE", raw::REFERENCE.into()),
        ("ORIGIN", raw::ORIGIN.into()),
        ("RECORD_BYTES", raw::RECORD_BYTES),
        ("LISTING_BYTES", raw::LISTING_BYTES),
        ("V41_CHECK_BITS", raw::V41_CHECK_BITS),
    ];
    for (name, value) in own {
        assert_eq!(all[name], value.to_string(), "{name}");
    }
    let version = ["MAJOR", "MINOR", "PATCH"].map(|part| &*all[&format!("VERSION_{part}")]);
    assert_eq!(version.join("."), env!("CARGO_PKG_VERSION"));
    assert_eq!(all["VERSION"], format!("\"{}\"", env!("CARGO_PKG_VERSION")));
}
