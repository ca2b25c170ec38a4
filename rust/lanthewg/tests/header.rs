//! Header, wrapper and change log are of one version, and the constants of the first two are the same.

use std::collections::BTreeMap;

const HEADER: &str = include_str!("../../../include/lanthewg.h");
const WRAPPER: &str = include_str!("../src/constants.rs");
const CHANGES: &str = include_str!("../../../CHANGELOG.md");

fn value(text: &str) -> u64 {
    match text.strip_prefix("0x") {
        Some(digits) => u64::from_str_radix(digits, 16).unwrap(),
        None => text.parse().unwrap(),
    }
}

/// `LANTHEWG_NAME = VALUE`, wherever it stands in an enum.
fn of_header() -> BTreeMap<String, u64> {
    let mut found = BTreeMap::new();
    for part in HEADER.split("LANTHEWG_").skip(1) {
        if let Some((name, rest)) = part.split_once(" = ") {
            if name.bytes().all(|b| b.is_ascii_uppercase() || b.is_ascii_digit() || b == b'_') {
                let end = rest.find(|c: char| !c.is_ascii_alphanumeric()).unwrap();
                assert_eq!(
                    found.insert(name.to_string(), value(&rest[..end])),
                    None,
                    "{name} twice"
                );
            }
        }
    }
    found
}

/// `pub const NAME: u8 = VALUE;`, or `usize`.
fn of_wrapper() -> BTreeMap<String, u64> {
    let mut found = BTreeMap::new();
    for line in WRAPPER.lines().filter_map(|line| line.strip_prefix("pub const ")) {
        let (name, rest) = line.split_once(": ").unwrap();
        let (kind, text) = rest.strip_suffix(';').unwrap().split_once(" = ").unwrap();
        if kind != "&str" {
            assert_eq!(found.insert(name.to_string(), value(text)), None, "{name} twice");
        }
    }
    found
}

#[test]
fn constants_are_the_headers() {
    let header = of_header();
    assert!(header.len() >= 48, "only {}", header.len());
    assert_eq!(header, of_wrapper());
}

#[test]
fn one_version() {
    let line =
        HEADER.lines().find_map(|line| line.strip_prefix("#define LANTHEWG_VERSION ")).unwrap();
    assert_eq!(line, format!("\"{}\"", lanthewg::VERSION));
    assert_eq!(env!("CARGO_PKG_VERSION"), lanthewg::VERSION);
    let newest = CHANGES.lines().find_map(|line| line.strip_prefix("## ")).unwrap();
    assert_eq!(newest.split(' ').next(), Some(lanthewg::VERSION));
}
