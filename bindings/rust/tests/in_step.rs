//! The header, this crate and the proved code name the same numbers and words.

mod common;

use std::collections::BTreeMap;

use common::text;
use spar_assertion::{
    COLLECTION_ROW, ERROR_ROW, MAX_IMAGE, MAX_RULE, Refusal, TOKEN_ROW, TREE_ROW, collection_len,
    errors_len, tokens_len, tree_len,
};

/// The header's names with a number.
fn header() -> BTreeMap<String, usize> {
    let text = text("bindings/spar.h");
    let lines = text
        .lines()
        .filter_map(|line| line.strip_prefix("#define SPAR_"));
    let defined = lines.filter_map(|line| {
        let mut words = line.split_whitespace();
        Some((words.next()?.to_string(), words.next()?.parse().ok()?))
    });
    defined.collect()
}

/// `RuleNotUtf8` as `RULE_NOT_UTF8`.
fn capitals(name: &str) -> String {
    let mut text = String::new();
    for letter in name.chars() {
        if letter.is_uppercase() && !text.is_empty() {
            text.push('_');
        }
        text.push(letter.to_ascii_uppercase());
    }
    text
}

#[test]
fn refusals_of_the_header() {
    let header = header();
    let refusals = header.keys().filter(|name| name.starts_with("REFUSAL_"));
    assert_eq!(refusals.count(), Refusal::ALL.len());
    for refusal in Refusal::ALL {
        let name = format!("REFUSAL_{}", capitals(&format!("{refusal:?}")));
        assert_eq!(header[&name], refusal.number() as usize, "{name}");
    }
}

#[test]
fn lengths_of_the_header() {
    let header = header();
    for (name, number) in [
        ("MAX_RULE", MAX_RULE),
        ("MAX_IMAGE", MAX_IMAGE),
        ("TOKEN_ROW", TOKEN_ROW),
        ("TREE_ROW", TREE_ROW),
        ("ERROR_ROW", ERROR_ROW),
        ("COLLECTION_ROW", COLLECTION_ROW),
    ] {
        assert_eq!(header[name], number, "{name}");
    }
    assert_eq!(
        [
            tokens_len(500),
            tree_len(500),
            errors_len(500),
            collection_len(65_536)
        ],
        [1500, 16_032, 16_032, 10_922]
    );
}

/// The constants of a source, by name.
fn constants(source: &str) -> BTreeMap<String, usize> {
    let lines = source.lines().map(str::trim_start);
    let declared = lines.filter_map(|line| line.strip_prefix("pub const "));
    let numbered = declared.map(|line| {
        let (name, number) = line.split_once(": u32 = ").expect("a constant");
        let number = number.trim_end_matches(';').parse().expect("a number");
        (name.to_string(), number)
    });
    numbered.collect()
}

/// The variants of a source's enum that have a number, by name in capitals.
fn variants(source: &str) -> BTreeMap<String, usize> {
    let lines = source.lines().map(str::trim_start);
    let numbered = lines.filter_map(|line| {
        let (name, number) = line.strip_suffix(',')?.split_once(" = ")?;
        Some((capitals(name), number.parse().ok()?))
    });
    numbered.collect()
}

/// The header's names that begin so, without the beginning.
fn header_names(begins: &str) -> BTreeMap<String, usize> {
    let names = header().into_iter();
    let names =
        names.filter_map(|(name, number)| Some((name.strip_prefix(begins)?.into(), number)));
    names.collect()
}

/// Kinds and forms of the proved code, as the header and this crate have them.
#[test]
fn kinds_and_forms() {
    let rows = text("bindings/rust/src/rows.rs");
    let (_, modules) = rows.split_once("pub mod form {").unwrap();
    let (forms, kinds) = modules.split_once("pub mod kind {").unwrap();

    let proved = variants(&text("crates/syntax/src/form.rt"));
    assert_eq!(proved.len(), 6);
    assert_eq!(constants(forms), proved);
    assert_eq!(header_names("FORM_"), proved);

    let proved = variants(&text("crates/syntax/src/kind.rt"));
    assert_eq!(proved.len(), 31);
    // It stands for the kind of a token that is not there, and in no table: the definitions alone have it.
    assert!(text("crates/syntax/specs/Kind.antt").contains("NONE = 31"));
    assert_eq!(constants(kinds), proved);
    assert_eq!(header_names("KIND_"), proved);
}

/// The words of the refusals are those that the program prints.
#[test]
fn words_of_the_report() {
    let report = text("crates/report/src/answer.rt");
    let mut rest = report.as_str();
    for refusal in Refusal::ALL {
        let at = rest.find(refusal.words());
        let at = at.unwrap_or_else(|| panic!("{refusal:?}: the report has other words"));
        rest = &rest[at + refusal.words().len()..];
        assert!(
            rest.starts_with('|') || rest.starts_with('"'),
            "{refusal:?}"
        );
    }
}
