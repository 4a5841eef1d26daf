//! The fixed cases of tokens.

use std::collections::HashSet;

use crate::case::Case;
use crate::generate::Kind;
use crate::replay::{BOUNDS, around_enough, drawn, without_tables};

/// How many cases are drawn of each kind, and how long their rules may be.
const DRAWN: [(Kind, usize, usize); 6] = [
    (Kind::Grammar, 170, 150),
    (Kind::NearMiss, 170, 150),
    (Kind::TokenSoup, 170, 150),
    (Kind::Utf8, 170, 150),
    (Kind::Bytes, 170, 150),
    (Kind::Limits, 100, BOUNDS.rule),
];

/// The corners of `lexer.rs` in document 01, and texts whose tokens its parser treats apart.
const CORNERS: &[&str] = &[
    "",
    // A form feed belongs to a blank run that it does not begin.
    "\x0c",
    " \x0c",
    "\x0c ",
    " \x0c ",
    "\x0c\x0c",
    "\t\x0c\r\x0c\n",
    "a\x0cb",
    "a \x0cb",
    "a\x0c b",
    "components \x0c.count()",
    "components\x0c.count()",
    "components.where(connected)\x0c.count()",
    "components.where(connected) \x0c.count()",
    // A vertical tab is an error outside quotes.
    "\x0b",
    " \x0b ",
    "\x0b\x0b",
    "a\x0bb",
    "'\x0b'",
    "'\x0b",
    "'\x0c'",
    // `=` and `!` need an `=` after them.
    "=",
    "!",
    "= =",
    "! =",
    "==",
    "!=",
    "===",
    "====",
    "!==",
    "!!=",
    "=!=",
    "=!",
    "<=",
    ">=",
    "<==",
    ">==",
    "<>",
    "><=",
    "=>",
    "=<",
    "= 'a'",
    "=\u{e9}",
    "components = 3",
    // Any other error is one whole character.
    "%",
    "-",
    "\"",
    ":",
    "::",
    "a-b",
    "a::b",
    "\0",
    "\u{7f}",
    "\u{80}",
    "\u{85}",
    "\u{a0}",
    "\u{e9}",
    "\u{7ff}",
    "\u{800}",
    "\u{2028}",
    "\u{20ac}",
    "\u{d7ff}",
    "\u{e000}",
    "\u{feff}components",
    "\u{ffff}",
    "\u{10000}",
    "\u{1f600}",
    "\u{10ffff}",
    "\u{e9}\u{20ac}\u{1f600}",
    "a\u{e9}b",
    "3\u{660}",
    " \u{3000} ",
    // An unclosed quote reaches the end.
    "'",
    "''",
    "'''",
    "''''",
    "'a",
    "'a'b",
    "'a'b'",
    "a'b",
    "' ",
    "'\n'",
    "'\u{e9}",
    "'\u{1f600}'",
    "'\u{1f600}",
    "\u{1f600}'",
    "'components.count() > 2",
    "components.where(has('probe).count()",
    // Digits, then letters.
    "3ab",
    "3_",
    "3.4",
    "ab3",
    "_3",
    "007",
    "0x1f",
    "18446744073709551615",
    "18446744073709551616",
    // Keywords are whole words as typed.
    "and",
    "or",
    "not",
    "And",
    "OR",
    "Not",
    "an",
    "no",
    "o",
    "ands",
    "orc",
    "nots",
    "not_",
    "not1",
    "_not",
    "1not",
    "notnot",
    "not not",
    "not(",
    "or'and'not",
    "and.or,not",
    // Rules that the parser reads in its own way.
    ".",
    "..",
    "> 3",
    ">3",
    "components x > 3",
    "components.where(category == 3",
    "components.where(or connected)",
    "components.where(and and connected)",
    "components.where(connected or connected and connected)",
    "components.where(connected or connected or connected and connected)",
    "components.where( connected or  connected )",
    "  components  .  count (  )  ",
    " analysis ( 'name' ) . diagnostics",
    "analysis( )",
    "components.nothing",
    "components.  ",
    "components.where(message.contains('')).count()",
    "components.where(message. contains ( 'a\u{b}b' ) )",
    // Document 01's cases.
    "components.count() > 2",
    "components.features.all(connected)",
    "components.none(category == 'devce')",
    "components.where(category == 'bus').all(connected)",
    "components.where(has('probe')).count()",
    "components.features.any(has('probe'))",
    "components.features.where(not kind == 'Data-Port').count()",
    "components.all(connected) == 1",
    "components.any(connected)",
    "components.none(connected)",
    "components.where(has('a::b::c'))",
    "components.count() >= 18446744073709551616",
];

/// The corners, every single byte, the limits, and cases drawn of each kind; each case once.
pub fn cases() -> Vec<Case> {
    let mut cases = Vec::new();
    cases.extend(CORNERS.iter().map(|text| Case::new(text.as_bytes())));
    cases.extend((0..=0xff).map(|byte| Case::new(&[byte])));
    length_limits(&mut cases);
    opener_limits(&mut cases);
    table_limits(&mut cases);
    for (kind, count, longest) in DRAWN {
        cases.extend(
            drawn(kind, &BOUNDS)
                .filter(|case| case.rule.len() <= longest)
                .take(count),
        );
    }
    let mut seen = HashSet::new();
    cases.retain(|case| seen.insert(case.clone()));
    cases
}

/// Texts around 500 bytes, of which some end in the first byte of a character.
fn length_limits(cases: &mut Vec<Case>) {
    for length in [499, 500, 501, BOUNDS.rule] {
        for filling in ["a", "'", "%", "\u{e9}", "\u{20ac}", "\u{1f600}"] {
            let mut rule = filling.repeat(length / filling.len()).into_bytes();
            rule.resize(length, b' ');
            cases.push(BOUNDS.case(&rule));
        }
        let mut rule = vec![b'.'; length];
        rule[length - 1] = 0xc3;
        cases.push(BOUNDS.case(&rule));
    }
}

/// Texts with 63 to 66 openers, among texts that only look like them; 65 with another refusal.
fn opener_limits(cases: &mut Vec<Case>) {
    for count in 63..=66 {
        for opener in ["(", "not ", "not\t", "'('(", "nots(", "(not_ ", "or not "] {
            cases.push(Case::new(opener.repeat(count).as_bytes()));
        }
        let mixed = "not(".repeat(count / 2) + &"(".repeat(count % 2);
        cases.push(Case::new(mixed.as_bytes()));
    }
    let many = "not ".repeat(65);
    cases.push(Case::new(&[many.as_bytes(), b"\x80"].concat()));
    cases.push(Case::new("not(".repeat(125).as_bytes()));
    cases.push(Case::new("not(".repeat(126).as_bytes()));
    let mut short = Case::new(many.as_bytes());
    short.tokens -= 1;
    cases.push(short);
}

/// Each table by itself around just enough, and empty; then no tables at all.
fn table_limits(cases: &mut Vec<Case>) {
    let long = "ab ".repeat(166) + "cd";
    for rule in ["", "a", "components.count() > 2", long.as_str()] {
        around_enough(rule.as_bytes(), cases);
    }
    for rule in ["", "a", "\u{e9}", "not"] {
        cases.push(without_tables(rule.as_bytes()));
    }
    cases.push(without_tables(b"\xc3"));
}

#[cfg(test)]
mod tests {
    use super::*;

    #[test]
    fn every_case_fits() {
        assert!(cases().iter().all(|case| BOUNDS.hold(case)));
    }
}
