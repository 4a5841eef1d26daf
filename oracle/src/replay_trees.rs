//! The fixed cases of whole readings: tokens, trees, errors and messages.

use std::collections::HashSet;

use crate::assertion::lexer::lex;
use crate::case::Case;
use crate::generate::Kind;
use crate::replay::{self, Bounds, around_enough, drawn, without_tables};

/// Here the tree and error tables of the longest rules are too short as well.
const BOUNDS: Bounds = Bounds {
    tree: 16_100,
    ..replay::BOUNDS
};

/// How many cases are drawn of each kind, and how long their rules may be.
const DRAWN: [(Kind, usize, usize); 6] = [
    (Kind::Grammar, 80, 150),
    (Kind::NearMiss, 100, 150),
    (Kind::TokenSoup, 80, 150),
    (Kind::Utf8, 50, 150),
    (Kind::Bytes, 30, 150),
    (Kind::Limits, 30, BOUNDS.rule),
];

/// Rules of which every beginning is a case, and each with a token left out, doubled or replaced.
const TAKEN_APART: [&str; 3] = [
    "analysis( 'a' ) .diagnostics.where(severity == 'b').count() >= 2",
    "components.features.none(has( 'a' ) or not kind == 'b')",
    "components.all((message . contains( 'a' )or connected) and connected )",
];

/// The corners of `parser.rs` in document 01, and other rules that it reads in its own way.
const CORNERS: &[&str] = &[
    // An empty pipeline.
    "",
    " ",
    "\n",
    "\x0c",
    " \x0c ",
    // Document 01's cases.
    "components.count() > 2",
    "components.features.all(connected)",
    "components.none(category == 'devce')",
    "components.where(category == 'bus').all(connected)",
    "components.where(has('probe')).count()",
    "components.features.any(has('probe'))",
    "components.features.where(not kind == 'Data-Port').count()",
    "components.all(connected) == 1",
    "components.any(connected)",
    "components.none(connected)",
    "components = 3",
    "components.where(has('a::b::c'))",
    "analysis('a').where(message.contains('')).count()",
    "components.count() >= 18446744073709551616",
    // The last two tokens that are not blank choose the comparison form.
    "components == 3",
    "components != 3",
    "components >= 3",
    "components > 3",
    "components <= 3",
    "components < 3",
    "components>3",
    "components > 3 ",
    " components \t>\n3\r\n",
    "components > 3 3",
    "components > 'a' > 3",
    "components x > 3",
    "components > x 3",
    "components > 3 > 3",
    "components > > 3",
    "components > 3 x",
    "components > 3.",
    "components > 3)",
    "components > 003",
    "components > 3ab",
    "components > 'a'",
    "components >",
    "components 3",
    "components , 3",
    "components = = 3",
    "> 3",
    ">3",
    "> 3 3",
    ">",
    "3",
    "3 >",
    "== 3",
    "'a' > 3",
    ". > 3",
    ".count() > 3",
    "analysis > 3",
    "analysis('a') > 3",
    "analysis('a' > 3",
    "components.x > 3",
    "components. > 3",
    "components.count > 3",
    "components.count( > 3",
    "components.where > 3",
    "components.where(connected > 3",
    "components.where(connected) > 3",
    "components.where(connected > 3)",
    "components.where(category == 3",
    "components.where(category == 3)",
    "components.where(category == 'a' == 3",
    "components.where(connected or category == 3",
    "components.where(not > 3",
    // The scan for `and` runs past an `or`, and into brackets it does not look.
    "components.where(connected or connected and connected)",
    "components.where(connected and connected or connected)",
    "components.where(connected or connected or connected and connected)",
    "components.where(connected or connected and connected or connected)",
    "components.where(connected and connected and connected)",
    "components.where(connected or connected or connected)",
    "components.where(connected or (connected and connected))",
    "components.where((connected or connected) and connected)",
    "components.where((connected and connected) or connected)",
    "components.where((connected or connected and connected) or connected)",
    "components.where(not connected or not connected and not connected)",
    "components.where(not (connected or connected) and connected)",
    "components.where(has('and') or connected)",
    "components.where(connected).all(connected and connected)",
    "components.where(connected.all(connected and connected)",
    "components.where connected or connected",
    "components.where(connected or connected and",
    // A keyword before any atom opens no BINARY_EXPR, one after it does.
    "components.where(or connected)",
    "components.where(and connected)",
    "components.where(and and connected)",
    "components.where(or or connected)",
    "components.where(or and connected)",
    "components.where(and or connected)",
    "components.where(connected and)",
    "components.where(connected or)",
    "components.where(connected and and connected)",
    "components.where(connected or or connected)",
    "components.where(connected and or connected)",
    "components.where(connected or and connected)",
    "components.where(connected and",
    "components.where(connected or",
    "components.where(x and connected)",
    "components.where(x or connected)",
    "components.where(not and connected)",
    "components.where(not or)",
    "components.where((and) or)",
    "components.where(and)",
    "components.where(or)",
    "components.where(and",
    "components.where(or",
    // Where blanks go.
    " components",
    "components ",
    " components ",
    "components .count()",
    "components. count()",
    "components.count ()",
    "components.count( )",
    "components.count() ",
    "components.count() \n",
    "components .features .count()",
    "  components  .  count  (  )  ",
    " analysis ( 'a' ) . diagnostics ",
    " analysis",
    "components.where( connected)",
    "components.where(connected )",
    "components.where(connected) ",
    "components.where( connected or  connected )",
    "components.where(connected or  connected and connected)",
    "components.where( connected  and  connected )",
    "components.where(  (  connected  )  )",
    "components.where( not  connected )",
    "components.where( not  ( connected ) )",
    "components.where(has ( 'a' ) )",
    "components.where(has( ))",
    "components.where(has( 3 ))",
    "components.where(category  ==  'a' )",
    "components.where(category ==  )",
    "components.where(category ==  3 )",
    "components.where( category )",
    "components.where(message  .  contains  (  'a'  )  )",
    "components.where(message  ==  'a')",
    "components.where(message.contains(  ))",
    "components.where(  )",
    "components.where(  ",
    "analysis(  )",
    "analysis(  ",
    "components x ",
    "components  x",
    // Form feeds and vertical tabs.
    "components \x0c.count()",
    "components\x0c.count()",
    "components\x0c .count()",
    "components.where(connected)\x0c.count()",
    "components.where(connected) \x0c.count()",
    "components.count()\x0c",
    "components.count() \x0c",
    "components.count()\x0c> 3",
    "components.count() \x0c> 3",
    "components.count() >\x0c3",
    "components.where(connected \x0cand connected)",
    "components.where(connected\x0cand connected)",
    "components.where(has('\x0b'))",
    "components.where(has('\x0c'))",
    "components.where(has(\x0b'a'))",
    "components\x0b",
    "\x0bcomponents",
    "components.\x0bcount()",
    // Form 1: every kind that `expect` may miss, before a token and at the end.
    "analysis",
    "analysis ",
    "analysis(",
    "analysis('a'",
    "analysis 'a'",
    "analysis(a",
    "analysis('a' %",
    "analysis()",
    "analysis 3",
    "analysis.",
    "analysis.count()",
    "analysis(.count()",
    "analysis('a'.count()",
    "analysis('a",
    "analysis('a')('b')",
    "analysis(analysis('a'))",
    "components.count",
    "components.count(",
    "components.count)",
    "components.count(3)",
    "components.count x",
    "components.count .count()",
    "components.count(.features",
    "components.where",
    "components.where(",
    "components.where)",
    "components.where connected)",
    "components.where(connected",
    "components.where(connected connected)",
    "components.where(connected]",
    "components.where(connected.count()",
    "components.where.count()",
    "components.where(has",
    "components.where(has(",
    "components.where(has('a'",
    "components.where(has('a')",
    "components.where(has)",
    "components.where(has 'a')",
    "components.where(has('a' 'b'))",
    "components.where(has(a))",
    "components.where(has(category))",
    "components.where(has(has('a')))",
    "components.where(has('a)",
    "components.where(category",
    "components.where(category ==",
    "components.where(category == 'a'",
    "components.where(category == 'a",
    "components.where(category)",
    "components.where(category 'a')",
    "components.where(category = 'a')",
    "components.where(category != 'a')",
    "components.where(category >= 'a')",
    "components.where(category == kind)",
    "components.where(category == ('a'))",
    "components.where(category == == 'a')",
    "components.where(category == not 'a')",
    "components.where((connected",
    "components.where((connected)",
    "components.where((connected x))",
    "components.where((connected,connected))",
    "components.where(message.contains",
    "components.where(message.contains(",
    "components.where(message.contains('a'",
    "components.where(message.contains)",
    "components.where(message.contains 'a')",
    "components.where(message.contains(3))",
    "components.where(message.contains('a' or connected)",
    // Form 2.
    "components.where(message.",
    "components.where(message. ",
    "components.where(message.)",
    "components.where(message.has('a'))",
    "components.where(message. x('a'))",
    "components.where(message.contain('a'))",
    "components.where(message.'contains'('a'))",
    "components.where(message.contains.contains('a'))",
    "components.where(message..contains('a'))",
    "components.where(message.3)",
    "components.where(message.and connected)",
    // Form 3.
    "components x",
    "components components",
    "components ,",
    "components)",
    "components (",
    "components 'a'",
    "components 'a",
    "components and connected",
    "components not",
    "components == 'a'",
    "components.count() x y z",
    "components.count())",
    "components.count()()",
    "components.features()",
    "components.features('a')",
    "components.diagnostics.features.count() 'a' . x",
    "components.where(connected))",
    "components\u{e9}",
    "components \u{20ac}\u{1f600}",
    // Form 4.
    "x",
    " x",
    "%",
    "Components",
    "component",
    "componentss",
    "Analysis('a')",
    "'components'",
    "features",
    "count()",
    "where(connected)",
    "connected",
    "not connected",
    "(components)",
    "( components )",
    "not components",
    ",components",
    "\u{feff}components",
    "\u{1f600}",
    "x.count()",
    " .count()",
    ".components",
    "'",
    "and",
    "or",
    "=",
    "!",
    // Form 5; a method that is not known takes the next token, and at the end nothing.
    ".",
    " .",
    ". ",
    "..",
    ". .",
    "...",
    "..........",
    "components.",
    "components. ",
    "components.  \n",
    "components..",
    "components..count()",
    "components. .count()",
    "components.x",
    "components. x",
    "components.x ",
    "components.x y",
    "components.x()",
    "components.x.count()",
    "components.(",
    "components.)",
    "components.()",
    "components.'where'(connected)",
    "components.3",
    "components.not",
    "components.and.or.not",
    "components.%",
    "components.\u{e9}",
    "components.Where(connected)",
    "components.wheres(connected)",
    "components.counts()",
    "components.Count()",
    "components.feature",
    "components.components",
    "components.has('a')",
    "components.connected",
    "components.all",
    "components.any(",
    "components.none(connected",
    "components.diagnostics.",
    "analysis('a').",
    "analysis('a'). x",
    // Form 6.
    "components.where()",
    "components.where(()",
    "components.where(())",
    "components.where((",
    "components.where(not",
    "components.where(not ",
    "components.where(not)",
    "components.where(not not)",
    "components.where(not not connected)",
    "components.where(x)",
    "components.where( x)",
    "components.where(%)",
    "components.where('a')",
    "components.where(3)",
    "components.where(.)",
    "components.where(,)",
    "components.where(==)",
    "components.where(== 'a')",
    "components.where(Connected)",
    "components.where(connect)",
    "components.where(contains('a'))",
    "components.where(components)",
    "components.where(analysis('a'))",
    "components.where(where(connected))",
    "components.where(Category == 'a')",
    "components.where('category' == 'a')",
    "components.where(name == 'a')",
    "components.where(\u{e9})",
    "components.where( \u{1f600} )",
    "components.where((x))",
    "components.where(not x)",
    "components.where(connected or x)",
    "components.where(connected and x)",
    // Atoms.
    "components.all(kind == 'a')",
    "components.any(direction == 'in out')",
    "analysis('a').none(severity == 'error')",
    "analysis('a').all(message == 'a')",
    "components.where(message",
    "components.where(message)",
    "components.where(message 'a')",
    "components.where(message contains('a'))",
    "components.where(message.contains('a').count())",
    "components.where(category.contains('a'))",
    "components.where(connected())",
    "components.where(not(connected))",
    "components.where(not has('a'))",
    "components.where(not message.contains('a'))",
    "components.where((((connected))))",
    "components.where((not (not connected)))",
    "components.where((connected)or(connected)and(connected))",
    "components.where(has('a')and has('b'))",
    "components.where(category=='a'or kind=='b')",
    "components.where(connectedand connected)",
    "components.where(connected andconnected)",
    "components.where(notconnected)",
    "components.where(has('a')).where(has('b')).features.count() == 2",
    "analysis('a').diagnostics.where(severity == 'error').count() == 0",
    // Messages that carry line feeds, quotes and long characters of the token found.
    "'a\nb'",
    "components 'a\nb'",
    "components.'a\nb'",
    "components.where('a\nb')",
    "components.where(message.'a\nb')",
    "components.where(category 'a\nb')",
    "analysis(\n'a\nb\n'",
    "analysis 'a\n\n",
    "components ''",
    "components '",
    "components.''",
    "components.where('')",
    "components.where(has(\u{20ac}))",
    "components.where(category == \u{1f600}",
    "components.where(message.\u{10ffff}",
    "components.\u{7ff}",
    "analysis('\u{e9}\u{20ac}\u{1f600}'x",
    "components \0",
    "\0",
];

/// The corners, rules taken apart, the limits, and cases drawn of each kind; each case once.
pub fn cases() -> Vec<Case> {
    let mut cases: Vec<Case> = CORNERS
        .iter()
        .map(|text| Case::new(text.as_bytes()))
        .collect();
    TAKEN_APART
        .iter()
        .for_each(|rule| take_apart(rule, &mut cases));
    length_limits(&mut cases);
    opener_limits(&mut cases);
    table_limits(&mut cases);
    for (kind, count, longest) in DRAWN {
        let short = drawn(kind, &BOUNDS).filter(|case| case.rule.len() <= longest);
        cases.extend(short.take(count));
    }
    let mut seen = HashSet::new();
    cases.retain(|case| seen.insert(case.clone()));
    cases
}

/// Every beginning of a rule, token by token, and the rule with each token left out, doubled and
/// replaced by one that fits nowhere.
fn take_apart(rule: &str, cases: &mut Vec<Case>) {
    let tokens: Vec<String> = lex(rule).into_iter().map(|(_, text)| text).collect();
    for at in 0..=tokens.len() {
        let (before, from) = tokens.split_at(at);
        cases.push(Case::new(before.concat().as_bytes()));
        let Some((token, after)) = from.split_first() else {
            return;
        };
        for middle in [String::new(), token.repeat(2), String::from("%")] {
            let text = before.concat() + &middle + &after.concat();
            cases.push(Case::new(text.as_bytes()));
        }
    }
}

/// Rules around 500 bytes: with few tokens and with many, read and refused.
fn length_limits(cases: &mut Vec<Case>) {
    let padded = |before: &str, filling: &str, after: &str, length: usize| {
        let room = length - before.len() - after.len();
        let mut rule = before.to_string() + &filling.repeat(room / filling.len());
        rule += &" ".repeat(room % filling.len());
        (rule + after).into_bytes()
    };
    for length in [499, 500, 501, BOUNDS.rule] {
        cases.push(BOUNDS.case(&padded("", " ", "", length)));
        cases.push(BOUNDS.case(&padded("", "a", "", length)));
        cases.push(BOUNDS.case(&padded("components.where(has('", "a", "')) > 3", length)));
        cases.push(BOUNDS.case(&padded("components", " ", "", length)));
        cases.push(BOUNDS.case(&padded("components.where('", "\u{1f600}", "", length)));
        cases.push(BOUNDS.case(&padded("components", ".features", "", length)));
    }
    for length in [499, 500] {
        let conjunction = " and connected";
        cases.push(BOUNDS.case(&padded(
            "components.all(connected",
            conjunction,
            ")",
            length,
        )));
        let disjunction = " or connected and connected";
        cases.push(BOUNDS.case(&padded(
            "components.all(connected",
            disjunction,
            ")",
            length,
        )));
    }
    // The most rows and errors.
    cases.push(BOUNDS.case(&[b'.'; 500]));
    let mut broken = vec![b'a'; 500];
    broken[499] = 0xc3;
    cases.push(BOUNDS.case(&broken));
}

/// Rules with 64 and 65 openers: nests of brackets and `not`, closed and not, and openers in a row.
fn opener_limits(cases: &mut Vec<Case>) {
    for count in [64, 65] {
        for opener in ["(", "not ", "nots(", "'('("] {
            cases.push(Case::new(opener.repeat(count).as_bytes()));
        }
        cases.push(nest("(", count, "connected", ")"));
        cases.push(nest("(", count, "connected", ""));
        cases.push(nest("( ", count, "", " )"));
        cases.push(nest("not ", count, "connected", ""));
        cases.push(nest("not ", count, "", ""));
        cases.push(nest("(connected or ", count.min(31), "connected", ")"));
        let mixed = "components.any(".to_string() + &"not(".repeat(count / 2) + "x";
        cases.push(Case::new(mixed.as_bytes()));
    }
    for depth in [1, 2, 3, 5, 8, 13, 21, 34] {
        cases.push(nest("(", depth, "connected", ")"));
        cases.push(nest("not(", depth.min(31), "has('a')", ")"));
        cases.push(nest("(connected and ", depth.min(20), "connected", ")"));
    }
}

/// A predicate with so many openers, the call's own among them.
fn nest(opener: &str, count: usize, inner: &str, closer: &str) -> Case {
    let openers = opener.repeat(count - 1);
    let closers = closer.repeat(count - 1);
    Case::new(format!("components.where({openers}{inner}{closers})").as_bytes())
}

/// Tables around just enough; refusals that meet.
fn table_limits(cases: &mut Vec<Case>) {
    let long = format!("components.where(has('{}'))", "a".repeat(475));
    for rule in ["", "a", "components.count() > 2", long.as_str()] {
        around_enough(rule.as_bytes(), cases);
    }
    let many = "(".repeat(65);
    for rule in ["", "a", "\u{e9}", many.as_str()] {
        cases.push(without_tables(rule.as_bytes()));
    }
    cases.push(without_tables(b"\xc3"));
    cases.push(without_tables(&[b'a'; 501]));
    let mut short = Case::new(many.as_bytes());
    short.errors -= 1;
    cases.push(short);
    cases.push(Case::new(&[many.as_bytes(), b"\x80"].concat()));
}

#[cfg(test)]
mod tests {
    use super::*;
    use crate::reading::{Reading, read};

    fn readings() -> Vec<Reading> {
        let cases = cases();
        cases.iter().filter_map(|case| read(case).ok()).collect()
    }

    #[test]
    fn every_case_fits() {
        let cases = cases();
        assert!(cases.iter().all(|case| BOUNDS.hold(case)));
        let (stdin, stdout) = replay::texts(&cases).unwrap();
        assert!(stdin.len() < 150_000, "{}", stdin.len());
        assert!(stdout.len() < 1_000_000, "{}", stdout.len());
    }

    /// Each form and each kind that may be missed, before a token and at the end of the text; only
    /// what is left over is always a token, and `expect` never misses a dot.
    #[test]
    fn every_error_arises() {
        let mut found = HashSet::new();
        for reading in readings() {
            for [form, expected, first, end] in reading.errors {
                found.insert((form, expected, first == end));
            }
        }
        let mut wanted = HashSet::from([(3, 0, false)]);
        for at_end in [false, true] {
            wanted.extend([2, 4, 5, 6].map(|kind| (1, kind, at_end)));
            wanted.extend([2, 4, 5, 6].map(|form| (form, 0, at_end)));
        }
        assert_eq!(found, wanted);
    }

    #[test]
    fn every_kind_and_refusal_arises() {
        let trees = readings().into_iter().flat_map(|reading| reading.tree);
        let kinds: HashSet<u32> = trees.map(|row| row[0]).collect();
        assert_eq!(kinds, (0..=30).collect());
        let refusals: HashSet<u32> = cases().iter().filter_map(|case| read(case).err()).collect();
        assert_eq!(refusals, (1..=4).collect());
    }

    /// Messages carry line feeds; rules of 499 and 500 bytes and with 64 openers are read.
    #[test]
    fn the_limits_are_read() {
        let readings = readings();
        let mut messages = readings.iter().flat_map(Reading::messages);
        assert!(messages.any(|message| message.contains('\n')));
        let openers = |reading: &Reading| {
            let rows = reading.tokens.iter();
            rows.filter(|row| matches!(row[0], 4 | 16)).count()
        };
        assert!(readings.iter().any(|reading| openers(reading) == 64));
        for n in [499, 500] {
            assert!(readings.iter().any(|reading| reading.tree[0][3] == n));
        }
    }
}
