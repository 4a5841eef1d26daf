//! Rules by document 01's grammar, token by token.

use crate::pieces::Pieces;
use crate::random::Random;

const FIELDS: [&str; 5] = ["category", "kind", "direction", "severity", "message"];
pub const OPERATORS: [&str; 6] = [">=", ">", "<=", "<", "==", "!="];
pub const INTEGERS: [&str; 6] = [
    "0",
    "2",
    "42",
    "007",
    "18446744073709551615",
    "18446744073709551616",
];
pub const STRINGS: [&str; 20] = [
    "''",
    "'device'",
    "'devce'",
    "'Data-Port'",
    "'in out'",
    "'error'",
    "'probe'",
    "'a::b'",
    "'a::b::c'",
    "' '",
    "'('",
    "'not'",
    "'or and'",
    "'%='",
    "'\u{b}'",
    "'\u{c}'",
    "'\n'",
    "'é'",
    "'€'",
    "'😀'",
];

pub struct Grammar<'a> {
    pub random: &'a mut Random,
    pub pieces: &'a mut Pieces,
}

impl Grammar<'_> {
    /// A pipeline, or a pipeline, an operator and an integer.
    pub fn rule(&mut self) {
        self.source();
        while !self.random.once_in(3) {
            self.call();
        }
        if self.random.once_in(3) {
            self.one_of(&OPERATORS);
            self.one_of(&INTEGERS);
        }
    }

    /// Any token of the grammar.
    pub fn token(&mut self) {
        match self.random.below(8) {
            0 => self.one_of(&["components", "analysis", "has", "connected", "contains"]),
            1 => self.one_of(&["where", "all", "any", "none", "count", "features"]),
            2 => self.one_of(&FIELDS),
            3 => self.one_of(&["and", "or", "not"]),
            4 => self.one_of(&OPERATORS),
            5 => self.one_of(&INTEGERS),
            6 => self.one_of(&STRINGS),
            _ => self.one_of(&["(", ")", ".", ","]),
        }
    }

    fn source(&mut self) {
        if self.random.once_in(4) {
            self.call_with_string("analysis");
        } else {
            self.pieces.push("components");
        }
    }

    fn call(&mut self) {
        self.pieces.push(".");
        match self.random.below(6) {
            0 => self.push(&["count", "(", ")"]),
            1 => self.push(&["features"]),
            2 => self.push(&["diagnostics"]),
            _ => {
                self.one_of(&["where", "all", "any", "none"]);
                self.in_brackets(3);
            }
        }
    }

    fn in_brackets(&mut self, depth: usize) {
        self.pieces.push("(");
        self.or_group(depth);
        self.pieces.push(")");
    }

    fn or_group(&mut self, depth: usize) {
        self.and_group(depth);
        while self.random.once_in(4) {
            self.pieces.push("or");
            self.and_group(depth);
        }
    }

    fn and_group(&mut self, depth: usize) {
        self.atom(depth);
        while self.random.once_in(4) {
            self.pieces.push("and");
            self.atom(depth);
        }
    }

    /// An atom with at most `depth` levels of brackets and `not` in it.
    fn atom(&mut self, depth: usize) {
        match self.random.below(if depth == 0 { 4 } else { 6 }) {
            0 => self.call_with_string("has"),
            1 => self.pieces.push("connected"),
            2 => {
                self.push(&["message", "."]);
                self.call_with_string("contains");
            }
            3 => {
                self.one_of(&FIELDS);
                self.pieces.push("==");
                self.one_of(&STRINGS);
            }
            4 => self.in_brackets(depth - 1),
            _ => {
                self.pieces.push("not");
                self.atom(depth - 1);
            }
        }
    }

    fn call_with_string(&mut self, name: &str) {
        self.push(&[name, "("]);
        self.one_of(&STRINGS);
        self.pieces.push(")");
    }

    pub fn push(&mut self, tokens: &[&str]) {
        for token in tokens {
            self.pieces.push(token);
        }
    }

    fn one_of(&mut self, tokens: &[&str]) {
        self.pieces.push(self.random.pick(tokens));
    }
}
