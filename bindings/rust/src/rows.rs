//! The rows of the tables, by name.

use crate::library;

/// Numbers in a row of the token table.
pub const TOKEN_ROW: usize = 3;
/// Numbers in a row of the tree table.
pub const TREE_ROW: usize = 4;
/// Numbers in a row of the error table.
pub const ERROR_ROW: usize = 4;
/// Numbers in a row of the collection table.
pub const COLLECTION_ROW: usize = 2;

/// A member of a collection, by its index in the image.
#[derive(Debug, Clone, Copy, PartialEq, Eq, Hash)]
pub enum Member {
    Component(u32),
    /// A feature, with the component that has it. The feature's index is among all features of the
    /// image.
    Feature {
        component: u32,
        feature: u32,
    },
    Diagnostic(u32),
}

/// A token: its kind, one of [`kind`], and its bytes in the rule, from `first` to before `end`.
#[derive(Debug, Clone, Copy, PartialEq, Eq, Hash)]
pub struct Token {
    pub kind: u32,
    pub first: u32,
    pub end: u32,
}

impl Token {
    pub(crate) fn of_row([kind, first, end]: [u32; TOKEN_ROW]) -> Self {
        Self { kind, first, end }
    }
}

/// A node or a token of a rule's tree: its kind, how many nodes it stands in, and its bytes in the
/// rule.
#[derive(Debug, Clone, Copy, PartialEq, Eq, Hash)]
pub struct TreeRow {
    pub kind: u32,
    pub level: u32,
    pub first: u32,
    pub end: u32,
}

impl TreeRow {
    pub(crate) fn of_row([kind, level, first, end]: [u32; TREE_ROW]) -> Self {
        Self {
            kind,
            level,
            first,
            end,
        }
    }
}

/// A parse error: its form, one of [`form`]; of form [`form::EXPECT`] the kind of token that was
/// expected, else 0; and the bytes of the token that was found, or twice the rule's length at the
/// end of the rule.
#[derive(Debug, Clone, Copy, PartialEq, Eq, Hash)]
pub struct ParseError {
    pub form: u32,
    pub expected: u32,
    pub first: u32,
    pub end: u32,
}

impl ParseError {
    pub(crate) fn of_row([form, expected, first, end]: [u32; ERROR_ROW]) -> Self {
        Self {
            form,
            expected,
            first,
            end,
        }
    }

    /// The message about it, for the rule in which it was found.
    pub fn message(self, rule: &[u8]) -> String {
        String::from_utf8_lossy(&library::message(rule, self)).into_owned()
    }
}

/// The first so many rows of a table, as far as it goes.
pub(crate) fn rows<const N: usize>(
    table: &[u32],
    count: usize,
) -> impl Iterator<Item = [u32; N]> + '_ {
    table.as_chunks().0.iter().copied().take(count)
}

/// Forms of parse errors: what was expected.
pub mod form {
    /// A token of the kind that the error names.
    pub const EXPECT: u32 = 1;
    /// The word `contains`.
    pub const EXPECT_IDENT: u32 = 2;
    /// The end of the rule.
    pub const LEFT_OVER: u32 = 3;
    /// `components` or `analysis`.
    pub const SOURCE: u32 = 4;
    /// A call.
    pub const METHOD: u32 = 5;
    /// An atom of a predicate.
    pub const ATOM: u32 = 6;
}

/// Kinds of tokens, up to [`kind::ERROR`], and of nodes.
pub mod kind {
    pub const WHITESPACE: u32 = 0;
    pub const IDENT: u32 = 1;
    pub const STRING_LIT: u32 = 2;
    pub const DOT: u32 = 3;
    pub const L_PAREN: u32 = 4;
    pub const R_PAREN: u32 = 5;
    pub const EQ_EQ: u32 = 6;
    pub const NEQ: u32 = 7;
    pub const GE: u32 = 8;
    pub const GT: u32 = 9;
    pub const LE: u32 = 10;
    pub const LT: u32 = 11;
    pub const INT_LIT: u32 = 12;
    pub const COMMA: u32 = 13;
    pub const AND_KW: u32 = 14;
    pub const OR_KW: u32 = 15;
    pub const NOT_KW: u32 = 16;
    pub const ERROR: u32 = 17;
    pub const ROOT: u32 = 18;
    pub const PIPELINE_EXPR: u32 = 19;
    pub const DOT_CALL: u32 = 20;
    pub const CALL_ARGS: u32 = 21;
    pub const BINARY_EXPR: u32 = 22;
    pub const UNARY_EXPR: u32 = 23;
    pub const COMPARE_EXPR: u32 = 24;
    pub const CALL_EXPR: u32 = 25;
    pub const PAREN_EXPR: u32 = 26;
    pub const LITERAL: u32 = 27;
    pub const IDENT_EXPR: u32 = 28;
    pub const CONTAINS_EXPR: u32 = 29;
    pub const COUNT_COMPARE_EXPR: u32 = 30;
}
