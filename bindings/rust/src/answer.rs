//! What running a rule comes to: the eight numbers of an answer, by name.

use std::fmt;

use crate::library::ANSWER;
use crate::rows::{self, COLLECTION_ROW, Member, ParseError, Token, TreeRow};

/// What running a rule in lent tables gives.
#[derive(Debug, Clone, Copy, PartialEq, Eq)]
pub struct Answer {
    pub outcome: Outcome,
    pub verdict: Verdict,
    /// How many rows stand at the front of the tables; none where the rule is refused by 1 to 8.
    pub rows: Option<RowCounts>,
}

impl Answer {
    /// Of the numbers that `spar_run` gives.
    pub(crate) fn of(numbers: [u32; ANSWER]) -> Self {
        let [outcome, amount, warned, verdict, ..] = numbers;
        Self {
            outcome: Outcome::of(outcome, amount, warned == 1),
            verdict: Verdict::of_number(verdict),
            rows: RowCounts::of(numbers),
        }
    }
}

/// The rows of a reading, or the refusal, of the numbers that `spar_read` gives.
pub(crate) fn read_rows(numbers: [u32; ANSWER]) -> Result<RowCounts, Refusal> {
    RowCounts::of(numbers).ok_or_else(|| Refusal::of_number(numbers[1]))
}

/// What a rule comes to. Of a collection it has the number of members, which stand in the
/// collection table.
#[derive(Debug, Clone, Copy, PartialEq, Eq)]
pub enum Outcome {
    /// Nothing was decided.
    Refused(Refusal),
    Components(usize),
    Features(usize),
    Diagnostics(usize),
    /// Warned where it is said of an empty collection, so that no member was looked at.
    Boolean {
        holds: bool,
        warned: bool,
    },
    Count(usize),
}

impl Outcome {
    fn of(number: u32, amount: u32, warned: bool) -> Self {
        let members = amount as usize;
        match number {
            0 => Outcome::Refused(Refusal::of_number(amount)),
            1 => Outcome::Components(members),
            2 => Outcome::Features(members),
            3 => Outcome::Diagnostics(members),
            4 => Outcome::Boolean {
                holds: amount == 1,
                warned,
            },
            5 => Outcome::Count(members),
            _ => unreachable!("`spar_run` gives no other outcome"),
        }
    }

    /// The members of a collection, from the table that was lent for it; of anything else none.
    pub fn members(self, collection: &[u32]) -> impl Iterator<Item = Member> + '_ {
        let (count, member): (_, fn([u32; COLLECTION_ROW]) -> Member) = match self {
            Outcome::Components(count) => (count, |[component, _]| Member::Component(component)),
            Outcome::Features(count) => (count, |[component, feature]| Member::Feature {
                component,
                feature,
            }),
            Outcome::Diagnostics(count) => {
                (count, |[diagnostic, _]| Member::Diagnostic(diagnostic))
            }
            _ => (0, |[component, _]| Member::Component(component)),
        };
        rows::rows(collection, count).map(member)
    }
}

/// In the words of the program `rule`.
impl fmt::Display for Outcome {
    fn fmt(&self, f: &mut fmt::Formatter<'_>) -> fmt::Result {
        match *self {
            Outcome::Refused(refusal) => write!(f, "{refusal}"),
            Outcome::Components(count) => counted(f, count, "component"),
            Outcome::Features(count) => counted(f, count, "feature"),
            Outcome::Diagnostics(count) => counted(f, count, "diagnostic"),
            Outcome::Boolean { holds, warned } => {
                let empty = ", of an empty collection: no member was there to be looked at";
                write!(f, "{holds}{}", if warned { empty } else { "" })
            }
            Outcome::Count(count) => write!(f, "count: {count}"),
        }
    }
}

/// A number of things, with an `s` unless there is one.
fn counted(f: &mut fmt::Formatter<'_>, count: usize, thing: &str) -> fmt::Result {
    write!(f, "{count} {thing}{}", if count == 1 { "" } else { "s" })
}

/// What an outcome says of the board.
#[derive(Debug, Clone, Copy, PartialEq, Eq)]
pub enum Verdict {
    /// The rule is true of the board; the only verdict by which a board may be released.
    Pass,
    /// The rule is false of the board.
    Fail,
    /// Nothing was decided.
    Refused,
    /// The rule gives a count or members, neither true nor false.
    Open,
}

impl Verdict {
    fn of_number(number: u32) -> Self {
        match number {
            0 => Verdict::Pass,
            1 => Verdict::Fail,
            2 => Verdict::Refused,
            3 => Verdict::Open,
            _ => unreachable!("`spar_run` gives no other verdict"),
        }
    }

    /// Its word.
    pub fn word(self) -> &'static str {
        match self {
            Verdict::Pass => "pass",
            Verdict::Fail => "fail",
            Verdict::Refused => "refused",
            Verdict::Open => "open",
        }
    }
}

impl fmt::Display for Verdict {
    fn fmt(&self, f: &mut fmt::Formatter<'_>) -> fmt::Result {
        f.write_str(self.word())
    }
}

/// Why nothing was decided, in the order in which it is checked: the first that holds is given.
#[derive(Debug, Clone, Copy, PartialEq, Eq, PartialOrd, Ord, Hash)]
pub enum Refusal {
    RuleTooLong = 1,
    RuleNotUtf8,
    TableTooShort,
    TooManyOpeners,
    ImageBadSections,
    ImageBadStrings,
    ImageBadRecords,
    CollectionTooShort,
    ParseErrors,
    WhereOnNoCollection,
    QuantifierOnNoCollection,
    CountOnNoCollection,
    FeaturesOnNoComponents,
    DiagnosticsOnNoDiagnostics,
    ComparisonNotCountable,
    IntegerTooLarge,
}

impl Refusal {
    /// All of them, by their numbers.
    pub const ALL: [Refusal; 16] = [
        Refusal::RuleTooLong,
        Refusal::RuleNotUtf8,
        Refusal::TableTooShort,
        Refusal::TooManyOpeners,
        Refusal::ImageBadSections,
        Refusal::ImageBadStrings,
        Refusal::ImageBadRecords,
        Refusal::CollectionTooShort,
        Refusal::ParseErrors,
        Refusal::WhereOnNoCollection,
        Refusal::QuantifierOnNoCollection,
        Refusal::CountOnNoCollection,
        Refusal::FeaturesOnNoComponents,
        Refusal::DiagnosticsOnNoDiagnostics,
        Refusal::ComparisonNotCountable,
        Refusal::IntegerTooLarge,
    ];

    pub(crate) fn of_number(number: u32) -> Self {
        match Self::ALL.get((number as usize).wrapping_sub(1)) {
            Some(&refusal) => refusal,
            None => unreachable!("the library gives no other refusal"),
        }
    }

    /// Its number, from 1 to 16.
    pub fn number(self) -> u32 {
        self as u32
    }

    /// Why, in the words of the program `rule`.
    pub fn words(self) -> &'static str {
        match self {
            Refusal::RuleTooLong => "the rule is longer than 500 bytes",
            Refusal::RuleNotUtf8 => "the rule is not UTF-8 text",
            Refusal::TableTooShort => {
                "the table for tokens, tree or errors has too few rows for the rule"
            }
            Refusal::TooManyOpeners => "more than 64 tokens of the rule are '(' or 'not'",
            Refusal::ImageBadSections => {
                "the board file is not an image: its length or the list of its sections is wrong"
            }
            Refusal::ImageBadStrings => {
                "a string of the board file is out of place or is not UTF-8 text"
            }
            Refusal::ImageBadRecords => "a record of the board file has a number outside its range",
            Refusal::CollectionTooShort => "the table for members has too few rows for the board",
            Refusal::ParseErrors => "the rule has parse errors",
            Refusal::WhereOnNoCollection => "'where' follows something that is not a collection",
            Refusal::QuantifierOnNoCollection => {
                "'all', 'any' or 'none' follows something that is not a collection"
            }
            Refusal::CountOnNoCollection => "'count' follows something that is not a collection",
            Refusal::FeaturesOnNoComponents => "'features' follows something other than components",
            Refusal::DiagnosticsOnNoDiagnostics => {
                "'diagnostics' follows something other than diagnostics"
            }
            Refusal::ComparisonNotCountable => {
                "the left side of the comparison is neither a count nor a collection"
            }
            Refusal::IntegerTooLarge => "the integer is above 18446744073709551615",
        }
    }
}

/// Its number, and why.
impl fmt::Display for Refusal {
    fn fmt(&self, f: &mut fmt::Formatter<'_>) -> fmt::Result {
        write!(f, "refusal {}: {}", self.number(), self.words())
    }
}

impl std::error::Error for Refusal {}

/// How many rows of a reading stand at the front of each table.
#[derive(Debug, Clone, Copy, PartialEq, Eq)]
pub struct RowCounts {
    pub tokens: usize,
    pub tree: usize,
    pub errors: usize,
}

impl RowCounts {
    /// None where the answer has no numbers of rows.
    fn of(numbers: [u32; ANSWER]) -> Option<Self> {
        let [_, _, _, _, given, tokens, tree, errors] = numbers.map(|number| number as usize);
        (given == 1).then_some(Self {
            tokens,
            tree,
            errors,
        })
    }

    /// The tokens, from the table that was lent for them.
    pub fn tokens(self, table: &[u32]) -> impl Iterator<Item = Token> + '_ {
        rows::rows(table, self.tokens).map(Token::of_row)
    }

    /// The tree's nodes and tokens in preorder, from the table that was lent for them.
    pub fn tree(self, table: &[u32]) -> impl Iterator<Item = TreeRow> + '_ {
        rows::rows(table, self.tree).map(TreeRow::of_row)
    }

    /// The parse errors, from the table that was lent for them.
    pub fn errors(self, table: &[u32]) -> impl Iterator<Item = ParseError> + '_ {
        rows::rows(table, self.errors).map(ParseError::of_row)
    }
}
