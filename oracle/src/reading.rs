//! What the Rust makes of a rule, as document 01's rows and refusals.

use rowan::Element;

use crate::assertion::lexer::lex;
use crate::assertion::syntax::{ExprSyntaxKind, SyntaxNode};
use crate::assertion::{parser, placed_parser};
use crate::case::{Case, ERROR_ROW, TOKEN_ROW, TREE_ROW};
use crate::places::{self, Place};

/// A token as `lex` gives it.
type Token = (ExprSyntaxKind, String);

/// The tokens, tree and errors of a rule, and the messages of the errors.
pub struct Reading {
    /// Kind, first byte, end byte.
    pub tokens: Vec<[u32; TOKEN_ROW]>,
    /// In preorder, nodes and tokens: kind, level, first byte, end byte.
    pub tree: Vec<[u32; TREE_ROW]>,
    /// Form, expected kind, first and end byte of the token found.
    pub errors: Vec<[u32; ERROR_ROW]>,
    parsed: parser::ParseResult,
}

impl Reading {
    /// The message of each error.
    pub fn messages(&self) -> &[String] {
        self.parsed.errors()
    }

    /// The tree's root, as `eval_node` takes it.
    pub fn root(&self) -> SyntaxNode {
        self.parsed.syntax_node()
    }

    /// The rows of the three tables, number after number.
    pub fn rows(&self) -> [&[u32]; 3] {
        [
            self.tokens.as_flattened(),
            self.tree.as_flattened(),
            self.errors.as_flattened(),
        ]
    }
}

/// Reads a case's rule with `lex` and `parse_expr`, or gives the first of refusals 1 to 4 that holds.
pub fn read(case: &Case) -> Result<Reading, u32> {
    let n = case.rule.len();
    if n > 500 {
        return Err(1);
    }
    let Ok(rule) = str::from_utf8(&case.rule) else {
        return Err(2);
    };
    let rows = 8 * n + 8;
    if case.tokens / TOKEN_ROW < n || case.tree / TREE_ROW < rows || case.errors / ERROR_ROW < rows
    {
        return Err(3);
    }
    let tokens = lex(rule);
    let is_opener =
        |token: &&Token| matches!(token.0, ExprSyntaxKind::L_PAREN | ExprSyntaxKind::NOT_KW);
    if tokens.iter().filter(is_opener).count() > 64 {
        return Err(4);
    }
    Ok(parse(rule, tokens))
}

/// Parses a rule. The places of errors come from the parser that records them; each reading asserts
/// that it gives the same tree and messages, and that the rows are within document 01's bounds.
fn parse(rule: &str, lexed: Vec<Token>) -> Reading {
    let tokens = token_rows(rule, &lexed);
    let parsed = parser::parse_expr(rule);
    let root = parsed.syntax_node();
    let placed = placed_parser::parse_tokens(lexed);
    let placed_root = placed.syntax_node();
    assert_eq!(placed_root.elements(), root.elements(), "rule {rule:?}");
    assert_eq!(placed.errors(), parsed.errors(), "rule {rule:?}");
    assert_eq!(root.tree_text(), rule);

    let tree: Vec<_> = root.elements().iter().map(tree_row).collect();
    let errors = places::take(|place| error_row(place, &tokens, rule));
    let n = rule.len();
    assert!(tree.len() <= 7 * n + 5, "rule {rule:?}");
    assert!(errors.len() <= 6 * n + 4, "rule {rule:?}");
    assert_eq!(errors.len(), parsed.errors().len(), "rule {rule:?}");
    for (error, message) in errors.iter().zip(parsed.errors()) {
        assert!(found_is_named(error, message, rule), "rule {rule:?}");
    }
    Reading {
        tokens,
        tree,
        errors,
        parsed,
    }
}

/// The rows of tokens whose texts lie end to end and cover the rule.
fn token_rows(rule: &str, tokens: &[Token]) -> Vec<[u32; TOKEN_ROW]> {
    let mut end = 0;
    let row = |(kind, text): &Token| {
        let first = end;
        end += text.len();
        assert_eq!(rule[first..end], **text);
        [*kind as u32, first as u32, end as u32]
    };
    let rows = tokens.iter().map(row).collect();
    assert_eq!(end, rule.len());
    rows
}

fn tree_row(element: &Element) -> [u32; TREE_ROW] {
    let Element {
        kind,
        level,
        first,
        end,
        ..
    } = *element;
    [kind.0 as u32, level, first, end]
}

fn error_row(place: Place, tokens: &[[u32; TOKEN_ROW]], rule: &str) -> [u32; ERROR_ROW] {
    let n = rule.len() as u32;
    let [_, first, end] = *tokens.get(place.token).unwrap_or(&[0, n, n]);
    [place.form, place.expected, first, end]
}

/// Whether a message ends by naming the token of its error row, or the end of the text.
fn found_is_named(error: &[u32; ERROR_ROW], message: &str, rule: &str) -> bool {
    let [form, _, first, end] = *error;
    let text = &rule[first as usize..end as usize];
    match form {
        1 | 2 if text.is_empty() => message.ends_with("found EOF"),
        4 | 6 if text.is_empty() => message.ends_with("found 'EOF'"),
        _ => {
            let before = message
                .strip_suffix('\'')
                .and_then(|m| m.strip_suffix(text));
            before.is_some_and(|before| before.ends_with(" '"))
        }
    }
}

#[cfg(test)]
mod tests {
    use super::*;

    fn reading(rule: &str) -> Reading {
        read(&Case::new(rule.as_bytes())).unwrap()
    }

    #[test]
    fn the_tree_of_document_01() {
        let reading = reading("components.count() > 2");
        let kinds = [18, 30, 19, 28, 1, 20, 3, 1, 21, 4, 5, 0, 9, 0, 12];
        assert_eq!(
            reading.tree.iter().map(|row| row[0]).collect::<Vec<_>>(),
            kinds
        );
        assert_eq!(reading.tree[5], [20, 3, 10, 18]);
        assert_eq!(reading.tree[11], [0, 3, 18, 19]);
        assert!(reading.errors.is_empty());
    }

    #[test]
    fn the_place_of_each_form() {
        let errors = |rule| reading(rule).errors;
        assert_eq!(errors(""), [[4, 0, 0, 0]]);
        assert_eq!(errors(" ."), [[4, 0, 1, 2], [5, 0, 2, 2]]);
        assert_eq!(errors("components. x"), [[5, 0, 12, 13]]);
        assert_eq!(errors("components ab"), [[3, 0, 11, 13]]);
        assert_eq!(
            errors("analysis( 3"),
            [[1, 2, 10, 11], [1, 5, 10, 11], [3, 0, 10, 11]]
        );
        assert_eq!(errors("components.any(message. x")[0], [2, 0, 24, 25]);
        assert_eq!(errors("components.any( %")[0], [6, 0, 16, 17]);
        assert_eq!(
            errors("components.any( ")[..2],
            [[6, 0, 16, 16], [1, 5, 16, 16]]
        );
    }

    #[test]
    fn refusals_in_order() {
        let refusal = |rule: &[u8], short: [usize; 3]| {
            let mut case = Case::new(rule);
            let tables = case.tables().into_iter().zip(short);
            tables.for_each(|((length, _), short)| *length -= short.min(*length));
            read(&case).err()
        };
        const NONE: [usize; 3] = [usize::MAX; 3];
        assert_eq!(refusal(&[0xff; 501], NONE), Some(1));
        assert_eq!(refusal(&[0xff; 500], NONE), Some(2));
        assert_eq!(refusal(&[b'('; 65], [1, 0, 0]), Some(3));
        assert_eq!(refusal(&[b'('; 65], [0; 3]), Some(4));
        assert_eq!(refusal(&[b'('; 64], [0; 3]), None);
        assert_eq!(refusal(&[b'a'; 500], [0; 3]), None);
        assert_eq!(refusal(&[b'a'; 500], [1, 0, 0]), Some(3));
        assert_eq!(refusal(&[b'a'; 500], [0, 1, 0]), Some(3));
        assert_eq!(refusal(&[b'a'; 500], [0, 0, 1]), Some(3));
    }
}
