//! Where the parser found its errors: the calls that `build.rs` sets into `placed_parser`.

use std::cell::RefCell;

use crate::assertion::syntax::ExprSyntaxKind;

/// The place of one error.
#[derive(Debug, Clone, Copy)]
pub struct Place {
    pub form: u32,
    /// The kind expected, for form 1; else 0.
    pub expected: u32,
    /// The index of the token found; the number of tokens at the end of the text.
    pub token: usize,
}

thread_local! {
    static PLACES: RefCell<Vec<Place>> = const { RefCell::new(Vec::new()) };
}

pub fn record(form: u32, expected: u32, token: usize) {
    let place = Place {
        form,
        expected,
        token,
    };
    PLACES.with_borrow_mut(|places| places.push(place));
}

/// The places recorded since they were last taken, each as `row` makes it.
pub fn take<Row>(row: impl Fn(Place) -> Row) -> Vec<Row> {
    PLACES.with_borrow_mut(|places| places.drain(..).map(row).collect())
}

/// The index of the first token from `at` that is not blank.
pub fn next(tokens: &[(ExprSyntaxKind, String)], at: usize) -> usize {
    let blank = |token: &&(ExprSyntaxKind, String)| token.0 == ExprSyntaxKind::WHITESPACE;
    at + tokens[at..].iter().take_while(blank).count()
}
