//! The proved code, called through the C interface of its static library.

use crate::case::ERROR_ROW;
use crate::run_sides::Lent;

unsafe extern "C" {
    fn assertion_read_tokens(
        rule: *const u8,
        rule_len: usize,
        tokens: *mut u32,
        tokens_len: usize,
        tree_len: usize,
        errors_len: usize,
        count: *mut u32,
    ) -> u32;

    fn assertion_parse_expr(
        rule: *const u8,
        rule_len: usize,
        tokens: *mut u32,
        tokens_len: usize,
        tree: *mut u32,
        tree_len: usize,
        errors: *mut u32,
        errors_len: usize,
        token_rows: *mut u32,
        tree_rows: *mut u32,
        error_rows: *mut u32,
    ) -> u32;

    fn assertion_message(
        rule: *const u8,
        rule_len: usize,
        form: u32,
        expected: u32,
        first: u32,
        end: u32,
        out: *mut u8,
        out_len: usize,
        written: *mut usize,
    ) -> u32;

    fn assertion_check_image(image: *const u8, image_len: usize, collection_len: usize) -> u32;

    fn spar_read(
        rule: *const u8,
        rule_len: usize,
        tokens: *mut u32,
        tokens_len: usize,
        tree: *mut u32,
        tree_len: usize,
        errors: *mut u32,
        errors_len: usize,
        answer: *mut u32,
        answer_len: usize,
    ) -> u32;

    fn spar_run(
        rule: *const u8,
        rule_len: usize,
        image: *const u8,
        image_len: usize,
        tokens: *mut u32,
        tokens_len: usize,
        tree: *mut u32,
        tree_len: usize,
        errors: *mut u32,
        errors_len: usize,
        collection: *mut u32,
        collection_len: usize,
        answer: *mut u32,
        answer_len: usize,
    ) -> u32;
}

/// Returns 0 with the token rows at the front of the table and their number in `count`, or the
/// refusal's number with both as found.
pub fn read_tokens(
    rule: &[u8],
    tokens: &mut [u32],
    tree_len: usize,
    errors_len: usize,
    count: &mut u32,
) -> u32 {
    // SAFETY: each pointer is valid for the length beside it, and nothing lent overlaps.
    unsafe {
        assertion_read_tokens(
            rule.as_ptr(),
            rule.len(),
            tokens.as_mut_ptr(),
            tokens.len(),
            tree_len,
            errors_len,
            count,
        )
    }
}

/// Returns 0 with token, tree and error rows at the front of the tables and their numbers in
/// `counts`, or the refusal's number with all as found.
pub fn parse_expr(
    rule: &[u8],
    tokens: &mut [u32],
    tree: &mut [u32],
    errors: &mut [u32],
    counts: &mut [u32; 3],
) -> u32 {
    let [token_rows, tree_rows, error_rows] = counts;
    // SAFETY: each pointer is valid for the length beside it, and nothing lent overlaps.
    unsafe {
        assertion_parse_expr(
            rule.as_ptr(),
            rule.len(),
            tokens.as_mut_ptr(),
            tokens.len(),
            tree.as_mut_ptr(),
            tree.len(),
            errors.as_mut_ptr(),
            errors.len(),
            token_rows,
            tree_rows,
            error_rows,
        )
    }
}

/// Returns 0 with the message of an error row at the front of `out` and its length in `written`,
/// or 1 with both as found where `out` is too short.
pub fn message(rule: &[u8], error: [u32; ERROR_ROW], out: &mut [u8], written: &mut usize) -> u32 {
    let [form, expected, first, end] = error;
    // SAFETY: each pointer is valid for the length beside it, and nothing lent overlaps.
    unsafe {
        assertion_message(
            rule.as_ptr(),
            rule.len(),
            form,
            expected,
            first,
            end,
            out.as_mut_ptr(),
            out.len(),
            written,
        )
    }
}

/// Returns 0, or the first of refusals 5 to 8 that holds. The collection is given by its length in
/// numbers alone. No byte may be altered; the image is lent as if it might be, so that it can be seen.
pub fn check_image(image: &mut [u8], collection_len: usize) -> u32 {
    // SAFETY: the pointer is valid for the length beside it.
    unsafe { assertion_check_image(image.as_mut_ptr(), image.len(), collection_len) }
}

/// Returns 1 with the answer's eight numbers at the front of the last slice and the tables as document
/// 01 says, or 0 with all as found where there is no room for the answer. No byte of rule and image may
/// be altered; they are lent as if they might be, so that it can be seen.
pub fn run(rule: &mut [u8], image: &mut [u8], lent: Lent) -> u32 {
    let [tokens, tree, errors, collection, answer] = lent;
    // SAFETY: each pointer is valid for the length beside it, and nothing lent overlaps.
    unsafe {
        spar_run(
            rule.as_mut_ptr(),
            rule.len(),
            image.as_mut_ptr(),
            image.len(),
            tokens.as_mut_ptr(),
            tokens.len(),
            tree.as_mut_ptr(),
            tree.len(),
            errors.as_mut_ptr(),
            errors.len(),
            collection.as_mut_ptr(),
            collection.len(),
            answer.as_mut_ptr(),
            answer.len(),
        )
    }
}

/// Returns 1 with the answer's eight numbers at the front of the last slice and the tables as read, or 0
/// with all as found where there is no room for the answer.
pub fn read(rule: &[u8], lent: [&mut [u32]; 4]) -> u32 {
    let [tokens, tree, errors, answer] = lent;
    // SAFETY: each pointer is valid for the length beside it, and nothing lent overlaps.
    unsafe {
        spar_read(
            rule.as_ptr(),
            rule.len(),
            tokens.as_mut_ptr(),
            tokens.len(),
            tree.as_mut_ptr(),
            tree.len(),
            errors.as_mut_ptr(),
            errors.len(),
            answer.as_mut_ptr(),
            answer.len(),
        )
    }
}
