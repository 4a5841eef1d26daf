//! The functions of the static library. `bindings/spar.h` says what each does.

use crate::rows::ParseError;
use crate::{MESSAGE, Tables};

/// Numbers of an answer.
pub const ANSWER: usize = 8;

unsafe extern "C" {
    fn spar_run(
        rule: *const u8,
        rule_len: usize,
        image: *const u8,
        image_len: usize,
        tokens: *mut u32,
        tokens_len: usize,
        tree: *mut u32,
        tree_len: usize,
        errors: *mut u32,
        errors_len: usize,
        collection: *mut u32,
        collection_len: usize,
        answer: *mut u32,
        answer_len: usize,
    ) -> u32;

    fn spar_read(
        rule: *const u8,
        rule_len: usize,
        tokens: *mut u32,
        tokens_len: usize,
        tree: *mut u32,
        tree_len: usize,
        errors: *mut u32,
        errors_len: usize,
        answer: *mut u32,
        answer_len: usize,
    ) -> u32;

    fn assertion_message(
        rule: *const u8,
        rule_len: usize,
        form: u32,
        expected: u32,
        first: u32,
        end: u32,
        out: *mut u8,
        out_len: usize,
        written: *mut usize,
    ) -> u32;

    fn assertion_check_image(image: *const u8, image_len: usize, collection_len: usize) -> u32;
}

/// The answer of `spar_run`.
pub fn run(
    rule: &[u8],
    image: &[u8],
    tables: &mut Tables<'_>,
    collection: &mut [u32],
) -> [u32; ANSWER] {
    let mut answer = [0; ANSWER];
    // SAFETY: each pointer is valid for the length beside it, and what is written overlaps nothing.
    let done = unsafe {
        spar_run(
            rule.as_ptr(),
            rule.len(),
            image.as_ptr(),
            image.len(),
            tables.tokens.as_mut_ptr(),
            tables.tokens.len(),
            tables.tree.as_mut_ptr(),
            tables.tree.len(),
            tables.errors.as_mut_ptr(),
            tables.errors.len(),
            collection.as_mut_ptr(),
            collection.len(),
            answer.as_mut_ptr(),
            answer.len(),
        )
    };
    debug_assert_eq!(done, 1, "the answer has room");
    answer
}

/// The answer of `spar_read`.
pub fn read(rule: &[u8], tables: &mut Tables<'_>) -> [u32; ANSWER] {
    let mut answer = [0; ANSWER];
    // SAFETY: each pointer is valid for the length beside it, and what is written overlaps nothing.
    let done = unsafe {
        spar_read(
            rule.as_ptr(),
            rule.len(),
            tables.tokens.as_mut_ptr(),
            tables.tokens.len(),
            tables.tree.as_mut_ptr(),
            tables.tree.len(),
            tables.errors.as_mut_ptr(),
            tables.errors.len(),
            answer.as_mut_ptr(),
            answer.len(),
        )
    };
    debug_assert_eq!(done, 1, "the answer has room");
    answer
}

/// The message of an error row.
pub fn message(rule: &[u8], error: ParseError) -> Vec<u8> {
    let mut out = vec![0; rule.len() + MESSAGE];
    let mut written = 0;
    // SAFETY: each pointer is valid for the length beside it, and what is written overlaps nothing.
    let short = unsafe {
        assertion_message(
            rule.as_ptr(),
            rule.len(),
            error.form,
            error.expected,
            error.first,
            error.end,
            out.as_mut_ptr(),
            out.len(),
            &mut written,
        )
    };
    debug_assert_eq!(short, 0, "every message about the rule has room");
    out.truncate(written);
    out
}

/// 0, or the number of a refusal from 5 to 8.
pub fn check_image(image: &[u8], collection: usize) -> u32 {
    // SAFETY: the pointer is valid for the length beside it.
    unsafe { assertion_check_image(image.as_ptr(), image.len(), collection) }
}
