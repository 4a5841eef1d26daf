/*
 * The library for C: rules run on board images, and rules read.
 *
 * `tools/staticlib` writes target/staticlib/libabi.a, for x86-64. Its functions allocate nothing, keep nothing between calls and
 * write only where the caller lends room, so several threads may call them at once, each with tables of its own. They need less than
 * 200,000 bytes of stack.
 *
 * A table is a pointer and a length. Lengths are in numbers (uint32_t) or bytes, never in rows.
 *
 * No function asks anything of what it is given: any bytes are a rule or an image, tables may have any length, empty ones too, and
 * hold anything. What C asks remains: a pointer is not null and points to as many numbers or bytes as its length says, and places
 * that are written overlap no other place of the same call.
 */
#ifndef SPAR_H
#define SPAR_H

#include <stddef.h>
#include <stdint.h>

#ifdef __cplusplus
extern "C" {
#endif

/* Limits. A longer rule is refusal 1, more openers are refusal 4, and a longer image is refusal 5. */
#define SPAR_MAX_RULE 500
#define SPAR_MAX_OPENERS 64
#define SPAR_MAX_IMAGE 65536

/* Numbers in a row of each table. Numbers after the last whole row of a table count as no row and are never altered. */
#define SPAR_TOKEN_ROW 3      /* kind, first byte, end byte */
#define SPAR_TREE_ROW 4       /* kind, level, first byte, end byte; nodes and tokens in preorder, the root has level 0 */
#define SPAR_ERROR_ROW 4      /* form, expected kind (form 1 only, else 0), first and end byte of the token found */
#define SPAR_COLLECTION_ROW 2 /* a component or a diagnostic and 0, or a component and its feature; by their indexes in the image */

/* The length in numbers that each table needs for a rule of n bytes. A shorter one is refusal 3. */
#define SPAR_TOKENS_LEN(n) (SPAR_TOKEN_ROW * (size_t)(n))
#define SPAR_TREE_LEN(n) (SPAR_TREE_ROW * (8 * (size_t)(n) + 8))
#define SPAR_ERRORS_LEN(n) (SPAR_ERROR_ROW * (8 * (size_t)(n) + 8))

/*
 * A length in numbers of the collection table that suffices for every image of m bytes. It needs a row for each component and feature
 * together, and for each diagnostic, and none of these has fewer than 12 bytes; where there are fewer rows it is refusal 8.
 */
#define SPAR_COLLECTION_LEN(m) (SPAR_COLLECTION_ROW * ((size_t)(m) / 12))

/* Bytes that suffice for every message about a rule of n bytes. */
#define SPAR_MESSAGE_LEN(n) ((size_t)(n) + 200)

/* The numbers of an answer, by their places. */
#define SPAR_ANSWER_LEN 8
#define SPAR_AT_OUTCOME 0    /* SPAR_OUTCOME_REFUSED to SPAR_OUTCOME_READ */
#define SPAR_AT_AMOUNT 1     /* the refusal's number, the number of members, 0 or 1, or the count; 0 for SPAR_OUTCOME_READ */
#define SPAR_AT_WARNED 2     /* 1 for a boolean that is said of an empty collection, else 0 */
#define SPAR_AT_VERDICT 3    /* SPAR_VERDICT_PASS to SPAR_VERDICT_OPEN */
#define SPAR_AT_HAS_ROWS 4   /* 1 where the next three are given, else 0 */
#define SPAR_AT_TOKEN_ROWS 5 /* how many token rows, */
#define SPAR_AT_TREE_ROWS 6  /* tree rows */
#define SPAR_AT_ERROR_ROWS 7 /* and error rows stand at the front of their tables; else 0 */

/* Outcomes. */
#define SPAR_OUTCOME_REFUSED 0
#define SPAR_OUTCOME_COMPONENTS 1
#define SPAR_OUTCOME_FEATURES 2
#define SPAR_OUTCOME_DIAGNOSTICS 3
#define SPAR_OUTCOME_BOOLEAN 4
#define SPAR_OUTCOME_COUNT 5
#define SPAR_OUTCOME_READ 6 /* of spar_read alone */

/* Verdicts. Only SPAR_VERDICT_PASS says that the rule is true of the board; a refusal is never a pass. */
#define SPAR_VERDICT_PASS 0
#define SPAR_VERDICT_FAIL 1
#define SPAR_VERDICT_REFUSED 2 /* the rule or the image was refused */
#define SPAR_VERDICT_OPEN 3    /* a count or members, neither true nor false */

/* Refusals, in the order in which they are checked: the first that holds is given. */
#define SPAR_REFUSAL_RULE_TOO_LONG 1
#define SPAR_REFUSAL_RULE_NOT_UTF8 2
#define SPAR_REFUSAL_TABLE_TOO_SHORT 3  /* tokens, tree or errors */
#define SPAR_REFUSAL_TOO_MANY_OPENERS 4 /* more than 64 tokens are `(` or `not` */
#define SPAR_REFUSAL_IMAGE_BAD_SECTIONS 5
#define SPAR_REFUSAL_IMAGE_BAD_STRINGS 6
#define SPAR_REFUSAL_IMAGE_BAD_RECORDS 7
#define SPAR_REFUSAL_COLLECTION_TOO_SHORT 8
#define SPAR_REFUSAL_PARSE_ERRORS 9
#define SPAR_REFUSAL_WHERE_ON_NO_COLLECTION 10
#define SPAR_REFUSAL_QUANTIFIER_ON_NO_COLLECTION 11 /* all, any or none */
#define SPAR_REFUSAL_COUNT_ON_NO_COLLECTION 12
#define SPAR_REFUSAL_FEATURES_ON_NO_COMPONENTS 13
#define SPAR_REFUSAL_DIAGNOSTICS_ON_NO_DIAGNOSTICS 14
#define SPAR_REFUSAL_COMPARISON_NOT_COUNTABLE 15
#define SPAR_REFUSAL_INTEGER_TOO_LARGE 16 /* above 18446744073709551615 */

/* Forms of a parse error. */
#define SPAR_FORM_EXPECT 1       /* a token of the expected kind */
#define SPAR_FORM_EXPECT_IDENT 2 /* the word `contains` */
#define SPAR_FORM_LEFT_OVER 3    /* the end of the rule */
#define SPAR_FORM_SOURCE 4       /* `components` or `analysis` */
#define SPAR_FORM_METHOD 5       /* a call */
#define SPAR_FORM_ATOM 6         /* an atom of a predicate */

/* Kinds of tokens, up to SPAR_KIND_ERROR, and of nodes. */
#define SPAR_KIND_WHITESPACE 0
#define SPAR_KIND_IDENT 1
#define SPAR_KIND_STRING_LIT 2
#define SPAR_KIND_DOT 3
#define SPAR_KIND_L_PAREN 4
#define SPAR_KIND_R_PAREN 5
#define SPAR_KIND_EQ_EQ 6
#define SPAR_KIND_NEQ 7
#define SPAR_KIND_GE 8
#define SPAR_KIND_GT 9
#define SPAR_KIND_LE 10
#define SPAR_KIND_LT 11
#define SPAR_KIND_INT_LIT 12
#define SPAR_KIND_COMMA 13
#define SPAR_KIND_AND_KW 14
#define SPAR_KIND_OR_KW 15
#define SPAR_KIND_NOT_KW 16
#define SPAR_KIND_ERROR 17
#define SPAR_KIND_ROOT 18
#define SPAR_KIND_PIPELINE_EXPR 19
#define SPAR_KIND_DOT_CALL 20
#define SPAR_KIND_CALL_ARGS 21
#define SPAR_KIND_BINARY_EXPR 22
#define SPAR_KIND_UNARY_EXPR 23
#define SPAR_KIND_COMPARE_EXPR 24
#define SPAR_KIND_CALL_EXPR 25
#define SPAR_KIND_PAREN_EXPR 26
#define SPAR_KIND_LITERAL 27
#define SPAR_KIND_IDENT_EXPR 28
#define SPAR_KIND_CONTAINS_EXPR 29
#define SPAR_KIND_COUNT_COMPARE_EXPR 30

/*
 * Runs a rule on a board image.
 *
 * rule        the rule's bytes, rule_len of them; UTF-8 if it is to be read
 * image       the board image's bytes, image_len of them
 * tokens      gets the rule's tokens; SPAR_TOKENS_LEN(rule_len) numbers suffice
 * tree        gets its tree; SPAR_TREE_LEN(rule_len) suffice
 * errors      gets its parse errors; SPAR_ERRORS_LEN(rule_len) suffice
 * collection  gets the members where the outcome is a collection; SPAR_COLLECTION_LEN(image_len) suffice
 * answer      gets the eight numbers, at its front; what stands behind them is left
 *
 * Gives 1; or 0, with nothing altered, where answer_len is below SPAR_ANSWER_LEN.
 *
 * Refusals 1 to 8 alter none of the four tables. From 9 on tokens, tree and errors stand as read, and `collection` is as it was.
 * Where nothing is refused all rows of `collection` past the members are 0, all of them for a boolean or a count. Rows of the other
 * tables past those that answer counts keep what they held.
 */
uint32_t spar_run(const uint8_t *rule, size_t rule_len, const uint8_t *image, size_t image_len,
                  uint32_t *tokens, size_t tokens_len, uint32_t *tree, size_t tree_len,
                  uint32_t *errors, size_t errors_len, uint32_t *collection, size_t collection_len,
                  uint32_t *answer, size_t answer_len);

/*
 * Reads a rule. The parameters are those of spar_run. A rule that is refused by none of 1 to 4 has the outcome SPAR_OUTCOME_READ and the
 * verdict SPAR_VERDICT_OPEN, with or without parse errors: answer[SPAR_AT_ERROR_ROWS] says how many.
 */
uint32_t spar_read(const uint8_t *rule, size_t rule_len, uint32_t *tokens, size_t tokens_len,
                   uint32_t *tree, size_t tree_len, uint32_t *errors, size_t errors_len,
                   uint32_t *answer, size_t answer_len);

/*
 * Reads a rule, and gives the numbers of rows by themselves.
 *
 * token_rows, tree_rows, error_rows  get how many rows stand at the front of each table
 *
 * Gives 0; or the number of a refusal from 1 to 4, with the tables and the three numbers as they were.
 */
uint32_t assertion_parse_expr(const uint8_t *rule, size_t rule_len, uint32_t *tokens, size_t tokens_len,
                              uint32_t *tree, size_t tree_len, uint32_t *errors, size_t errors_len,
                              uint32_t *token_rows, uint32_t *tree_rows, uint32_t *error_rows);

/*
 * Writes the message of a parse error.
 *
 * rule                         the rule in which it was found
 * form, expected, first, end   the four numbers of its row
 * out                          gets the message's bytes, with no 0 after them; SPAR_MESSAGE_LEN(rule_len) suffice
 * written                      gets how many they are
 *
 * Gives 0; or 1, with both as they were, where out_len is too short.
 */
uint32_t assertion_message(const uint8_t *rule, size_t rule_len, uint32_t form, uint32_t expected,
                           uint32_t first, uint32_t end, uint8_t *out, size_t out_len, size_t *written);

/*
 * Reads a rule's tokens alone.
 *
 * tree_len, errors_len  the lengths of tables that are not lent here; they count for refusal 3
 * count                 gets how many token rows stand at the front of `tokens`
 *
 * Gives 0; or the number of a refusal from 1 to 4, with table and count as they were.
 */
uint32_t assertion_read_tokens(const uint8_t *rule, size_t rule_len, uint32_t *tokens, size_t tokens_len,
                               size_t tree_len, size_t errors_len, uint32_t *count);

/*
 * Checks a board image.
 *
 * collection_len  the length of a collection table that is not lent here; it counts for refusal 8
 *
 * Gives 0 for a board; or the number of a refusal from 5 to 8. It alters nothing.
 */
uint32_t assertion_check_image(const uint8_t *image, size_t image_len, size_t collection_len);

#ifdef __cplusplus
}
#endif

#endif
