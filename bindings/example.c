/*
 * Runs a rule on a board and prints the eight numbers of the answer: example RULE-FILE BOARD-FILE
 * Exit status: that of check-rule, 0 only for pass; 1 fail, 2 refused, 3 open, 4 where nothing could be run.
 */
#include <stdio.h>

#include "spar.h"

#define NOTHING_RUN 4

/* One byte more than is ever accepted, so that a file that is too long is refused as such. */
static uint8_t rule[SPAR_MAX_RULE + 1];
static uint8_t image[SPAR_MAX_IMAGE + 1];

/* Room for every rule and every image. */
static uint32_t tokens[SPAR_TOKENS_LEN(SPAR_MAX_RULE)];
static uint32_t tree[SPAR_TREE_LEN(SPAR_MAX_RULE)];
static uint32_t errors[SPAR_ERRORS_LEN(SPAR_MAX_RULE)];
static uint32_t collection[SPAR_COLLECTION_LEN(SPAR_MAX_IMAGE)];

static const char *const names[SPAR_ANSWER_LEN] = {
    "outcome", "amount", "warned", "verdict", "has rows", "token rows", "tree rows", "error rows",
};

/* How many numbers an array has. */
#define LENGTH(array) (sizeof(array) / sizeof((array)[0]))

/* Reads as much of a file as there is room for, and gives how many bytes that is; it says so and gives 0 where it cannot be read. */
static int read_file(const char *name, uint8_t *bytes, size_t room, size_t *len)
{
    FILE *file = fopen(name, "rb");
    if (file == NULL) {
        perror(name);
        return 0;
    }
    *len = fread(bytes, 1, room, file);
    int failed = ferror(file);
    fclose(file);
    if (failed)
        fprintf(stderr, "%s: cannot be read\n", name);
    return !failed;
}

int main(int argc, char **argv)
{
    size_t rule_len, image_len;
    uint32_t answer[SPAR_ANSWER_LEN];

    if (argc != 3) {
        fprintf(stderr, "usage: example RULE-FILE BOARD-FILE\n");
        return NOTHING_RUN;
    }
    if (!read_file(argv[1], rule, sizeof rule, &rule_len) || !read_file(argv[2], image, sizeof image, &image_len))
        return NOTHING_RUN;
    if (spar_run(rule, rule_len, image, image_len, tokens, LENGTH(tokens), tree, LENGTH(tree),
                 errors, LENGTH(errors), collection, LENGTH(collection), answer, LENGTH(answer)) != 1)
        return NOTHING_RUN;
    for (size_t i = 0; i < SPAR_ANSWER_LEN; i++)
        printf("%-10s %u\n", names[i], (unsigned)answer[i]);
    return (int)answer[SPAR_AT_VERDICT];
}
