/*
 * How many bytes of stack the library needs: each rule is read and run on a stack of its own that was painted before, and what is no
 * longer paint was used. A line for each rule; bench/README.md says how it is built.
 */
#include <stdio.h>
#include <string.h>
#include <ucontext.h>

#include "spar.h"

#define STACK (1 << 20)
#define PAINT 0xA5

static uint8_t stack[STACK];
static ucontext_t caller, callee;

static uint8_t rule[SPAR_MAX_RULE];
static size_t rule_len;
static uint8_t image[SPAR_MAX_IMAGE + 1];
static size_t image_len;

static uint32_t tokens[SPAR_TOKENS_LEN(SPAR_MAX_RULE)];
static uint32_t tree[SPAR_TREE_LEN(SPAR_MAX_RULE)];
static uint32_t errors[SPAR_ERRORS_LEN(SPAR_MAX_RULE)];
static uint32_t collection[SPAR_COLLECTION_LEN(SPAR_MAX_IMAGE)];
static uint32_t answer[SPAR_ANSWER_LEN];

#define LENGTH(array) (sizeof(array) / sizeof((array)[0]))

static void nothing(void)
{
}

static void read_rule(void)
{
    spar_read(rule, rule_len, tokens, LENGTH(tokens), tree, LENGTH(tree), errors, LENGTH(errors), answer, LENGTH(answer));
}

static void run_rule(void)
{
    spar_run(rule, rule_len, image, image_len, tokens, LENGTH(tokens), tree, LENGTH(tree), errors, LENGTH(errors),
             collection, LENGTH(collection), answer, LENGTH(answer));
}

/* The bytes of the stack that are used by a call and by what calls it. */
static size_t touched(void (*call)(void))
{
    size_t clean = 0;

    memset(stack, PAINT, STACK);
    getcontext(&callee);
    callee.uc_stack.ss_sp = stack;
    callee.uc_stack.ss_size = STACK;
    callee.uc_link = &caller;
    makecontext(&callee, call, 0);
    swapcontext(&caller, &callee);
    while (clean < STACK && stack[clean] == PAINT)
        clean++;
    return STACK - clean;
}

static size_t most_read, most_run;

static void measure(const char *name)
{
    size_t without = touched(nothing);
    size_t read = touched(read_rule) - without;
    size_t run = touched(run_rule) - without;

    if (read > most_read)
        most_read = read;
    if (run > most_run)
        most_run = run;
    printf("%-44s %3zu bytes  read %6zu  run %6zu  outcome %u %u\n", name, rule_len, read, run,
           (unsigned)answer[SPAR_AT_OUTCOME], (unsigned)answer[SPAR_AT_AMOUNT]);
}

static void begin(const char *text)
{
    rule_len = 0;
    while (*text != 0 && rule_len < SPAR_MAX_RULE)
        rule[rule_len++] = (uint8_t)*text++;
}

/* Adds a text so many times, as often as it fits with so many bytes left over. */
static void add(const char *text, size_t times, size_t left)
{
    size_t len = strlen(text);

    for (; times > 0 && rule_len + len + left <= SPAR_MAX_RULE; times--) {
        memcpy(rule + rule_len, text, len);
        rule_len += len;
    }
}

#define ALL SPAR_MAX_RULE

int main(int argc, char **argv)
{
    FILE *file = argc == 2 ? fopen(argv[1], "rb") : NULL;

    if (file == NULL) {
        fprintf(stderr, "usage: stack BOARD-FILE\n");
        return 2;
    }
    image_len = fread(image, 1, sizeof image, file);
    fclose(file);

    begin("components.where(category == 'device').all(connected)");
    measure("typical");

    begin("components.where(");
    add("(", 63, 0);
    add("connected", 1, 0);
    add(")", 64, 0);
    measure("63 brackets");

    begin("components.where(");
    add("not ", 63, 0);
    add("connected)", 1, 0);
    measure("63 not");

    begin("components.where(");
    add("kind==''or(", 38, 0);
    add("connected", 1, 0);
    add(")", 39, 0);
    measure("38 brackets, each in an or");

    begin("components.where(");
    add("kind==''or kind==''and(", 19, 0);
    add("connected", 1, 0);
    add(")", 20, 0);
    measure("19 brackets, each in an and in an or");

    begin("components.where(");
    add("not(", 31, 0);
    add("connected", 1, 0);
    add(")", 32, 0);
    measure("31 not with brackets");

    begin("components.where(connected");
    add(" or connected", ALL, 1);
    add(")", 1, 0);
    measure("many or");

    begin("components.where(connected");
    add(" and connected", ALL, 1);
    add(")", 1, 0);
    measure("many and");

    begin("components.where(");
    add("or ", ALL, 0);
    measure("or without operands");

    begin("components.where(x ");
    add("and ", ALL, 0);
    measure("and without operands");

    begin("components");
    add(".where(connected)", ALL, 0);
    measure("many calls");

    begin("analysis('connectivity')");
    add(".diagnostics", ALL, 0);
    measure("many calls, the shortest that run");

    begin("components");
    add(".a", ALL, 0);
    measure("many calls that are none");

    begin("");
    add(".", ALL, 0);
    measure("dots");

    begin("components");
    add(".where(connected)", 18, 0);
    add(".where(", 1, 0);
    add("(", 45, 0);
    add("connected", 1, 0);
    add(")", 46, 0);
    measure("calls, then brackets");

    begin("");
    add(".", 430, 0);
    add(".where(", 1, 0);
    add("(", 63, 0);
    measure("dots, then brackets");

    printf("most: read %zu, run %zu\n", most_read, most_run);
    return 0;
}
