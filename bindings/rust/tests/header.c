/* Calls the functions of the library from C, by its header; compiled by header.rs, which gives the constants of the Rust crate, and run. */
#include "sakyelbo.h"

#include <stdio.h>
#include <string.h>

#define BYTES(words) (const uint8_t *)(words), sizeof(words) - 1
#define OUT out, sizeof out, &size

static uint8_t out[80];
static size_t size;
static sakyelbo_where at;
static int faults;

static void expect(int holds, const char *what)
{
    if (!holds) {
        puts(what);
        faults++;
    }
}

/* Expects that these words were written, and zeros behind them. */
static void expect_written(uint32_t answer, const char *words)
{
    size_t i, count = strlen(words);

    expect(answer == 0 && size == count && memcmp(out, words, count) == 0, words);
    for (i = count; i < sizeof out; i++)
        expect(out[i] == 0, "the bytes behind a command are zero");
    memset(out, 0xa5, sizeof out);
    size = sizeof out;
}

/* Expects this answer, at a place and a position. */
static void expect_answer(uint32_t answer, uint32_t number, size_t place, size_t position, const char *what)
{
    expect(answer == number && at.place == place && at.position == position, what);
    at.place = at.position = 77;
}

int main(void)
{
    static const uint8_t file[] = "TB\0\0\0\0XV\x09\0\0\0\1\0\0\0a\1\0\0\0";
    static const uint8_t high[] = "TS\0\0\0\0XS\x0b\0\0\0\7\0\0\0a\xc3\xa9\xf0\xb0\x80\x80IN\4\0\0\0\0\0\0\0";
    static const uint8_t typed[] = "TB\0\0\0\0TS\0\0\0\0YB\5\0\0\0\1\0\0\0\0YB\5\0\0\0\1\1\0\0\0";
    static const char script[] = "(declare-datatype Option (par (X) (\n  (none)\n  (some (val X)))))\n";
    const sakyelbo_text x = {BYTES("X")}, constructors[] = {{BYTES("(none)")}, {BYTES("(some (val X))")}};
    const sakyelbo_text sorts[] = {{BYTES("E0")}, {BYTES("Bool")}}, names[] = {{BYTES("x")}, {BYTES("y")}, {BYTES("z")}};
    uint32_t work[2 * sizeof typed];
    size_t i;

    expect(SAKYELBO_LONGEST_FILE == LONGEST_FILE, "the longest file is that of the Rust crate");
    expect(SAKYELBO_STACK == STACK, "the stack is that of the Rust crate");
    memset(work, 0xa5, sizeof work);
    at.place = at.position = 77;
    expect_answer(sakyelbo_check(file, 6, work, 12, &at), 0, 0, 0, "a Bool type is accepted");
    expect_answer(sakyelbo_check(file, sizeof file - 1, work, 2 * sizeof file, &at), 8, 1, 0,
                   "a type that is not there is refusal 8 in record 1");
    expect_answer(sakyelbo_check(typed, 23, work, 2 * sizeof typed, &at), 0, 0, 0, "the type of a term may be written in its record");
    expect_answer(sakyelbo_check(typed, sizeof typed - 1, work, 2 * sizeof typed, &at), 21, 3, 0, "another type is refusal 21");
    for (i = 0; i < 2 * sizeof typed; i++)
        expect(work[i] == 0, "working memory is zero");
    expect_written(sakyelbo_encode(file, 6, work, 12, OUT, &at), script);
    expect(at.place == 0 && at.position == 0, "acceptance is at no place");
    expect_answer(sakyelbo_encode(file, 6, work, 12, out, sizeof script - 2, &size, &at), 20, 0, 0,
                   "a byte too few for the script is refusal 20");
    expect(size == 0 && out[0] == 0, "a refusal leaves nothing");
    expect_answer(sakyelbo_encode(high, sizeof high - 1, work, 2 * sizeof high, OUT, &at), 24, 1, 2,
                   "a high code point has its position, in code points");

    expect_written(sakyelbo_comment(BYTES("a comment"), OUT), "; a comment\n");
    expect_written(sakyelbo_declare_datatype(BYTES("Option"), &x, 1, constructors, 2, OUT), script);
    expect_written(sakyelbo_declare_const(BYTES("t0"), BYTES("Bool"), OUT), "(declare-const t0 Bool)\n");
    expect_written(sakyelbo_declare_fun(BYTES("f0"), sorts, 2, BYTES("Bool"), OUT), "(declare-fun f0 (E0 Bool) Bool)\n");
    expect_written(sakyelbo_define_fun(BYTES("g"), names, 3, sorts, 2, BYTES("Bool"), BYTES("(not y)"), OUT),
                   "(define-fun g ((x E0) (y Bool)) Bool (not y))\n");
    expect_written(sakyelbo_assert_that(BYTES("t0"), OUT), "(assert t0)\n");
    expect_written(sakyelbo_set_logic(BYTES("ALL"), OUT), "(set-logic ALL)\n");
    expect_written(sakyelbo_set_option(BYTES("produce-models"), BYTES("true"), OUT), "(set-option :produce-models true)\n");
    expect_written(sakyelbo_check_sat(OUT), "(check-sat)\n");
    expect_written(sakyelbo_get_model(OUT), "(get-model)\n");
    expect_written(sakyelbo_reset(OUT), "(reset)\n");
    expect_written(sakyelbo_exit(OUT), "(exit)\n");
    expect(sakyelbo_exit(out, 6, &size) == 20, "six bytes are too few");
    expect(size == 0, "a refusal has no length");
    return faults != 0;
}
