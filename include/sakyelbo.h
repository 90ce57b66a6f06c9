/* The functions of libsakyelbo.a, which `tools/library` writes to target/staticlib. Each meets its contract in
 * crates/sakyelbo_c/src, for every call that keeps the rules below.
 *
 * Answers. Each function answers 0 for acceptance, or a refusal's number. No refusal has the number 0, so 0 is always acceptance. Where
 * the refusal is stands behind `at`; the commands have no `at`, since their refusals are of no record.
 *
 * Memory. A run of bytes, entries or texts is a pointer and a count. A pointer is never NULL, with the count 0 either, and is aligned for
 * its type. What is lent for writing overlaps nothing else that is lent. After a refusal all memory that was lent for writing is
 * zero but what is behind `at`; after acceptance working memory is zero, and so are the bytes behind what was written. What it held
 * before does not matter.
 *
 * Linking. Of other libraries it needs `memcpy` and `memset` alone.
 */
#ifndef SAKYELBO_H
#define SAKYELBO_H

#include <stddef.h>
#include <stdint.h>

#ifdef __cplusplus
extern "C" {
#endif

/* Where a refusal is: the place of its record, and the position of the first code point above 196607 in an entity's id (15), a string
 * (24) or a pattern (25), in code points, a wildcard as one. Both count from 0. The position is 0 for every other refusal, and the place
 * for 1, 2 and 20; after acceptance both are 0. */
typedef struct sakyelbo_where {
    size_t place;
    size_t position;
} sakyelbo_where;

/* The longest file, in bytes; a longer one is refusal 1. Working memory has two entries for each byte; with less, it is refusal 2. */
#define SAKYELBO_LONGEST_FILE 1048576

/* The stack that check and encode need at most, in bytes, with what the system keeps there for a thread. A command needs less. */
#define SAKYELBO_STACK 98304

/* A text of a list of texts. */
typedef struct sakyelbo_text {
    const uint8_t *bytes;
    size_t count;
} sakyelbo_text;

/* Checks a term file: refusals 1 to 13 and 21. */
uint32_t sakyelbo_check(const uint8_t *file, size_t file_count, uint32_t *work, size_t work_count, sakyelbo_where *at);

/* Encodes a term file: check's refusals, then 14 to 19, 24 and 25, then 20 if the script is longer than its buffer. The script is written
 * to the start of `script`; *size is then its length, and 0 after a refusal. */
uint32_t sakyelbo_encode(const uint8_t *file, size_t file_count, uint32_t *work, size_t work_count, uint8_t *script,
                         size_t script_count, size_t *size, sakyelbo_where *at);

/* The commands of a script. Each is written with its final byte 10 to the start of `out`; *size is then its length, and 0 after a
 * refusal: 6 if a text is not UTF-8, 20 if the command is longer than `out`. */

/* `; COMMENT`, on one line: 200 code points of it at most, and spaces for bytes below 32 and byte 127. */
uint32_t sakyelbo_comment(const uint8_t *comment, size_t comment_count, uint8_t *out, size_t out_count, size_t *size);

/* `(declare-datatype ID (CONSTRUCTORS))`, or `(declare-datatype ID (par (PARAMS) (CONSTRUCTORS)))`. */
uint32_t sakyelbo_declare_datatype(const uint8_t *id, size_t id_count, const sakyelbo_text *params, size_t params_count,
                                   const sakyelbo_text *constructors, size_t constructors_count, uint8_t *out, size_t out_count,
                                   size_t *size);

/* `(declare-const ID SORT)`. */
uint32_t sakyelbo_declare_const(const uint8_t *id, size_t id_count, const uint8_t *sort, size_t sort_count, uint8_t *out,
                                size_t out_count, size_t *size);

/* `(declare-fun ID (ARGS) SORT)`. */
uint32_t sakyelbo_declare_fun(const uint8_t *id, size_t id_count, const sakyelbo_text *args, size_t args_count,
                              const uint8_t *sort, size_t sort_count, uint8_t *out, size_t out_count, size_t *size);

/* `(define-fun ID (ARGS) SORT BODY)`; an argument is a name of `names` with the sort at its place in `sorts`, and there are as many
 * arguments as the shorter list has texts. */
uint32_t sakyelbo_define_fun(const uint8_t *id, size_t id_count, const sakyelbo_text *names, size_t names_count,
                             const sakyelbo_text *sorts, size_t sorts_count, const uint8_t *sort, size_t sort_count,
                             const uint8_t *body, size_t body_count, uint8_t *out, size_t out_count, size_t *size);

/* `(assert BODY)`. */
uint32_t sakyelbo_assert_that(const uint8_t *body, size_t body_count, uint8_t *out, size_t out_count, size_t *size);

/* `(set-logic LOGIC)`. */
uint32_t sakyelbo_set_logic(const uint8_t *logic, size_t logic_count, uint8_t *out, size_t out_count, size_t *size);

/* `(set-option :OPTION VALUE)`. */
uint32_t sakyelbo_set_option(const uint8_t *option, size_t option_count, const uint8_t *value, size_t value_count, uint8_t *out,
                             size_t out_count, size_t *size);

/* `(check-sat)`. */
uint32_t sakyelbo_check_sat(uint8_t *out, size_t out_count, size_t *size);

/* `(get-model)`. */
uint32_t sakyelbo_get_model(uint8_t *out, size_t out_count, size_t *size);

/* `(reset)`. */
uint32_t sakyelbo_reset(uint8_t *out, size_t out_count, size_t *size);

/* `(exit)`. */
uint32_t sakyelbo_exit(uint8_t *out, size_t out_count, size_t *size);

#ifdef __cplusplus
}
#endif

#endif
