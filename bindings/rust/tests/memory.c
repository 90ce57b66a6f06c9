/* Checks and encodes the vectors of standard input, in memory of the exact size that nothing was written to; compiled by memory.rs, and run
 * under a memory checker. A vector is its name, the entries of working memory, the length of its script, and its file; names and files have
 * their count before them. Each name is said on standard error, before what the checker says of it. */
#include "sakyelbo.h"

#include <stdio.h>
#include <stdlib.h>

static void *lent(size_t count)
{
    void *memory = malloc(count);

    if (memory == NULL)
        exit(2);
    return memory;
}

/* Reads a number, if there is one. */
static int read_number(uint32_t *n)
{
    return fread(n, sizeof *n, 1, stdin) == 1;
}

static uint32_t number(void)
{
    uint32_t n;

    if (!read_number(&n))
        exit(3);
    return n;
}

static uint8_t *bytes(size_t count)
{
    uint8_t *read = lent(count);

    if (fread(read, 1, count, stdin) != count)
        exit(3);
    return read;
}

static void expect_zero(uint32_t n)
{
    if (n != 0)
        exit(4);
}

/* Expects that memory is zero, and gives it back. */
static void end_work(uint32_t *work, size_t count)
{
    size_t i;

    for (i = 0; i < count; i++)
        expect_zero(work[i]);
    free(work);
}

static void check(const uint8_t *file, size_t file_count, size_t work_count)
{
    uint32_t *work = lent(work_count * sizeof *work);
    sakyelbo_where at;

    if (sakyelbo_check(file, file_count, work, work_count, &at) == 0)
        expect_zero(at.place + at.position);
    end_work(work, work_count);
}

/* No byte of a script is zero, and those behind it are. */
static void encode(const uint8_t *file, size_t file_count, size_t work_count, size_t room)
{
    uint32_t *work = lent(work_count * sizeof *work);
    uint8_t *script = lent(room);
    sakyelbo_where at;
    size_t i, size;

    if (sakyelbo_encode(file, file_count, work, work_count, script, room, &size, &at) == 0)
        expect_zero(at.place + at.position);
    for (i = 0; i < room; i++)
        expect_zero((i < size) == (script[i] == 0));
    end_work(work, work_count);
    free(script);
}

int main(void)
{
    uint32_t count, work_count, room;
    uint8_t *name, *file;

    while (read_number(&count)) {
        name = bytes(count);
        fprintf(stderr, "%.*s\n", (int)count, (char *)name);
        work_count = number();
        room = number();
        count = number();
        file = bytes(count);
        check(file, count, work_count);
        encode(file, count, work_count, room);
        if (room > 0) {
            encode(file, count, work_count, room - 1);
            encode(file, count, work_count, 0);
        }
        free(name);
        free(file);
    }
    return 0;
}
