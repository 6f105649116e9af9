/* Reads a book from standard input and tells what samulsto answers; the result goes to standard output.
 *
 *     (cd crates/elab && rt lib)
 *     cc -Wall -Wextra -std=c99 -pedantic -Iinclude examples/c/example.c crates/elab/out/libelab.a -o example
 *     ./example < examples/p03.book > p03.result
 */
#include "samulsto.h"
#include <stdio.h>

static uint8_t book[SAMULSTO_BOOK_BYTES + 1], out[SAMULSTO_OUT_BYTES], work[SAMULSTO_WORK_BYTES];

int main(void)
{
    /* One byte more than a book may have, so that a longer one is seen to be longer. */
    size_t length = fread(book, 1, sizeof book, stdin);
    struct samulsto_premise_answer premise = samulsto_premise(book, length, work, sizeof work);
    /* For macros that call macros: samulsto_elaborate_nested, with the same words. */
    struct samulsto_answer answer = samulsto_elaborate(book, length, out, sizeof out, work, sizeof work);

    if (answer.code != SAMULSTO_DONE) {
        fprintf(stderr, "refused with code %u", (unsigned)answer.code);
        if (answer.code >= SAMULSTO_NOT_A_BOOK && answer.code <= SAMULSTO_TOO_DEEP)
            fprintf(stderr, " at byte %u", (unsigned)answer.at);
        fputs("; docs/CODES.md says what to do\n", stderr);
        return 1;
    }
    fprintf(stderr, "%u definitions, %u of them lifted, %u bytes; the premises %s\n", (unsigned)answer.definitions,
            (unsigned)answer.lifted, (unsigned)answer.length, premise.holds ? "hold" : "do not hold");
    return fwrite(out, 1, answer.length, stdout) == answer.length ? 0 : 1;
}
