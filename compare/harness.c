/* Calls the archive for a program that judges its answers: `compare` of oracle/, which runs this one and talks to it
 * over standard input and output. All numbers are little-endian u32.
 *
 * A case: which call (0 premise, 1 elaborate, 2 elaborate_nested), length of the book, of the output, of the work
 * area, a number that chooses the noise, how often to call; the book.
 * Its answer: the last call's five numbers (premise: code, holds, 0, 0, at); how many bytes of the work area are not
 * zero; how many bytes were written that must not be (of the book, or before a buffer); a measure; how many bytes of
 * the output follow; these. The measure of one call is 0, of several the nanoseconds of the quickest; and where a case
 * is to be called 0 times, it is called once and measured are the bytes of stack that it has used.
 *
 * Output and work area are filled with noise before the first call of a case. Of the output come back the bytes that
 * the answer calls the result, and more where bytes behind them have changed. Each buffer ends where a page begins that
 * can't be touched, and begins behind bytes that are held against what they were.
 */
#define _DEFAULT_SOURCE
#include "samulsto.h"
#include <stdio.h>
#include <stdlib.h>
#include <string.h>
#include <sys/mman.h>
#include <time.h>
#include <ucontext.h>

/* A multiple of every page size in use. */
#define PAGE 65536u
#define ROOM (16u * PAGE)
#define BEFORE 256u
#define NOISE (ROOM + PAGE)
#define STACK (16u * PAGE)

static uint8_t noise[NOISE], copy[ROOM];

static void fail(const char *why)
{
    fprintf(stderr, "harness: %s\n", why);
    exit(1);
}

/* Bytes without a pattern. */
static void make_noise(void)
{
    uint64_t x = 0x9e3779b97f4a7c15u;
    for (size_t i = 0; i < NOISE; i++) {
        x = x * 6364136223846793005u + 1442695040888963407u;
        noise[i] = (uint8_t)(x >> 56);
    }
}

/* The end of ROOM bytes, behind which nothing can be touched. */
static uint8_t *room_end(void)
{
    uint8_t *start = mmap(NULL, ROOM + 2 * PAGE, PROT_READ | PROT_WRITE, MAP_PRIVATE | MAP_ANONYMOUS, -1, 0);
    if (start == MAP_FAILED)
        fail("no memory");
    uint8_t *end = (uint8_t *)(((uintptr_t)start + ROOM + PAGE - 1) / PAGE * PAGE);
    if (mprotect(end, PAGE, PROT_NONE) != 0)
        fail("a page can't be protected");
    return end;
}

static void take(void *to, size_t count)
{
    if (fread(to, 1, count, stdin) != count)
        fail("the input ends inside a case");
}

static void give(const void *from, size_t count)
{
    if (fwrite(from, 1, count, stdout) != count)
        fail("the output can't be written");
}

static uint32_t differing(const uint8_t *a, const uint8_t *b, size_t count)
{
    uint32_t found = 0;
    if (memcmp(a, b, count) == 0)
        return 0;
    for (size_t i = 0; i < count; i++)
        found += a[i] != b[i];
    return found;
}

static uint32_t not_zero(const uint8_t *bytes, size_t count)
{
    uint32_t found = 0;
    if (count == 0 || (bytes[0] == 0 && memcmp(bytes, bytes + 1, count - 1) == 0))
        return 0;
    for (size_t i = 0; i < count; i++)
        found += bytes[i] != 0;
    return found;
}

/* One more than the place of the last byte that has changed, and at least as many as the result is said to have. */
static uint32_t to_show(const uint8_t *out, const uint8_t *was, uint32_t length, uint32_t claimed)
{
    uint32_t least = claimed < length ? claimed : length, shown = length;
    if (memcmp(out + least, was + least, length - least) == 0)
        return least;
    while (shown > least && out[shown - 1] == was[shown - 1])
        shown--;
    return shown;
}

struct slice {
    uint8_t *bytes;
    uint32_t length;
};

struct buffers {
    struct slice book, out, work;
};

static struct samulsto_answer call(uint32_t which, const struct buffers *b)
{
    struct slice book = b->book, out = b->out, work = b->work;
    if (which == 1)
        return samulsto_elaborate(book.bytes, book.length, out.bytes, out.length, work.bytes, work.length);
    if (which == 2)
        return samulsto_elaborate_nested(book.bytes, book.length, out.bytes, out.length, work.bytes, work.length);
    struct samulsto_premise_answer got = samulsto_premise(book.bytes, book.length, work.bytes, work.length);
    struct samulsto_answer numbers = {got.code, got.holds, 0, 0, got.at};
    return numbers;
}

static uint64_t now(void)
{
    struct timespec t;
    clock_gettime(CLOCK_MONOTONIC, &t);
    return (uint64_t)t.tv_sec * 1000000000u + (uint64_t)t.tv_nsec;
}

/* The quickest of so many calls; the answer of the last. */
static uint32_t quickest(uint32_t which, const struct buffers *b, uint32_t times, struct samulsto_answer *got)
{
    uint64_t best = UINT32_MAX;
    while (times-- > 0) {
        uint64_t start = now();
        *got = call(which, b);
        uint64_t took = now() - start;
        best = took < best ? took : best;
    }
    return (uint32_t)best;
}

static ucontext_t home;
static const struct buffers *lent;
static uint32_t called;
static struct samulsto_answer answered;

static void call_lent(void)
{
    answered = call(called, lent);
}

/* Bytes of a stack of its own, all alike before, that one call has changed. */
static uint32_t stack_used(uint32_t which, const struct buffers *b, struct samulsto_answer *got)
{
    static uint64_t stack[STACK / 8];
    static ucontext_t away;
    uint32_t left = 0;
    memset(stack, 0x5a, STACK);
    lent = b;
    called = which;
    if (getcontext(&away) != 0)
        fail("no second stack");
    away.uc_stack.ss_sp = stack;
    away.uc_stack.ss_size = STACK;
    away.uc_link = &home;
    makecontext(&away, call_lent, 0);
    if (swapcontext(&home, &away) != 0)
        fail("no second stack");
    *got = answered;
    while (left < STACK / 8 && stack[left] == 0x5a5a5a5a5a5a5a5au)
        left++;
    return STACK - 8 * left;
}

static void answer_case(uint32_t which, uint32_t times, const struct buffers *b, const uint8_t *was)
{
    struct samulsto_answer got;
    uint32_t measure = 0;
    memcpy(b->book.bytes - BEFORE, copy, BEFORE + b->book.length);
    memcpy(b->out.bytes - BEFORE, was, BEFORE + b->out.length);
    memcpy(b->work.bytes - BEFORE, was, BEFORE + b->work.length);
    if (times == 0)
        measure = stack_used(which, b, &got);
    else if (times == 1)
        got = call(which, b);
    else
        measure = quickest(which, b, times, &got);
    uint32_t strayed = differing(b->book.bytes - BEFORE, copy, BEFORE + b->book.length) +
                       differing(b->out.bytes - BEFORE, was, BEFORE) + differing(b->work.bytes - BEFORE, was, BEFORE);
    uint32_t shown = to_show(b->out.bytes, was + BEFORE, b->out.length, which != 0 ? got.length : 0);
    uint32_t left = not_zero(b->work.bytes, b->work.length);
    uint32_t answer[9] = {got.code, got.length, got.definitions, got.lifted, got.at, left, strayed, measure, shown};
    give(answer, sizeof answer);
    give(b->out.bytes, shown);
}

static struct slice ending(uint8_t *end, uint32_t length)
{
    struct slice s = {end - length, length};
    if (length > ROOM - BEFORE)
        fail("a length is past all bounds");
    return s;
}

int main(void)
{
    uint8_t *book_end = room_end(), *out_end = room_end(), *work_end = room_end();
    uint32_t head[6];
    make_noise();
    while (fread(head, sizeof head, 1, stdin) == 1) {
        struct buffers b = {ending(book_end, head[1]), ending(out_end, head[2]), ending(work_end, head[3])};
        const uint8_t *was = noise + head[4] % PAGE;
        memcpy(copy, was, BEFORE);
        take(copy + BEFORE, b.book.length);
        answer_case(head[0], head[5], &b, was);
        if (fflush(stdout) != 0)
            fail("the output can't be written");
    }
    return 0;
}
