/* Samulsto: `elaborate` of the Vest format compiler, proved.
 *
 * Link with crates/elab/out/libelab.a, which `rt lib` in crates/elab writes for x86-64 Linux. The archive takes memcpy,
 * memmove and memset from the C library and nothing else; it keeps no state and calls nobody back, so any number of
 * threads may call it, each with buffers of its own.
 *
 * A call takes at most SAMULSTO_STACK_BYTES of stack; docs/SPEED.md says how that was summed.
 *
 * A book holds definitions of record layouts; docs/CODES.md and oracle/README.md show some. Every string of bytes may
 * be handed in: what is no book, or too much of one, is answered with a code.
 *
 * What a call asks: each pointer points to as many bytes as its length says and is not NULL, not even where the
 * length is 0; buffers that are written (out, work) overlap no other buffer. Nothing else is asked, and alignment and
 * what the buffers hold before do not matter.
 */
#ifndef SAMULSTO_H
#define SAMULSTO_H

#include <stddef.h>
#include <stdint.h>

#ifdef __cplusplus
extern "C" {
#endif

/* Sizes. */
#define SAMULSTO_BOOK_BYTES 16384  /* a book is at most so long; a longer one is answered with 2 */
#define SAMULSTO_WORK_BYTES 65536  /* the work area is at least so long; with a shorter one the answer is 1 */
#define SAMULSTO_OUT_BYTES 16384   /* no result is longer: with an output of this size the answer is never 11 */
#define SAMULSTO_DEFINITIONS 512   /* definitions of a book and of a result, at most */
#define SAMULSTO_NAME_BYTES 255    /* bytes of a name, at most */
#define SAMULSTO_LEVELS 64         /* levels of a body, at most */
#define SAMULSTO_STACK_BYTES 409600 /* stack of a call, at most: for a long book in nested mode; a short one takes 24 KiB on */
#define SAMULSTO_PASSES 16         /* passes of the nested mode, at most */

/* Codes. They are tested in this order, so a smaller one hides a larger one; but 7 to 10 are tested at each lift, in
 * the order 9, 7, 8, 10, and the first lift with one of them decides; and 12, which the nested mode alone answers, is
 * tested after 6 and before any lift. docs/CODES.md says what to do about each. */
enum samulsto_code {
    SAMULSTO_DONE = 0,                 /* done */
    SAMULSTO_WORK_TOO_SHORT = 1,       /* the work area is under 65,536 bytes */
    SAMULSTO_BOOK_TOO_LONG = 2,        /* the book is over 16,384 bytes */
    SAMULSTO_NOT_A_BOOK = 3,           /* not a book: the contents, a tag, a length or what is left over is wrong */
    SAMULSTO_BAD_NAME = 4,             /* a name that is not UTF-8, or a plain name with '.' */
    SAMULSTO_TOO_DEEP = 5,             /* more than 64 levels */
    SAMULSTO_MACRO_GROWTH = 6,         /* macros grow past 16,384 bytes or 64 levels */
    SAMULSTO_LEFTOVER_MACRO = 7,       /* a call of an unknown macro inside a format that has to be lifted */
    SAMULSTO_NO_BINDER = 8,            /* a lifted format uses a name that nothing before it binds */
    SAMULSTO_LIFTED_NAME_TOO_LONG = 9, /* the name of a lifted format would be over 255 bytes */
    SAMULSTO_RESULT_TOO_LARGE = 10,    /* the result would be over 16,384 bytes or 512 definitions */
    SAMULSTO_OUT_TOO_SHORT = 11,       /* the output is shorter than the result */
    SAMULSTO_MACRO_CALL_LEFT = 12      /* a known macro call is left after pass 16 */
};

/* What samulsto_elaborate (0 to 11) and samulsto_elaborate_nested (0 to 12) answer. After a refusal every number but
 * `code` and `at` is 0.
 *
 * `at` is 0 unless `code` is 3, 4 or 5. With these it is the offset in the book of the first byte of the item at fault:
 * of a count, of an entry of the contents, of a tag, kind or flag, of a name or text (its length), or of the first
 * byte that is left over. An item that is missing stands where it would begin, so `at` may be the book's length. */
struct samulsto_answer {
    uint32_t code;        /* one of enum samulsto_code */
    uint32_t length;      /* bytes of the result: out[0] to out[length - 1] */
    uint32_t definitions; /* definitions of the result, lifted ones included */
    uint32_t lifted;      /* how many were lifted: they are the last ones of the result */
    uint32_t at;          /* for 3, 4 and 5 the byte of the book at fault, else 0 */
};

/* What samulsto_premise answers. After a refusal `holds` is 0, and `at` is as above. */
struct samulsto_premise_answer {
    uint32_t code;  /* 0, or 1 to 6 of enum samulsto_code */
    uint32_t holds; /* 1 for yes, 0 for no */
    uint32_t at;    /* for 3, 4 and 5 the byte of the book at fault, else 0 */
};

/* Expands the macros of a book and lifts its nested formats into definitions of their own.
 *
 * code 0: the result, itself a book, stands in the first `length` bytes of out; the bytes behind it are as before.
 * any other code: out is as before.
 * In every case work is all zero afterwards, however long it is, and the book is not written to. */
struct samulsto_answer samulsto_elaborate(const uint8_t *book, size_t book_length, uint8_t *out, size_t out_length,
                                          uint8_t *work, size_t work_length);

/* The same in nested mode, for macros that call macros. samulsto_elaborate expands macros in one pass, which leaves the
 * macro calls of a macro's body and of an argument that is put in. Here the pass is run again on its result, with the
 * same macros, until no call of a macro of the book stands where a pass reaches: at most 16 passes in all. A pass
 * reaches all of a format's body but the arguments of a macro call; it does not reach parameter types.
 *
 * Code 6 is tested in every pass. 12: a call of a macro of the book is left after pass 16. Macros that call themselves,
 * directly or through others, end with one of the two. Where one pass is enough, both calls answer the same.
 * Output, counts, work area and book: as with samulsto_elaborate. */
struct samulsto_answer samulsto_elaborate_nested(const uint8_t *book, size_t book_length, uint8_t *out,
                                                 size_t out_length, uint8_t *work, size_t work_length);

/* Whether, once macros are expanded as samulsto_elaborate does, every format that is called in a format's body is
 * defined in the book (constants count too) and chains stand on Bytes and Tail alone. Where it does, putting the lifted
 * definitions back gives the expanded book again, and their parameters are exactly the ones that are needed.
 * In every case work is all zero afterwards, however long it is, and the book is not written to. */
struct samulsto_premise_answer samulsto_premise(const uint8_t *book, size_t book_length, uint8_t *work,
                                                size_t work_length);

#ifdef __cplusplus
}
#endif

#endif
