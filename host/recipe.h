/* The recipe model generator for C: link target/staticlib/libgenerator.a (x86-64 Linux; made by host/library).

   recipe_generate       reads a model text and writes its listing
   recipe_export         reads a model text and writes it in free MPS form, for another solver
   recipe_read_export    reads such an export and writes the listing's row, low, var and col lines without strings, names and
                         indices

   Each has the same two buffers: the host lends a text, which is only read, and an output buffer, into which the report is
   written. Both stay the host's. The contract of each, for every text and every buffer length, is that of the function with its
   name in crates/generator_c/src/lib.rt, and is proved. docs/LANGUAGE.md describes the language, docs/REPORTS.md the reports,
   docs/REFUSALS.md the refusals.

   accepted   number 0, place 0, the length of the report; the bytes of the buffer after the report are zero
   refused    number 1 to 11, its place, length 0; every byte of the buffer is zero

   recipe_export refuses a model exactly as recipe_generate does, with the same number and place. Only the last refusal, 11,
   depends on the report: its place is the length of the report that was asked for, so a host that gets it can lend a buffer
   of that many bytes and call again.

   recipe_read_export takes a text of any length. One that is not an export, byte for byte, is refused with 3 at 0. Whatever
   recipe_export has written is accepted.

   The text is not changed. No byte outside the two buffers and the stack is read or written, no heap memory is used,
   nothing is kept from one call to the next, and calls may run concurrently in different threads. The only functions of the
   host's libraries that are called are memcpy and memset.

   The host must ensure that
   - text and out point to text_length and out_length bytes (for a length of 0, any pointer that is not null will do),
   - the two do not overlap, and no other thread writes to them during the call,
   - the calling thread has RECIPE_STACK bytes of stack left. */
#ifndef RECIPE_H
#define RECIPE_H

#include <stddef.h>
#include <stdint.h>

#ifdef __cplusplus
extern "C" {
#endif

/* Why a text is refused. */
enum recipe_refusal {
    RECIPE_ACCEPTED = 0,
    RECIPE_LONG_TEXT = 1,     /* a text of more than 16,384 bytes */
    RECIPE_STRANGE_BYTE = 2,  /* a byte that starts no token or is not allowed in a string */
    RECIPE_MISPLACED = 3,     /* a misshapen or misplaced token; of recipe_read_export, a text that is no export, at 0 */
    RECIPE_BAD_NAME = 4,      /* a name too long, unknown, or declared again */
    RECIPE_UNFIT = 5,         /* a value that does not fit */
    RECIPE_FULL = 6,          /* a table is full */
    RECIPE_BAD_INDEX = 7,     /* an index unbound, already bound, or a fifth bound; an order or marks that are not a rearrangement */
    RECIPE_NOT_WHOLE = 8,     /* a subscript or integer datum that is not whole; a run of more than 256 */
    RECIPE_OUTSIDE = 9,       /* a subscript or fixed entry outside the domain */
    RECIPE_MISSING = 10,      /* a value missing, given twice, or one number too many */
    RECIPE_LONG_LISTING = 11, /* the report is longer than the buffer; the place is its length */
};

/* The longest model text that is read, and the size of the program's own output buffer. */
#define RECIPE_TEXT_LIMIT 16384
#define RECIPE_BUFFER 65536

/* The stack that a call needs, in bytes, with a margin: the most deeply nested texts took up to 3,287,264 (host/stack.c measures
   this, and host/run fails if a text takes more than RECIPE_STACK). */
#define RECIPE_STACK 4194304

struct recipe_answer {
    uint32_t number; /* 0, or a refusal */
    size_t place;    /* the byte refused, counted from 0; the text's length at its end; for refusal 11 the report's length */
    size_t length;   /* of the report; 0 if refused */
};

/* The listing of a model text. */
struct recipe_answer recipe_generate(const uint8_t *text, size_t text_length, uint8_t *out, size_t out_length);

/* A model text in free MPS form. The listing's rows and variables in its order, with the listing's values; only the objective
   has the other sign, since readers of MPS minimise. A floor (a low line) is a G row of its own, F and the row's number, with the
   coefficients of its row. */
struct recipe_answer recipe_export(const uint8_t *text, size_t text_length, uint8_t *out, size_t out_length);

/* What an export says: the row, low, var and col lines of the listing, without strings, names and indices. */
struct recipe_answer recipe_read_export(const uint8_t *text, size_t text_length, uint8_t *out, size_t out_length);

#ifdef __cplusplus
}
#endif

#endif
