/* A small host, as a mixer controller's program would be: it calls each entry point with two buffers and tests every answer.
   It prints a line for each group of calls, and ends with status 1 at the first answer that is not as it must be. */
#include "recipe.h"

#include <stdio.h>
#include <stdlib.h>
#include <string.h>

static const char blend[] =
    "OPEN {blend} index i; integer n; real p[i] (1 <= i <= n);\n"
    "continuous x[i] (1 <= i <= n);\n"
    "MINIMIZE: S(i, 1, n, p[i] * x[i])\n"
    "{mass} S(i, 1, n, x[i]) = 1\n"
    "{lime} x[1] - 2 * x[2] >= 0.5\n"
    "{top} x[2] <= 0.75\n"
    "INIT {today} n + 2 p[i] + 3.10 + 4 CLOSE\n";

static const char listing[] =
    "lp\t0\t2\t1\t2\tblend\ttoday\n"
    "row\t1\tL\t-0.5\tlime\n"
    "row\t2\tE\t1\tmass\n"
    "var\t1\tC\t0\tinf\tx\t1\n"
    "var\t2\tC\t0\t0.75\tx\t2\n"
    "col\t1\t1\t-1\n"
    "col\t1\t2\t1\n"
    "col\t1\t3\t-3.1\n"
    "col\t2\t1\t2\n"
    "col\t2\t2\t1\n"
    "col\t2\t3\t-4\n"
    "end\n";

static const char export[] =
    "NAME MODEL\n"
    "ROWS\n"
    " N OBJ\n"
    " L R1\n"
    " E R2\n"
    "COLUMNS\n"
    " C1 R1 -1\n"
    " C1 R2 1\n"
    " C1 OBJ 3.1\n"
    " C2 R1 2\n"
    " C2 R2 1\n"
    " C2 OBJ 4\n"
    "RHS\n"
    " MODEL R1 -0.5\n"
    " MODEL R2 1\n"
    "BOUNDS\n"
    " LO MODEL C1 0\n"
    " PL MODEL C1\n"
    " LO MODEL C2 0\n"
    " UP MODEL C2 0.75\n"
    "ENDATA\n";

static const char lines[] =
    "row\t1\tL\t-0.5\n"
    "row\t2\tE\t1\n"
    "var\t1\tC\t0\tinf\n"
    "var\t2\tC\t0\t0.75\n"
    "col\t1\t1\t-1\n"
    "col\t1\t2\t1\n"
    "col\t1\t3\t-3.1\n"
    "col\t2\t1\t2\n"
    "col\t2\t2\t1\n"
    "col\t2\t3\t-4\n";

/* A floor and a ceiling in one line: a row of kind R, and both bounds of a variable. */
static const char pair[] = "OPEN {pair} continuous x, y; MINIMIZE: x + y {vitamin} 2 * x + y <= 9, >= 3.5 {share} x <= 2, >= 0.5 CLOSE";

static const char pair_listing[] =
    "lp\t0\t2\t1\t1\tpair\t\n"
    "row\t1\tR\t9\tvitamin\n"
    "low\t1\t3.5\n"
    "var\t1\tC\t0.5\t2\tx\n"
    "var\t2\tC\t0\tinf\ty\n"
    "col\t1\t1\t2\n"
    "col\t1\t2\t-1\n"
    "col\t2\t1\t1\n"
    "col\t2\t2\t-1\n"
    "end\n";

static const char pair_export[] =
    "NAME MODEL\n"
    "ROWS\n"
    " N OBJ\n"
    " L R1\n"
    " G F1\n"
    "COLUMNS\n"
    " C1 R1 2\n"
    " C1 F1 2\n"
    " C1 OBJ 1\n"
    " C2 R1 1\n"
    " C2 F1 1\n"
    " C2 OBJ 1\n"
    "RHS\n"
    " MODEL R1 9\n"
    " MODEL F1 3.5\n"
    "BOUNDS\n"
    " LO MODEL C1 0.5\n"
    " UP MODEL C1 2\n"
    " LO MODEL C2 0\n"
    " PL MODEL C2\n"
    "ENDATA\n";

static const char pair_lines[] =
    "row\t1\tR\t9\n"
    "low\t1\t3.5\n"
    "var\t1\tC\t0.5\t2\n"
    "var\t2\tC\t0\tinf\n"
    "col\t1\t1\t2\n"
    "col\t1\t2\t-1\n"
    "col\t2\t1\t1\n"
    "col\t2\t2\t-1\n";

/* The text of each refusal in two parts: the place is where the second begins. */
static const struct {
    uint32_t number;
    const char *before, *rest;
} refusals[] = {
    {RECIPE_STRANGE_BYTE, "", "?"},
    {RECIPE_MISPLACED, "OPEN ", "CLOSE"},
    {RECIPE_BAD_NAME, "OPEN {a} index i, ", "i;"},
    {RECIPE_UNFIT, "OPEN {a} continuous x; MINIMIZE: x {c} x <= 99999 ", "* 99999 CLOSE"},
    {RECIPE_FULL, "OPEN {a} continuous x; MINIMIZE: x {c} x <= ((((((((((((", "(1))))))))))))) CLOSE"},
    {RECIPE_BAD_INDEX, "OPEN {a} index i; real p[i] (1 <= i <= 1); continuous x; MINIMIZE: p[", "i] * x {c} x <= 1 INIT {d} p[i] + 1 CLOSE"},
    {RECIPE_NOT_WHOLE, "OPEN {a} index i; continuous x; MINIMIZE: x {c} x <= ", "SUM(i, 1, 257, 1) CLOSE"},
    {RECIPE_OUTSIDE, "OPEN {a} index i; integer n; real p[i] (1 <= i <= n); continuous x; MINIMIZE: ", "p[3] * x {c} x <= 1 INIT {d} n + 2 p[i] + 1 + 1 CLOSE"},
    {RECIPE_MISSING, "OPEN {a} integer n; continuous x; MINIMIZE: x {c} x <= 1 INIT {d} n + 2 ", "+ 3 CLOSE"},
};

typedef struct recipe_answer entry(const uint8_t *, size_t, uint8_t *, size_t);

/* One MiB, since the reader of exports has no limit on its text. */
#define LONGEST (1 << 20)

static uint8_t text[LONGEST], kept[LONGEST], out[RECIPE_BUFFER + 1];

static void fail(const char *what)
{
    printf("wrong: %s\n", what);
    exit(1);
}

/* Calls with a buffer of n bytes that is lent full and has a guard behind it, and tests all that an answer promises. */
static void call(entry *point, size_t length, size_t n, uint32_t number, size_t place, const char *wanted)
{
    size_t i, size = strlen(wanted);
    struct recipe_answer a;

    memset(out, 0xaa, n);
    out[n] = 0x55;
    memcpy(kept, text, length);
    a = point(text, length, out, n);
    if (a.number != number || a.place != place || a.length != size)
        fail("number, place or length");
    if (memcmp(out, wanted, size) != 0)
        fail("the report");
    for (i = size; i < n; i++)
        if (out[i] != 0)
            fail("a byte behind the report");
    if (out[n] != 0x55)
        fail("the guard behind the buffer");
    if (memcmp(text, kept, length) != 0)
        fail("the text was changed");
}

/* A report in buffers of 0 to 400 bytes: refused with its length where the buffer is shorter. */
static void buffers(entry *point, size_t length, const char *report)
{
    size_t n, size = strlen(report);

    for (n = 0; n <= 400; n++) {
        if (n < size)
            call(point, length, n, RECIPE_LONG_LISTING, size, "");
        else
            call(point, length, n, RECIPE_ACCEPTED, 0, report);
    }
}

static size_t put(const char *before, const char *rest)
{
    return (size_t)sprintf((char *)text, "%s%s", before, rest);
}

int main(void)
{
    size_t i, length = put(blend, ""), size = strlen(listing);

    call(recipe_generate, length, RECIPE_BUFFER, RECIPE_ACCEPTED, 0, listing);
    printf("blend is accepted: %zu bytes\n", size);

    call(recipe_generate, length, size, RECIPE_ACCEPTED, 0, listing);
    call(recipe_generate, length, size - 1, RECIPE_LONG_LISTING, size, "");
    printf("a buffer one byte short: refused %d at %zu\n", RECIPE_LONG_LISTING, size);

    buffers(recipe_generate, length, listing);
    printf("buffers of 0 to 400 bytes\n");

    memset(text, ' ', RECIPE_TEXT_LIMIT + 1);
    call(recipe_generate, RECIPE_TEXT_LIMIT + 1, RECIPE_BUFFER, RECIPE_LONG_TEXT, RECIPE_TEXT_LIMIT, "");
    call(recipe_export, RECIPE_TEXT_LIMIT + 1, RECIPE_BUFFER, RECIPE_LONG_TEXT, RECIPE_TEXT_LIMIT, "");
    printf("refused %d at %d\n", RECIPE_LONG_TEXT, RECIPE_TEXT_LIMIT);
    for (i = 0; i < sizeof refusals / sizeof *refusals; i++) {
        size_t place = strlen(refusals[i].before);
        length = put(refusals[i].before, refusals[i].rest);
        call(recipe_generate, length, RECIPE_BUFFER, refusals[i].number, place, "");
        call(recipe_generate, length, 0, refusals[i].number, place, "");
        call(recipe_export, length, RECIPE_BUFFER, refusals[i].number, place, "");
        call(recipe_export, length, 0, refusals[i].number, place, "");
        printf("refused %u at %zu\n", (unsigned)refusals[i].number, place);
    }

    /* An export is made in one buffer; read back, it is the text of the next call. */
    length = put(blend, "");
    call(recipe_export, length, RECIPE_BUFFER, RECIPE_ACCEPTED, 0, export);
    buffers(recipe_export, length, export);
    length = strlen(export);
    printf("%sblend is exported: %zu bytes\n", (const char *)out, length);
    memcpy(text, out, length);
    call(recipe_read_export, length, RECIPE_BUFFER, RECIPE_ACCEPTED, 0, lines);
    buffers(recipe_read_export, length, lines);
    printf("%sread back: %zu bytes\n", (const char *)out, strlen(lines));
    call(recipe_read_export, length - 1, RECIPE_BUFFER, RECIPE_MISPLACED, 0, "");
    memset(text, ' ', LONGEST);
    call(recipe_read_export, LONGEST, RECIPE_BUFFER, RECIPE_MISPLACED, 0, "");
    printf("no export: refused %d at 0\n", RECIPE_MISPLACED);

    length = put(pair, "");
    buffers(recipe_generate, length, pair_listing);
    buffers(recipe_export, length, pair_export);
    buffers(recipe_read_export, put(pair_export, ""), pair_lines);
    printf("a floor and a ceiling: listed, exported and read back, in buffers of 0 to 400 bytes\n");

    length = put(blend, "");
    call(recipe_generate, length, RECIPE_BUFFER, RECIPE_ACCEPTED, 0, listing);
    printf("blend again: nothing was kept\n");
    return 0;
}
