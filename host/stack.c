/* Measures the stack that a call needs: it calls in threads whose stacks are found by halving, each in a process of its own.
   The texts are document 01's case, and two that nest as deep as the language allows, with all 64 names: declared formulas, each
   the subscript of a subscript and so on, twelve deep, around the one before; and declared domains, each with such a limit around
   the name before. Subscripts need more stack than parentheses, and as much as sums. Each is listed and exported; the reader of
   exports is given the export of document 01's case. It prints bytes for each, and ends with status 1 if one is above RECIPE_STACK. */
#include "recipe.h"

#include <limits.h>
#include <pthread.h>
#include <stdio.h>
#include <stdlib.h>
#include <string.h>
#include <sys/wait.h>
#include <unistd.h>

/* Names beside the index, the real and the variable that each text needs, and brackets that are open at once. */
#define NAMES 61
#define BRACKETS 12

typedef struct recipe_answer entry(const uint8_t *, size_t, uint8_t *, size_t);

static char text[RECIPE_TEXT_LIMIT + 1];
static uint8_t out[RECIPE_BUFFER];
static size_t length;
static entry *point;

static void add(const char *piece)
{
    size_t n = strlen(piece);
    if (length + n > RECIPE_TEXT_LIMIT)
        abort();
    memcpy(text + length, piece, n + 1);
    length += n;
}

static void add_name(char letter, int number)
{
    char name[8];
    sprintf(name, "%c%d", letter, number);
    add(name);
}

/* The name as a subscript, so many deep. */
static void add_within(int depth, char letter, int number, const char *subscript)
{
    int i;
    for (i = 0; i < depth; i++)
        add("q[");
    add_name(letter, number);
    add(subscript);
    for (i = 0; i < depth; i++)
        add("]");
}

static void blend(void)
{
    add("OPEN {blend} index i; integer n; real p[i] (1 <= i <= n); continuous x[i] (1 <= i <= n);"
        "MINIMIZE: S(i, 1, n, p[i] * x[i]) {mass} S(i, 1, n, x[i]) = 1 {lime} x[1] - 2 * x[2] >= 0.5 {top} x[2] <= 0.75 "
        "INIT {today} n + 2 p[i] + 3.10 + 4 CLOSE");
}

/* The export of blend. */
static void exported(void)
{
    struct recipe_answer a;
    blend();
    a = recipe_export((const uint8_t *)text, length, out, sizeof out - 1);
    length = 0;
    if (a.number == RECIPE_ACCEPTED)
        add((const char *)out);
}

static void formulas(void)
{
    int i;
    add("OPEN {a} index i; real q[i] (1<=i<=1); formula f1 = 1");
    for (i = 2; i <= NAMES; i++) {
        add(",");
        add_name('f', i);
        add("=");
        add_within(BRACKETS, 'f', i - 1, "");
    }
    add("; continuous x; MINIMIZE: x {c} x <= ");
    add_within(BRACKETS, 'f', NAMES, "");
    add(" INIT {d} q[1]+1 CLOSE");
}

static void domains(void)
{
    int i;
    add("OPEN {a} index i; real q[i] (1<=i<=1), p1[i] (1<=i<=1)");
    for (i = 2; i <= NAMES; i++) {
        add(",");
        add_name('p', i);
        add("[i](1<=i<=");
        add_within(BRACKETS - 2, 'p', i - 1, "[1]");
        add(")");
    }
    add("; continuous x; MINIMIZE: x {c} x <= ");
    add_within(BRACKETS - 1, 'p', NAMES, "[1]");
    add(" INIT {d} q[1]+1 ");
    for (i = 1; i <= NAMES; i++) {
        add_name('p', i);
        add("[1]+1 ");
    }
    add("CLOSE");
}

static void *call(void *unused)
{
    struct recipe_answer a = point((const uint8_t *)text, length, out, sizeof out);
    (void)unused;
    _exit(a.number == RECIPE_ACCEPTED ? 0 : 2);
}

/* Whether a call gets by with this much. */
static int enough(size_t stack)
{
    int status;
    pid_t child = fork();
    if (child == 0) {
        pthread_t thread;
        pthread_attr_t attributes;
        pthread_attr_init(&attributes);
        if (pthread_attr_setstacksize(&attributes, stack) != 0 || pthread_create(&thread, &attributes, call, NULL) != 0)
            _exit(3);
        pthread_join(thread, NULL);
    }
    waitpid(child, &status, 0);
    if (WIFEXITED(status) && WEXITSTATUS(status) == 2) {
        printf("a text was refused\n");
        exit(1);
    }
    return WIFEXITED(status) && WEXITSTATUS(status) == 0;
}

static int measure(const char *name, entry *called, void (*write)(void))
{
    size_t low = 16384, high = 64 << 20;
    point = called;
    length = 0;
    write();
    while (high - low > 1024) {
        size_t middle = (low + high) / 2 / 16 * 16;
        if (enough(middle))
            high = middle;
        else
            low = middle;
    }
    printf("stack for %s: %zu bytes\n", name, high);
    return high > RECIPE_STACK;
}

int main(void)
{
    setvbuf(stdout, NULL, _IONBF, 0);
    return measure("blend", recipe_generate, blend) | measure("formulas", recipe_generate, formulas) |
           measure("domains", recipe_generate, domains) | measure("the export of blend", recipe_export, blend) |
           measure("the export of formulas", recipe_export, formulas) | measure("the export of domains", recipe_export, domains) |
           measure("the reader of exports", recipe_read_export, exported);
}
