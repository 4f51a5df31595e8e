/* Runs libuxt.a on tree files of version 1, on a thread with a stack of 256 KB, and says how much of it was used.
 *
 *   stack list < FILES      standard input and standard output are those of the program `listings`: for
 *                           each file its length in two bytes, lower first, and its bytes; printed are
 *                           `count` and how many effects there are, then a line for each, or `refused` and
 *                           the number. Each file is listed a second time, of which nothing is printed, with
 *                           yes places, so that both arms of its conditionals are run
 *   stack reduce < FILES    the same input; printed is a line for each file, as `driver reduced` prints it:
 *                           the number of the refusal, the length of the answer, and the FNV-1a hash of
 *                           its bytes
 *
 * Each file is run as version 2, too, of which nothing is printed: the program stops where its list is another, or
 * what is left of it other than what is left of version 1, with the ends that go with the starts.
 *
 * Standard error gets the most bytes of the stack that any file took, and how many a thread takes that calls
 * nothing. The stack is filled with a pattern before each file, and the lowest byte that changed is looked
 * for. A page below the stack takes no access, so that a file that needs more ends the program.
 *
 * What is lent for the answer is filled with a pattern, too; the program stops where a byte after the answer
 * changed. */
#include <pthread.h>
#include <stdio.h>
#include <stdlib.h>
#include <string.h>
#include <sys/mman.h>

#include "uxt.h"

enum { STACK = 256 * 1024, GUARD = 4096, PATTERN = 0xa5, YES = 2048, LONGEST = 65535 };

/* A file and what is answered to it. */
typedef struct {
    uint8_t file[2 * LONGEST]; /* as version 2 it is longer than it is read, but not twice as long */
    size_t length;
    uint64_t entries[UXT_MOST_ENTRIES];
    uint8_t out[UXT_MOST_OUT];
    uint64_t answer;
} Case;

static Case narrow, wide; /* as it is read, and as version 2 */
static uint32_t yes[YES];  /* 0 to 2,047: there are no tests at other places */

static void stop(const char *why) {
    fprintf(stderr, "stack: %s\n", why);
    exit(1);
}

/* ---- What is run on the thread, and what is printed of it */

static void *idle(void *unused) {
    return unused;
}

static void *list(void *lent) {
    Case *c = lent;
    uxt_list_effects_given(c->file, c->length, yes, YES, c->entries, UXT_MOST_ENTRIES);
    c->answer = uxt_list_effects(c->file, c->length, c->entries, UXT_MOST_ENTRIES);
    return lent;
}

static void *reduce(void *lent) {
    Case *c = lent;
    c->answer = uxt_reduce(c->file, c->length, c->out, UXT_MOST_OUT);
    return lent;
}

static void print_list(void) {
    if (UXT_NUMBER(narrow.answer) != 0) {
        printf("refused %u\n", (unsigned)UXT_NUMBER(narrow.answer));
        return;
    }
    printf("count %u\n", (unsigned)UXT_COUNT(narrow.answer));
    for (size_t i = 0; i < UXT_COUNT(narrow.answer); i++) {
        uint64_t entry = narrow.entries[i];
        printf("%u/%u/%d\n", (unsigned)UXT_PLACE(entry), (unsigned)UXT_KIND(entry), UXT_COERCION(entry));
    }
}

/* The byte that stands in the output before the call: another from place to place. */
static uint8_t filler(size_t at) {
    return (uint8_t)((at * 0x9e3779b1u) >> 24);
}

static void fill(Case *c) {
    for (size_t i = 0; i < UXT_MOST_OUT; i++) {
        c->out[i] = filler(i);
    }
}

static void check_rest(const Case *c) {
    for (size_t i = UXT_LENGTH(c->answer); i < UXT_MOST_OUT; i++) {
        if (c->out[i] != filler(i)) {
            stop("a byte after the answer changed");
        }
    }
}

static void print_reduced(void) {
    uint64_t hash = 0xcbf29ce484222325;
    for (size_t i = 0; i < UXT_LENGTH(narrow.answer); i++) {
        hash = (hash ^ narrow.out[i]) * 0x100000001b3;
    }
    printf("%u %u %016llx\n", (unsigned)UXT_NUMBER(narrow.answer), (unsigned)UXT_LENGTH(narrow.answer),
           (unsigned long long)hash);
}

/* ---- Version 2 */

/* Writes a file of version 1, or none, as version 2, and returns its length. The end of a record goes by its start, and is
 * no record's start: its highest byte is 255. */
static size_t widen(const uint8_t *from, size_t length, uint8_t *to) {
    if (length < 8) {
        return 0;
    }
    size_t records = (length - 8) / 16;
    memcpy(to, from, 8);
    to[3] = 2;
    for (size_t i = 0; i < records; i++) {
        uint8_t *record = to + 8 + 20 * i;
        memcpy(record, from + 8 + 16 * i, 16);
        memcpy(record + 16, record + 12, 3);
        record[19] = 255;
    }
    return 8 + 20 * records;
}

static void check_list(void) {
    if (wide.answer != narrow.answer ||
        memcmp(wide.entries, narrow.entries, UXT_COUNT(narrow.answer) * sizeof narrow.entries[0]) != 0) {
        stop("version 2 has another list");
    }
}

static void check_reduced(void) {
    static uint8_t due[UXT_MOST_OUT];
    size_t length = widen(narrow.out, UXT_LENGTH(narrow.answer), due);
    if (UXT_NUMBER(wide.answer) != UXT_NUMBER(narrow.answer) || UXT_LENGTH(wide.answer) != length ||
        memcmp(wide.out, due, length) != 0) {
        stop("version 2 has another answer");
    }
    check_rest(&narrow);
    check_rest(&wide);
}

/* ---- The stack */

/* The bytes of the stack that were written to: it grows down. */
static size_t used(const uint8_t *stack) {
    size_t untouched = 0;
    while (untouched < STACK && stack[untouched] == PATTERN) {
        untouched++;
    }
    return STACK - untouched;
}

/* How much of the stack a thread takes that does this with what is lent. */
static size_t run(uint8_t *stack, void *(*what)(void *), void *lent) {
    pthread_attr_t attributes;
    pthread_t thread;
    memset(stack, PATTERN, STACK);
    if (pthread_attr_init(&attributes) != 0 || pthread_attr_setstack(&attributes, stack, STACK) != 0 ||
        pthread_create(&thread, &attributes, what, lent) != 0 || pthread_join(thread, NULL) != 0) {
        stop("the thread did not run");
    }
    pthread_attr_destroy(&attributes);
    return used(stack);
}

/* ---- The files */

/* The next file of standard input, in both versions; 0 where there is none. */
static int read_file(void) {
    uint8_t length[2];
    size_t got = fread(length, 1, 2, stdin);
    if (got == 0) {
        return 0;
    }
    narrow.length = length[0] + 256 * (size_t)length[1];
    if (got != 2 || fread(narrow.file, 1, narrow.length, stdin) != narrow.length) {
        stop("a file is cut short");
    }
    wide.length = widen(narrow.file, narrow.length, wide.file);
    return 1;
}

int main(int words, char **word) {
    int reduces = words == 2 && strcmp(word[1], "reduce") == 0;
    if (!reduces && (words != 2 || strcmp(word[1], "list") != 0)) {
        stop("usage: stack list | reduce < FILES");
    }
    uint8_t *memory = mmap(NULL, GUARD + STACK, PROT_READ | PROT_WRITE, MAP_PRIVATE | MAP_ANONYMOUS, -1, 0);
    if (memory == MAP_FAILED || mprotect(memory, GUARD, PROT_NONE) != 0) {
        stop("no memory for the stack");
    }
    uint8_t *stack = memory + GUARD;
    Case *cases[] = {&narrow, &wide};
    size_t files = 0, most = 0;
    for (uint32_t i = 0; i < YES; i++) {
        yes[i] = i;
    }
    for (; read_file(); files++) {
        for (size_t i = 0; i < 2; i++) {
            fill(cases[i]);
            size_t now = run(stack, reduces ? reduce : list, cases[i]);
            most = now > most ? now : most;
        }
        reduces ? print_reduced() : print_list();
        reduces ? check_reduced() : check_list();
    }
    fprintf(stderr, "stack: %s, %zu files, at most %zu of %d bytes of stack; %zu where nothing is called\n", word[1],
            files, most, (int)STACK, run(stack, idle, NULL));
    return 0;
}
