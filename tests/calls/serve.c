/* Answers calls of the library, one a line of standard input, so that outside vectors can be run through the exported interface.
 *   load  L1..L9 STORE STREAM CAP        -> ANSWER COUNT BLANK OBEYED PASSED DROPPED CLOSING REPORTS STORE
 *   translate, with the same words and answer as load
 *   write L1..L9 STORE ROOM              -> ANSWER LENGTH OUT
 *   find  L1..L9 STORE PAGE WHOLE TENTHS -> ANSWER PLACE
 *   empty L1..L9 STORE                   -> ANSWER STORE
 *   needed L1..L9                        -> ANSWER LENGTH
 * An answer is the word that the call returns. Bytes are hexadecimal after an x; `x` alone is none, `x*N` is N zero bytes. Lent lists are
 * filled with a mark first, and a refused call must leave each as it was: `TOUCHED` is printed where one did not. */
#include <inttypes.h>
#include <stdint.h>
#include <stdio.h>
#include <stdlib.h>
#include <string.h>

#include "sphairune.h"

/* What stands in an entry of a lent list that the call has to leave alone. */
#define MARK 0xabcdef0123456789u

static char *line;

static char *word(void) { return strtok(NULL, " \n"); }

static uint32_t number(void) { return (uint32_t)strtoul(word(), NULL, 10); }

static uint8_t *bytes(size_t *n) {
    char *w = word() + 1;
    if (*w == '*') {
        *n = strtoul(w + 1, NULL, 10);
        return calloc(*n + 1, 1);
    }
    *n = strlen(w) / 2;
    uint8_t *b = malloc(*n + 1);
    for (size_t i = 0; i < *n; i++) {
        unsigned v;
        sscanf(w + 2 * i, "%2x", &v);
        b[i] = (uint8_t)v;
    }
    return b;
}

static void hex(const uint8_t *b, size_t n) {
    putchar('x');
    for (size_t i = 0; i < n; i++) printf("%02x", b[i]);
}

int main(void) {
    size_t room = 0;
    while (getline(&line, &room, stdin) > 0) {
        char *what = strtok(line, " \n");
        uint32_t limits[9];
        size_t n, m, mark = (size_t)MARK;
        if (!what) continue;
        for (int i = 0; i < 9; i++) limits[i] = number();
        if (!strcmp(what, "needed")) {
            uint32_t r = sphairune_needed(limits, 9, &mark, 1);
            printf("%u %zu%s\n", r, mark, r && mark != (size_t)MARK ? " TOUCHED" : "");
            continue;
        }
        uint8_t *store = bytes(&n), *before = malloc(n + 1);
        memcpy(before, store, n);
        if (!strcmp(what, "load") || !strcmp(what, "translate")) {
            uint8_t *stream = bytes(&m);
            uint32_t cap = number(), totals[6];
            uint64_t *reports = malloc((cap + 1) * sizeof *reports);
            for (uint32_t i = 0; i < 6; i++) totals[i] = (uint32_t)MARK;
            for (uint32_t i = 0; i < cap; i++) reports[i] = MARK;
            uint32_t (*load)(const uint32_t *, size_t, uint8_t *, size_t, const uint8_t *, size_t, uint64_t *, size_t, uint32_t *, size_t) =
                *what == 't' ? sphairune_translate : sphairune_load;
            uint32_t r = load(limits, 9, store, n, stream, m, reports, cap, totals, 6);
            printf("%u %u %u %u %u %u %u ", r, totals[0], totals[1], totals[2], totals[3], totals[4], totals[5]);
            uint32_t stored = r ? 0 : totals[0] < cap ? totals[0] : cap;
            putchar('[');
            for (uint32_t i = 0; i < stored; i++) printf("%" PRIu64 ",", reports[i]);
            printf("] ");
            int touched = r && memcmp(store, before, n);
            for (uint32_t i = 0; i < 6; i++) touched |= r && totals[i] != (uint32_t)MARK;
            for (uint32_t i = stored; i < cap; i++) touched |= reports[i] != MARK;
            hex(store, n);
            puts(touched ? " TOUCHED" : "");
            free(stream), free(reports);
        } else if (!strcmp(what, "write")) {
            size_t space = number();
            uint8_t *out = malloc(space + 1);
            memset(out, 0xa5, space + 1);
            uint32_t r = sphairune_write(limits, 9, store, n, out, space, &mark, 1);
            int touched = memcmp(store, before, n) || (r && r != SPHAIRUNE_R6 && mark != (size_t)MARK);
            for (size_t i = r ? 0 : mark; i < space; i++) touched |= out[i] != 0xa5;
            printf("%u %zu ", r, mark);
            hex(out, r ? 0 : mark);
            puts(touched ? " TOUCHED" : "");
            free(out);
        } else if (!strcmp(what, "find")) {
            uint32_t page = number(), whole = number(), tenths = number();
            uint32_t r = sphairune_find(limits, 9, store, n, page, whole, tenths, &mark, 1);
            int touched = memcmp(store, before, n) || (r && mark != (size_t)MARK);
            printf("%u %zu%s\n", r, mark, touched ? " TOUCHED" : "");
        } else {
            uint32_t r = sphairune_empty(limits, 9, store, n);
            printf("%u ", r);
            hex(store, n);
            puts(r && memcmp(store, before, n) ? " TOUCHED" : "");
        }
        free(store), free(before);
    }
    return 0;
}
