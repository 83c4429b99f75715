/* cue_sheet [--translate] FILE [nine limits]: loads a show file into an empty desk and prints a cue sheet for the prep bench.
 *
 * The desk is the house small desk unless its nine limits are given, in the order of include/sphairune.h. With --translate the load is the
 * one with translation, which numbers all memories anew. First come the reports, each with the record as received and a mark under the field
 * that is blamed, then the cues by page and number, then what is kept and the tallies.
 * Exit status 0 where there is a sheet, 1 where the file cannot be read, a call is turned away or the sheet cannot be written, 2 where the
 * arguments are wrong.
 * bindings/rust/examples/cue_sheet.rs prints the same. */
#include <errno.h>
#include <stdio.h>
#include <stdlib.h>
#include <string.h>

#include "sphairune.h"

/* The longest record that the standard allows; of a longer one the sheet shows this much. */
#define MOST_CHARACTERS 80

/* Channels on one line of the sheet. */
#define PER_LINE 5

static uint8_t stream[SPHAIRUNE_MOST_STREAM + 1];

static void quit(const char *file, const char *why) {
    fprintf(stderr, "cue_sheet: %s: %s\n", file, why);
    exit(1);
}

/* What a refusal says, with the slot or patch entry that is at fault. */
static void print_refusal(uint32_t answer) {
    uint32_t place = sphairune_answer_place(answer);
    switch (sphairune_answer_number(answer)) {
    case SPHAIRUNE_R4A: fprintf(stderr, "slot %u is out of form for this desk\n", place); break;
    case SPHAIRUNE_R4B: fprintf(stderr, "slot %u has the number and page of an earlier one\n", place); break;
    case SPHAIRUNE_R4C: fprintf(stderr, "patch entry %u is out of form for this desk\n", place); break;
    default: fprintf(stderr, "%s\n", sphairune_refusal_text(answer));
    }
}

static void answered(const char *file, uint32_t answer) {
    if (answer == SPHAIRUNE_DONE) return;
    fprintf(stderr, "cue_sheet: %s: refused, %s: ", file, sphairune_refusal_name(answer));
    print_refusal(answer);
    exit(1);
}

static void *room(size_t count, size_t size) {
    void *memory = calloc(count, size);
    if (!memory) {
        fprintf(stderr, "cue_sheet: out of memory\n");
        exit(1);
    }
    return memory;
}

/* Digits alone, and no more than 32 bits: whether the desk has such a limit is for the library to say. */
static int limit(const char *text, uint32_t *value) {
    uint64_t n = 0;
    if (!*text) return 0;
    for (; *text; text++) {
        if (*text < '0' || '9' < *text) return 0;
        n = n * 10 + (uint64_t)(*text - '0');
        if (n > 0xffffffffu) return 0;
    }
    *value = (uint32_t)n;
    return 1;
}

/* The whole file, or one byte more than the longest stream, which the load then turns away. */
static size_t read_file(const char *file) {
    FILE *in = fopen(file, "rb");
    if (!in) quit(file, errno == ENOENT ? "no such file" : "cannot be read");
    size_t n = fread(stream, 1, sizeof stream, in);
    if (ferror(in)) quit(file, "cannot be read");
    fclose(in);
    return n;
}

/* Where a record begins, which one it is, from 1, and where its characters end. */
struct record {
    size_t from, to;
    uint32_t number;
};

static int terminator(uint8_t c) { return c == '\r' || c == '\n'; }

static void find_end(struct record *r, size_t n) {
    for (r->to = r->from; r->to < n && !terminator(stream[r->to]); r->to++) {}
}

/* The next record: past CR, LF, CR LF or LF CR, the longest that stands there. */
static void step(struct record *r, size_t n) {
    r->from = r->to + 1;
    if (r->from < n && terminator(stream[r->from]) && stream[r->from] != stream[r->to]) r->from++;
    r->number++;
    find_end(r, n);
}

/* A tab as a space, other characters that do not print in hexadecimal. Returns how wide that is. */
static int print_character(uint8_t c) {
    if (c == '\t') return printf(" ");
    if (c < 0x20 || c > 0x7e) return printf("\\x%02X", c);
    return printf("%c", c);
}

/* The record as received, and on a line of its own a mark under the character in a column, if there is one. `ahead` is how wide the line is
 * already. */
static void print_record(const struct record *r, uint32_t column, int ahead) {
    for (size_t i = r->from; i < r->to; i++) {
        if (i - r->from == MOST_CHARACTERS) {
            printf("...");
            break;
        }
        int width = print_character(stream[i]);
        if (i - r->from + 1 < column) ahead += width;
    }
    printf("\n");
    if (column) printf("%*c\n", ahead + 1, '^');
}

/* The one call that differs between the two loads. */
typedef uint32_t loader(const uint32_t *limits, size_t limits_n, uint8_t *store, size_t store_n, const uint8_t *stream, size_t stream_n,
                        uint64_t *reports, size_t reports_n, uint32_t *totals, size_t totals_n);

/* Each report with its record, which is found in the same pass, since reports come in the order of records. Two are of no record: 100 is of
 * the end of the stream, and with translation, where a CUE's own number is not looked at, 41 is of a link. */
static void print_reports(const uint64_t *reports, uint32_t count, size_t n, int translated) {
    struct record r = {0, 0, 1};
    find_end(&r, n);
    if (count == 0) {
        printf("REPORTS none\n");
        return;
    }
    printf("REPORTS %u\n", count);
    for (uint32_t i = 0; i < count; i++) {
        uint32_t record = sphairune_report_record(reports[i]), condition = sphairune_report_condition(reports[i]);
        uint32_t column = sphairune_report_column(reports[i]);
        while (r.number < record && r.to < n) step(&r, n);
        char where[24];
        snprintf(where, sizeof where, "(%05u:%u)", record, column);
        char text[SPHAIRUNE_TEXT];
        sphairune_condition_string(condition, text);
        int ahead = printf("  %-10s %04u-%c %-36s", where, condition, sphairune_severity(condition), text);
        if (condition == 100) {
            printf("\n");
        } else if (translated && condition == 41) {
            printf("  a LINK asks for a number that no CUE has\n");
        } else {
            ahead += printf("  ");
            print_record(&r, column, ahead);
        }
    }
}

static void print_time(uint32_t present, uint32_t tenths) {
    char text[SPHAIRUNE_TEXT];
    printf(" %11s", present ? sphairune_time_string(tenths, text) : "-");
}

static void print_levels(const uint8_t *levels, uint32_t channels) {
    unsigned shown = 0;
    for (uint32_t c = 0; c < channels; c++) {
        if (!levels[c]) continue;
        printf("%s%3u@H%02X %3u%%", shown % PER_LINE ? "  " : shown ? "\n        " : "        ", c + 1, levels[c],
               sphairune_percent(levels[c]));
        shown++;
    }
    printf("%s\n", shown ? "" : "        blackout");
}

/* Whole numbers under one another. */
static void print_cue(const struct sphairune_memory *m) {
    printf("  %3u", m->whole);
    if (m->tenths)
        printf(".%u", m->tenths);
    else
        printf("  ");
    printf(" %4u", m->page);
    print_time(m->up, m->up_fade);
    print_time(m->up_delay != 0, m->up_delay);
    print_time(m->down, m->down_fade);
    print_time(m->down_delay != 0, m->down_delay);
    print_time(m->followon, m->followon_time);
    if (!m->link)
        printf("    -\n");
    else if (m->link_tenths)
        printf("  %3u.%u\n", m->link_whole, m->link_tenths);
    else
        printf("  %3u\n", m->link_whole);
}

/* The slots of the kept memories of a kind, in `slots`, which has room for all; returns how many. */
static size_t kept(const char *file, const uint32_t *desk, const uint8_t *store, size_t store_n, uint32_t kind, uint32_t *slots) {
    size_t count = 0;
    answered(file, sphairune_memories(desk, SPHAIRUNE_LIMITS, store, store_n, kind, slots, SPHAIRUNE_MOST_SLOTS, &count, 1));
    return count;
}

static void print_cues(const char *file, const uint32_t *desk, const uint8_t *store, size_t store_n) {
    uint32_t slots[SPHAIRUNE_MOST_SLOTS];
    size_t count = kept(file, desk, store, store_n, SPHAIRUNE_CUE, slots);
    if (count == 0) {
        printf("CUES none\n");
        return;
    }
    printf("CUES %zu\n", count);
    printf("  cue   page     up fade       delay   down fade       delay    followon  link\n");
    for (size_t i = 0; i < count; i++) {
        struct sphairune_memory m;
        answered(file, sphairune_memory_of(desk, SPHAIRUNE_LIMITS, store, store_n, slots[i], &m));
        print_cue(&m);
        print_levels(m.levels, desk[SPHAIRUNE_CHANNELS]);
    }
}

static unsigned patched_dimmers(const char *file, const uint32_t *desk, const uint8_t *store, size_t store_n) {
    uint32_t values[SPHAIRUNE_PATCH_VALUES];
    unsigned patched = 0;
    for (uint32_t page = 1; page <= desk[SPHAIRUNE_PATCH_PAGES]; page++)
        for (uint32_t dimmer = 1; dimmer <= desk[SPHAIRUNE_DIMMERS]; dimmer++) {
            answered(file, sphairune_patch(desk, SPHAIRUNE_LIMITS, store, store_n, page, dimmer, values, SPHAIRUNE_PATCH_VALUES));
            if (values[SPHAIRUNE_PATCH_CHANNEL]) patched++;
        }
    return patched;
}

static void print_kept(const char *file, const uint32_t *desk, const uint8_t *store, size_t store_n) {
    uint32_t slots[SPHAIRUNE_MOST_SLOTS];
    size_t cues = kept(file, desk, store, store_n, SPHAIRUNE_CUE, slots), groups = kept(file, desk, store, store_n, SPHAIRUNE_GROUP, slots);
    size_t submasters = kept(file, desk, store, store_n, SPHAIRUNE_SUBMASTER, slots);
    printf("KEPT cues %zu, groups %zu, submasters %zu, patched dimmers %u\n", cues, groups, submasters,
           patched_dimmers(file, desk, store, store_n));
}

static void print_desk(const uint32_t *desk) {
    printf("DESK channels %u, dimmers %u, cues %u, groups %u, submasters %u", desk[SPHAIRUNE_CHANNELS], desk[SPHAIRUNE_DIMMERS],
           desk[SPHAIRUNE_CUES], desk[SPHAIRUNE_GROUPS], desk[SPHAIRUNE_SUBMASTERS]);
    printf("; pages of cues %u, groups %u, submasters %u, patch %u\n", desk[SPHAIRUNE_CUE_PAGES], desk[SPHAIRUNE_GROUP_PAGES],
           desk[SPHAIRUNE_SUBMASTER_PAGES], desk[SPHAIRUNE_PATCH_PAGES]);
}

static void print_totals(const uint32_t *t) {
    uint32_t closing = t[SPHAIRUNE_CLOSING];
    char text[SPHAIRUNE_TEXT];
    printf("RECORDS %u: blank %u, obeyed %u, passed %u, dropped %u\n",
           t[SPHAIRUNE_BLANK] + t[SPHAIRUNE_OBEYED] + t[SPHAIRUNE_PASSED] + t[SPHAIRUNE_DROPPED], t[SPHAIRUNE_BLANK], t[SPHAIRUNE_OBEYED],
           t[SPHAIRUNE_PASSED], t[SPHAIRUNE_DROPPED]);
    printf("CLOSING %04u-%c %s\n", closing, sphairune_severity(closing), sphairune_condition_string(closing, text));
}

int main(int count, char **words) {
    uint32_t desk[SPHAIRUNE_LIMITS] = SPHAIRUNE_HOUSE, totals[SPHAIRUNE_TOTALS];
    int translated = count > 1 && strcmp(words[1], "--translate") == 0, first = 1 + translated;
    int right = count == first + 1 || count == first + 1 + SPHAIRUNE_LIMITS;
    for (int i = first + 1; right && i < count; i++) right = limit(words[i], &desk[i - first - 1]);
    if (!right) {
        fprintf(stderr, "usage: cue_sheet [--translate] FILE "
                        "[CHANNELS DIMMERS CUES GROUPS SUBMASTERS CUE-PAGES GROUP-PAGES SUBMASTER-PAGES PATCH-PAGES]\n");
        return 2;
    }
    const char *file = words[first];
    loader *load = translated ? sphairune_translate : sphairune_load;
    size_t n = read_file(file), store_n;
    answered(file, sphairune_needed(desk, SPHAIRUNE_LIMITS, &store_n, 1));
    uint8_t *store = room(store_n, 1);
    uint64_t *reports = room(n + 1, sizeof *reports); /* one more than the bytes: such a list never fills */
    answered(file, sphairune_empty(desk, SPHAIRUNE_LIMITS, store, store_n));
    answered(file, load(desk, SPHAIRUNE_LIMITS, store, store_n, stream, n, reports, n + 1, totals, SPHAIRUNE_TOTALS));

    printf("CUE SHEET %s%s\n", file, translated ? ", loaded with translation: all memories are numbered anew" : "");
    print_desk(desk);
    printf("\n");
    print_reports(reports, totals[SPHAIRUNE_REPORTS], n, translated);
    printf("\n");
    print_cues(file, desk, store, store_n);
    printf("\n");
    print_kept(file, desk, store, store_n);
    print_totals(totals);
    free(reports);
    free(store);
    if (fflush(stdout) || ferror(stdout)) quit(file, "the sheet cannot be written");
    return 0;
}
