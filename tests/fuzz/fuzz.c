/* Calls of the library on inputs that a fuzzer makes up; a broken promise aborts.
 *
 * Nine bytes choose the desk, three the room for reports, the bytes past the store, and a byte to spoil; the rest is the stream.
 * Then: load; the totals against the reports and the stream, each column against its record; the same stream loaded with translation, into
 * an empty store and on top of the first load; write with too little room, just enough and more; the written stream read back into this
 * store and into an empty one; every kept cue found; the memories of each kind listed, every head and patch entry against a plain reading
 * of its bits; the store spoilt, and then refused for what was spoilt or not, by every call alike, but that heads and patch entries are
 * still told; a time and a condition in words. */
#include <stdint.h>
#include <stdio.h>
#include <stdlib.h>
#include <string.h>

#include "sphairune.h"

#define HOLDS(x) do { if (!(x)) { fprintf(stderr, "broken promise, line %d: %s\n", __LINE__, #x); abort(); } } while (0)

enum { COUNT, BLANK, OBEYED, PASSED, DROPPED, CLOSING, TOTALS };

enum { MARK = 0xa5, STRIP = 16, FULL = 300, LONGEST_TIME = 36573399 /* 999:999:999.9 in tenths */ };

/* A lent list lies between two strips that nobody may touch. */
static void *lend(size_t bytes) {
    uint8_t *room = malloc(bytes + 2 * STRIP);
    HOLDS(room);
    memset(room, MARK, bytes + 2 * STRIP);
    return room + STRIP;
}

static int all_marked(const void *part, size_t bytes) {
    const uint8_t *b = part;
    for (size_t i = 0; i < bytes; i++)
        if (b[i] != MARK) return 0;
    return 1;
}

static void take_back(void *part, size_t bytes) {
    uint8_t *b = part;
    HOLDS(all_marked(b - STRIP, STRIP) && all_marked(b + bytes, STRIP));
    free(b - STRIP);
}

/* An empty list has an address that is not null. */
static uint64_t no_reports;
static uint8_t no_output;

static int is_end(uint8_t c) { return c == '\r' || c == '\n'; }

/* Where a record's characters end. */
static size_t end_of(const uint8_t *s, size_t n, size_t from) {
    while (from < n && !is_end(s[from])) from++;
    return from;
}

/* Where the record after the one that begins at a place begins. */
static size_t next_of(const uint8_t *s, size_t n, size_t from) {
    size_t end = end_of(s, n, from);
    return end + 1 < n && is_end(s[end + 1]) && s[end + 1] != s[end] ? end + 2 : end + 1;
}

static uint32_t records_in(const uint8_t *s, size_t n) {
    uint32_t records = 0;
    for (size_t i = 0; i < n; i = next_of(s, n, i)) records++;
    return records;
}

static int is_ignored(uint8_t c) { return (c < 0x20 && c != '\t') || c >= 0x7f; }

/* Which field of a record, from 1, begins in a column; 0 where none does. */
static uint32_t field_at(const uint8_t *record, uint32_t column) {
    uint32_t fields = 0;
    int inside = 0, begins = 0;
    for (uint32_t i = 0; i < column; i++) {
        begins = 0;
        if (record[i] == '!') return 0;
        if (is_ignored(record[i])) continue;
        int was = inside;
        inside = !memchr("\t ,/;<=>@", record[i], 9);
        begins = inside && !was;
        fields += (uint32_t)begins;
    }
    return begins ? fields : 0;
}

/* The column is 0, or a field begins there: the first for a condition that blames the keyword, a later one for any other. */
static void check_column(const uint8_t *record, size_t length, uint32_t condition, uint32_t column) {
    HOLDS(column <= length && column <= 80);
    switch (condition) {
    case 21: case 22: case 91: case 100: case 701: case 702: HOLDS(column == 0); break;
    case 51: case 52: case 151: case 152: HOLDS(field_at(record, column) == 1); break;
    default: HOLDS(column == 0 || field_at(record, column) > 1);
    }
}

static int is_error(uint32_t condition) { return condition == 91 || condition == 99 || condition == 100; }

static uint32_t read_in(const uint32_t *t) { return t[BLANK] + t[OBEYED] + t[PASSED] + t[DROPPED]; }

/* With translation no number, page or kind is at fault, and 0041 is of a link that is lost when the load ends. */
static void check_translated_report(uint32_t condition, uint32_t column, int at_end) {
    HOLDS(condition != 42 && condition != 43 && condition != 51 && condition != 52);
    if (condition == 41) HOLDS(at_end && column == 0);
}

/* The totals against the reports, where all are stored, and against the stream. */
static void check_totals(const uint32_t *t, const uint64_t *reports, size_t room, const uint8_t *stream, size_t n, int translated) {
    uint32_t read = read_in(t), records = records_in(stream, n);
    HOLDS(read <= records && read <= n && t[COUNT] <= n + 1);
    uint32_t stored = t[COUNT] < room ? t[COUNT] : (uint32_t)room, last = 0, error = 0, warning = 0;
    int stopped = 0, lost = 0;
    size_t from = 0;
    for (uint32_t i = 0; i < stored; i++) {
        uint32_t record = sphairune_report_record(reports[i]), condition = sphairune_report_condition(reports[i]);
        uint32_t column = sphairune_report_column(reports[i]);
        HOLDS(record >= last && record <= read && condition != 0 && reports[i] % (1u << 25) == 0);
        for (uint32_t at = last ? last : 1; at < record; at++) from = next_of(stream, n, from);
        check_column(stream + from, end_of(stream, n, from) - from, condition, column);
        if (translated) check_translated_report(condition, column, record == read);
        /* Behind what stops a load stand lost links alone, and behind those 0100. */
        if (stopped) HOLDS(translated && condition == 41);
        if (lost) HOLDS(condition == 41 || condition == 100);
        if (is_error(condition)) error = condition;
        else warning = condition;
        if (condition == 91 || condition == 99) HOLDS(record == read && (translated || i + 1 == t[COUNT]));
        if (condition == 100) HOLDS(record == read && i + 1 == t[COUNT] && read == records);
        stopped |= condition == 91 || condition == 99;
        lost |= translated && condition == 41;
        last = record;
    }
    HOLDS(all_marked(reports + stored, (room - stored) * sizeof *reports));
    if (stored == t[COUNT]) HOLDS(t[CLOSING] == (error ? error : warning));
    if (read == 0) HOLDS(t[COUNT] == 1 && t[CLOSING] == 100);
}

/* Each used slot of one store is a slot of the other, among the slots from `first` to `end`, and there are as many. */
static void check_slots(const uint8_t *a, const uint8_t *b, size_t slot, size_t first, size_t end) {
    size_t used = 0, others = 0;
    for (size_t i = first; i < end; i++) {
        others += b[i * slot] >> 7;
        if (!(a[i * slot] >> 7)) continue;
        used++;
        size_t j = first;
        while (j < end && memcmp(a + i * slot, b + j * slot, slot)) j++;
        HOLDS(j < end);
    }
    HOLDS(used == others);
}

/* What is written, read into a store, gives no report and only obeyed records, the same show, and is written again the same. */
static void check_back(const uint32_t *limits, const uint8_t *store, size_t n, const uint8_t *text, size_t length, int from_empty) {
    uint8_t *other = lend(n), *again = lend(length);
    uint32_t totals[TOTALS];
    size_t wrote = 77;
    memcpy(other, store, n);
    if (from_empty) HOLDS(sphairune_empty(limits, 9, other, n) == 0);
    HOLDS(sphairune_load(limits, 9, other, n, text, length, &no_reports, 0, totals, TOTALS) == 0);
    HOLDS(totals[COUNT] == 0 && totals[CLOSING] == 0 && totals[BLANK] == 0 && totals[PASSED] == 0 && totals[DROPPED] == 0);
    HOLDS(totals[OBEYED] == records_in(text, length));
    size_t slot = 24 + limits[0], groups = limits[2], subs = limits[2] + limits[3];
    check_slots(store, other, slot, 0, groups);
    check_slots(store, other, slot, groups, subs);
    HOLDS(!memcmp(store + subs * slot, other + subs * slot, n - subs * slot));
    HOLDS(sphairune_write(limits, 9, other, n, again, length, &wrote, 1) == 0);
    HOLDS(wrote == length && !memcmp(again, text, length));
    take_back(other, n), take_back(again, length);
}

static void check_written(const uint32_t *limits, const uint8_t *store, size_t n) {
    size_t length = 77, told = 77;
    HOLDS(sphairune_write(limits, 9, store, n, &no_output, 0, &length, 1) == 6);
    HOLDS(length >= 31 && length <= 262143);
    uint8_t *out = lend(length + 9);
    HOLDS(sphairune_write(limits, 9, store, n, out, length - 1, &told, 1) == 6 && told == length);
    HOLDS(all_marked(out, length + 9));
    HOLDS(sphairune_write(limits, 9, store, n, out, length + 9, &told, 1) == 0 && told == length);
    HOLDS(all_marked(out + length, 9));
    uint8_t *exact = lend(length);
    HOLDS(sphairune_write(limits, 9, store, n, exact, length, &told, 1) == 0 && !memcmp(exact, out, length));
    for (size_t i = 0, from = 0; i < length; i++) {
        HOLDS(out[i] == '\r' || out[i] == '\n' || (out[i] >= 0x20 && out[i] <= 0x7e));
        if (out[i] == '\n') {
            HOLDS(i > from && out[i - 1] == '\r' && i - 1 - from <= 80);
            from = i + 1;
        }
    }
    check_back(limits, store, n, out, length, 0);
    check_back(limits, store, n, out, length, 1);
    take_back(exact, length), take_back(out, length + 9);
}

/* The first 21 bits of a slot: used, page, number. */
static uint32_t name_of(const uint8_t *slot) { return ((uint32_t)slot[0] << 16 | slot[1] << 8 | slot[2]) >> 3; }

static void check_found(const uint32_t *limits, const uint8_t *store, size_t n) {
    size_t slot = 24 + limits[0], place = 77;
    for (size_t i = 0; i < limits[2]; i++) {
        uint32_t word = name_of(store + i * slot);
        if (word >> 20)
            HOLDS(sphairune_find(limits, 9, store, n, word >> 14 & 63, word >> 4 & 1023, word & 15, &place, 1) == 0 && place == i * slot + 24);
    }
    place = 77;
    HOLDS(sphairune_find(limits, 9, store, n, 0, 0, 0, &place, 1) == SPHAIRUNE_NOT_KEPT && place == 77);
}

/* The number in `count` bits from bit `from` on, the most significant first. */
static uint32_t bits(const uint8_t *bytes, uint32_t from, uint32_t count) {
    uint32_t value = 0;
    for (uint32_t bit = from; bit < from + count; bit++) value = value << 1 | (bytes[bit / 8] >> (7 - bit % 8) & 1u);
    return value;
}

/* The cues and groups that a load with translation made have whole numbers, and so have the links of those cues. */
static void check_numbers(const uint32_t *limits, const uint8_t *before, const uint8_t *store) {
    size_t slot = 24 + limits[0];
    for (size_t i = 0; i < limits[2] + limits[3]; i++) {
        const uint8_t *made = store + i * slot;
        if (!(made[0] >> 7) || !memcmp(made, before + i * slot, slot)) continue;
        HOLDS((name_of(made) & 15) == 0 && bits(made, 32, 4) == 0);
    }
}

/* A load with translation, on top of what a store keeps: the store is in good form still, and as many records are read, and are blank, as
 * without translation. A desk without groups or submasters is refused for that, and nothing is touched. */
static void check_translated(const uint32_t *limits, const uint8_t *before, size_t n, size_t needed, const uint8_t *stream, size_t m,
                             size_t room, const uint32_t *normal) {
    uint8_t *store = lend(n), *other = lend(n);
    uint64_t *reports = lend(room * sizeof *reports);
    uint32_t *totals = lend(TOTALS * sizeof *totals), other_totals[TOTALS];
    memcpy(store, before, n);
    memcpy(other, before, n);
    uint32_t answer = sphairune_translate(limits, 9, store, n, stream, m, reports, room, totals, TOTALS);
    if (limits[3] == 0 || limits[4] == 0) {
        HOLDS(answer == SPHAIRUNE_R7 && !memcmp(store, before, n));
        HOLDS(all_marked(reports, room * sizeof *reports) && all_marked(totals, TOTALS * sizeof *totals));
    } else {
        HOLDS(answer == SPHAIRUNE_DONE && !memcmp(store + needed, before + needed, n - needed));
        check_totals(totals, reports, room, stream, m, 1);
        HOLDS(read_in(totals) == read_in(normal) && totals[BLANK] == normal[BLANK]);
        check_numbers(limits, before, store);
        check_written(limits, store, n);
        /* Nothing depends on the room for reports, nor on the totals' list. */
        HOLDS(sphairune_translate(limits, 9, other, n, stream, m, &no_reports, 0, other_totals, TOTALS) == 0);
        HOLDS(!memcmp(store, other, n) && !memcmp(totals, other_totals, sizeof other_totals));
    }
    take_back(store, n), take_back(other, n), take_back(reports, room * sizeof *reports), take_back(totals, TOTALS * sizeof *totals);
}

/* Values are the fields of these widths one after the other, as many as there is room for, and what is past them is untouched. */
static void check_values(const uint8_t *bytes, const uint32_t *widths, size_t count, const uint32_t *values, size_t room) {
    size_t told = room < count ? room : count;
    for (uint32_t i = 0, from = 0; i < told; from += widths[i++]) HOLDS(values[i] == bits(bytes, from, widths[i]));
    HOLDS(all_marked(values + told, (room - told) * sizeof *values));
}

/* Every slot's head and where its levels begin, with as much room for values as is given, and the slots that the desk lacks. The store is in
 * good form or not. */
static void check_heads(const uint32_t *limits, const uint8_t *store, size_t n, size_t room) {
    static const uint32_t widths[SPHAIRUNE_HEAD_VALUES] = {1, 6, 10, 4, 1, 10, 4, 1, 26, 26, 1, 26, 26, 1, 26, 23};
    size_t slot = 24 + limits[0], slots = limits[2] + limits[3] + limits[4] * limits[7], place;
    uint32_t *values = lend(room * sizeof *values);
    const uint32_t lacks[] = {0, (uint32_t)slots + 1, UINT32_MAX};
    for (size_t i = 0; i < 3; i++) {
        place = 77;
        HOLDS(sphairune_head(limits, 9, store, n, lacks[i], values, room) == SPHAIRUNE_NOT_KEPT);
        HOLDS(sphairune_levels(limits, 9, store, n, lacks[i], &place, 1) == SPHAIRUNE_NOT_KEPT && place == 77);
    }
    HOLDS(all_marked(values, room * sizeof *values));
    for (size_t i = 0; i < slots; i++) {
        HOLDS(sphairune_head(limits, 9, store, n, (uint32_t)i + 1, values, room) == 0);
        check_values(store + i * slot, widths, SPHAIRUNE_HEAD_VALUES, values, room);
        HOLDS(sphairune_levels(limits, 9, store, n, (uint32_t)i + 1, &place, 1) == 0 && place == i * slot + 24);
    }
    take_back(values, room * sizeof *values);
}

/* Every dimmer's patch, and the dimmers that the desk lacks. */
static void check_patch(const uint32_t *limits, const uint8_t *store, size_t n, size_t room) {
    static const uint32_t widths[SPHAIRUNE_PATCH_VALUES] = {10, 8, 6};
    const uint8_t *entry = store + (limits[2] + limits[3] + limits[4] * limits[7]) * (24 + (size_t)limits[0]);
    uint32_t *values = lend(room * sizeof *values);
    const uint32_t lacks[][2] = {{0, 1}, {1, 0}, {limits[8] + 1, 1}, {1, limits[1] + 1}, {UINT32_MAX, UINT32_MAX}};
    for (size_t i = 0; i < 5; i++)
        HOLDS(sphairune_patch(limits, 9, store, n, lacks[i][0], lacks[i][1], values, room) == SPHAIRUNE_NOT_KEPT);
    HOLDS(all_marked(values, room * sizeof *values));
    for (uint32_t page = 1; page <= limits[8]; page++)
        for (uint32_t dimmer = 1; dimmer <= limits[1]; dimmer++, entry += 3) {
            HOLDS(sphairune_patch(limits, 9, store, n, page, dimmer, values, room) == 0);
            check_values(entry, widths, SPHAIRUNE_PATCH_VALUES, values, room);
        }
    take_back(values, room * sizeof *values);
}

/* The memories of each kind, with room for all, for a few and for none: used slots of that kind, each once, by page and number, and no used
 * slot is left out. The store is in good form. */
static void check_memories(const uint32_t *limits, const uint8_t *store, size_t n, size_t few) {
    const size_t ends[4] = {0, limits[2], limits[2] + limits[3], limits[2] + limits[3] + limits[4] * limits[7]};
    size_t slot = 24 + limits[0], bytes = SPHAIRUNE_MOST_SLOTS * sizeof(uint32_t), count = 77, again = 77;
    uint32_t *slots = lend(bytes), *less = lend(few * sizeof *less);
    for (uint32_t kind = SPHAIRUNE_CUE; kind <= SPHAIRUNE_SUBMASTER; kind++) {
        size_t used = 0;
        memset(slots, MARK, bytes);
        memset(less, MARK, few * sizeof *less);
        for (size_t i = ends[kind]; i < ends[kind + 1]; i++) used += store[i * slot] >> 7;
        HOLDS(sphairune_memories(limits, 9, store, n, kind, slots, SPHAIRUNE_MOST_SLOTS, &count, 1) == 0 && count == used);
        HOLDS(all_marked(slots + count, bytes - count * sizeof *slots));
        for (size_t i = 0; i < count; i++) {
            HOLDS(ends[kind] < slots[i] && slots[i] <= ends[kind + 1] && store[(slots[i] - 1) * slot] >> 7);
            HOLDS(i == 0 || name_of(store + (slots[i - 1] - 1) * slot) < name_of(store + (slots[i] - 1) * slot));
        }
        HOLDS(sphairune_memories(limits, 9, store, n, kind, less, few, &again, 1) == 0 && again == count);
        size_t told = few < count ? few : count;
        HOLDS(!memcmp(less, slots, told * sizeof *less) && all_marked(less + told, (few - told) * sizeof *less));
    }
    count = 77;
    memset(less, MARK, few * sizeof *less);
    HOLDS(sphairune_memories(limits, 9, store, n, SPHAIRUNE_SUBMASTER + 1, less, few, &count, 1) == SPHAIRUNE_NOT_KEPT);
    HOLDS(count == 77 && all_marked(less, few * sizeof *less));
    take_back(slots, bytes), take_back(less, few * sizeof *less);
}

/* A text in just enough room, in less and in more. */
static void check_text(uint32_t (*call)(uint32_t, uint8_t *, size_t, size_t *, size_t), uint32_t asked, size_t most) {
    size_t length = 77, told = 77;
    uint8_t *out = lend(SPHAIRUNE_TEXT);
    HOLDS(call(asked, out, SPHAIRUNE_TEXT, &length, 1) == 0 && length <= most && all_marked(out + length, SPHAIRUNE_TEXT - length));
    for (size_t i = 0; i < length; i++) HOLDS(out[i] >= 0x20 && out[i] <= 0x7e);
    uint8_t *exact = lend(length);
    HOLDS(call(asked, exact, length, &told, 1) == 0 && told == length && !memcmp(exact, out, length));
    if (length) {
        memset(exact, MARK, length);
        told = 77;
        HOLDS(call(asked, exact, length - 1, &told, 1) == SPHAIRUNE_R6 && told == length && all_marked(exact, length));
    }
    take_back(out, SPHAIRUNE_TEXT), take_back(exact, length);
}

/* A time in words is the one that a stream has for it, where a stream can: it is read back as the same time. */
static void check_time(uint32_t tenths) {
    static const uint32_t limits[9] = {1, 1, 1, 0, 0, 1, 1, 1, 1};
    uint8_t store[24 + 1 + 3] = {0}, stream[64] = "CUE 1\nUP ";
    size_t length = 0;
    uint32_t totals[TOTALS], values[SPHAIRUNE_HEAD_VALUES];
    check_text(sphairune_time_text, tenths, 19);
    HOLDS(sphairune_time_text(tenths, stream + 9, SPHAIRUNE_TEXT, &length, 1) == 0);
    HOLDS(sphairune_load(limits, 9, store, sizeof store, stream, 9 + length, &no_reports, 0, totals, TOTALS) == 0);
    HOLDS(sphairune_head(limits, 9, store, sizeof store, 1, values, SPHAIRUNE_HEAD_VALUES) == 0);
    HOLDS(values[SPHAIRUNE_HEAD_UP] == (tenths <= LONGEST_TIME));
    if (tenths <= LONGEST_TIME) HOLDS(values[SPHAIRUNE_HEAD_UP_FADE] == tenths);
}

static void check_words(uint32_t number) {
    char text[SPHAIRUNE_TEXT];
    check_time(number);
    check_time(number % (LONGEST_TIME + 1));
    check_text(sphairune_condition_text, number, 44);
    check_text(sphairune_condition_text, number % 1024, 44);
    HOLDS(strlen(sphairune_time_string(number, text)) <= 19 && strlen(sphairune_condition_string(number % 1024, text)) <= 44);
    uint8_t letter = sphairune_severity(number % 1024);
    HOLDS(letter == (number % 1024 == 0 ? 'I' : 70 <= number % 1024 && number % 1024 <= 149 ? 'E' : 'W'));
    uint8_t level = (uint8_t)number;
    HOLDS(sphairune_percent(level) * 510 <= level * 200u + 255 && level * 200u + 255 < (sphairune_percent(level) + 1) * 510);
}

/* Every call answers `why`, and touches nothing; emptying does not look at the store, nor do the readers of a slot and a dimmer at its
 * form. */
static void check_refused(const uint32_t *limits, const uint8_t *store, size_t n, const uint8_t *stream, size_t m, uint32_t why) {
    enum { OUT = 64, REPORTS = 4 * sizeof(uint64_t), WORDS = TOTALS * sizeof(uint32_t) };
    uint8_t *kept = lend(n), *out = lend(OUT);
    uint64_t *reports = lend(REPORTS);
    uint32_t *totals = lend(WORDS);
    size_t *word = lend(sizeof *word);
    memcpy(kept, store, n);
    HOLDS(sphairune_load(limits, 9, kept, n, stream, m, reports, 4, totals, TOTALS) == why);
    HOLDS(sphairune_translate(limits, 9, kept, n, stream, m, reports, 4, totals, TOTALS) == why);
    HOLDS(sphairune_write(limits, 9, kept, n, out, OUT, word, 1) == why);
    HOLDS(sphairune_find(limits, 9, kept, n, 1, 1, 0, word, 1) == why);
    HOLDS(sphairune_memories(limits, 9, kept, n, n % 4, totals, TOTALS, word, 1) == why);
    if (why == SPHAIRUNE_R2 || why == SPHAIRUNE_R3) {
        HOLDS(sphairune_empty(limits, 9, kept, n) == why);
        HOLDS(sphairune_head(limits, 9, kept, n, 1, totals, TOTALS) == why);
        HOLDS(sphairune_levels(limits, 9, kept, n, 0, word, 1) == why);
        HOLDS(sphairune_patch(limits, 9, kept, n, 1, 1, totals, TOTALS) == why);
    }
    HOLDS(!memcmp(kept, store, n) && all_marked(out, OUT) && all_marked(reports, REPORTS) && all_marked(totals, WORDS));
    HOLDS(all_marked(word, sizeof *word));
    take_back(kept, n), take_back(out, OUT), take_back(reports, REPORTS), take_back(totals, WORDS), take_back(word, sizeof *word);
}

/* A store that was in good form, with one byte spoilt, is refused for the slot or patch entry which that byte lies in; or for the later of
 * two slots of a kind with the same name, of which that one is the one or the other. */
static void check_place(const uint32_t *limits, const uint8_t *store, size_t spoilt, uint32_t answer) {
    size_t slot = 24 + limits[0], groups = limits[2], subs = groups + limits[3], slots = subs + limits[4] * limits[7];
    size_t at = spoilt / slot, told = sphairune_answer_place(answer) - 1, first = told < groups ? 0 : groups, same = first;
    switch (sphairune_answer_number(answer)) {
    case SPHAIRUNE_R4A: HOLDS(at < slots && told == at); break;
    case SPHAIRUNE_R4B:
        HOLDS(first <= at && at <= told && told < subs);
        while (same < told && name_of(store + same * slot) != name_of(store + told * slot)) same++;
        HOLDS(same < told && (same == at || told == at));
        break;
    case SPHAIRUNE_R4C: HOLDS(at >= slots && told == (spoilt - slots * slot) / 3); break;
    default: HOLDS(0);
    }
}

int LLVMFuzzerTestOneInput(const uint8_t *data, size_t size) {
    static const uint32_t least[9] = {1, 1, 1, 0, 0, 1, 1, 1, 1}, most[9] = {512, 512, 600, 200, 96, 63, 63, 8, 4};
    if (size < 12) return 0;
    uint32_t limits[9];
    int in_range = 1;
    for (int i = 0; i < 9; i++) {
        /* Small, or with 250 and above an end of the range or just past it. */
        uint32_t ends[6] = {least[i], most[i], most[i] + 1, least[i] - 1, UINT32_MAX, 1u << 31};
        uint32_t small = least[i] + data[i] % 16;
        limits[i] = data[i] >= 250 ? ends[data[i] - 250] : small < most[i] ? small : most[i];
        in_range &= limits[i] >= least[i] && limits[i] <= most[i];
    }
    check_words((uint32_t)data[8] << 24 | (uint32_t)data[9] << 16 | (uint32_t)data[10] << 8 | data[11]);
    const uint8_t *stream = data + 12;
    size_t m = size - 12, room = data[9] % 8 == 7 ? FULL : data[9] % 8, past = data[10] % 4, needed = 77;
    uint32_t answer = sphairune_needed(limits, 9, &needed, 1);
    HOLDS(answer == (in_range ? SPHAIRUNE_DONE : SPHAIRUNE_R2));
    if (!in_range) {
        HOLDS(needed == 77);
        uint8_t small[40] = {0};
        check_refused(limits, small, sizeof small, stream, m, SPHAIRUNE_R2);
        return 0;
    }
    HOLDS(needed == (limits[2] + limits[3] + limits[4] * limits[7]) * (24 + limits[0]) + limits[8] * limits[1] * 3);
    size_t n = needed + past;
    uint8_t *store = lend(n);
    memset(store, 0, needed);
    check_refused(limits, store, needed - 1, stream, m, SPHAIRUNE_R3);
    uint64_t *reports = lend(room * sizeof *reports);
    uint32_t totals[TOTALS], other_totals[TOTALS];
    uint8_t *other = lend(n);
    memset(other, 0, needed);
    HOLDS(sphairune_load(limits, 9, store, n, stream, m, reports, room, totals, TOTALS) == 0);
    HOLDS(all_marked(store + needed, past));
    check_totals(totals, reports, room, stream, m, 0);
    check_translated(limits, other, n, needed, stream, m, room, totals);
    check_translated(limits, store, n, needed, stream, m, room, totals);
    /* Nothing depends on the room for reports, nor on the totals' list. */
    HOLDS(sphairune_load(limits, 9, other, n, stream, m, &no_reports, 0, other_totals, TOTALS) == 0);
    HOLDS(!memcmp(store, other, n) && !memcmp(totals, other_totals, sizeof totals));
    check_written(limits, store, n);
    check_found(limits, store, n);
    check_memories(limits, store, n, data[9] % 32);
    check_heads(limits, store, n, data[10] % 20);
    check_patch(limits, store, n, data[10] % 5);
    /* A spoilt byte: in good form still, or refused by every call. */
    size_t at = ((size_t)data[11] << 8 | data[10]) % needed;
    store[at] ^= (uint8_t)(1 << data[9] / 8 % 8);
    size_t place = 77;
    answer = sphairune_find(limits, 9, store, n, 1, 1, 0, &place, 1);
    if (answer == SPHAIRUNE_DONE || answer == SPHAIRUNE_NOT_KEPT) {
        check_written(limits, store, n);
        check_found(limits, store, n);
        check_memories(limits, store, n, data[10] % 32);
        answer = SPHAIRUNE_R4C + 256 * limits[8] * limits[1];
    } else {
        check_place(limits, store, at, answer);
        check_refused(limits, store, n, stream, m, answer);
    }
    check_heads(limits, store, n, SPHAIRUNE_HEAD_VALUES);
    check_patch(limits, store, n, SPHAIRUNE_PATCH_VALUES);
    /* The last bit of the last patch entry has to be 0: where it is not, this is the last thing that is told. */
    if (at + 3 < needed) {
        store[needed - 1] |= 1;
        check_refused(limits, store, n, stream, m, answer);
    }
    take_back(store, n), take_back(other, n), take_back(reports, room * sizeof *reports);
    return 0;
}
