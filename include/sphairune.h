/* sphairune.h: the proved reader and writer of lighting show data (USITT ASCII 3.0), for programs in C99 or C++.
 *
 * Link with libsphairune.a, which tools/library builds; it needs memcpy and memset of the C library and nothing else. docs/LIBRARY.md
 * tells how, and what is proved: the fourteen calls declared here are, the inline functions at the end are not.
 *
 * A show lives in a store, which is the caller's own bytes. A desk is the list of its nine limits, which says how long the store has to be
 * and how it is laid out; no caller has to know the layout, since calls read it. Nothing allocates, nothing is kept between calls, and a
 * call that is turned away changes no lent byte, but that a write or a text answered R6 stores the length needed.
 *
 *     static const uint32_t desk[SPHAIRUNE_LIMITS] = SPHAIRUNE_HOUSE;
 *     static uint8_t store[SPHAIRUNE_HOUSE_STORE];
 *     uint64_t reports[64];
 *     uint32_t totals[SPHAIRUNE_TOTALS];
 *     sphairune_empty(desk, SPHAIRUNE_LIMITS, store, sizeof store);
 *     answer = sphairune_load(desk, SPHAIRUNE_LIMITS, store, sizeof store, stream, stream_n, reports, 64, totals, SPHAIRUNE_TOTALS);
 *
 * The caller's duty, for every call:
 *  - each pointer is to as many valid entries as the length after it says, aligned for their type; lengths count entries, not bytes;
 *  - lists that a call writes (those that are not const) overlap no other list of the same call;
 *  - no other thread writes to a list while the call runs, nor reads one that the call writes;
 *  - an empty list is the length 0 and a pointer that is aligned and not null, as the address of any object of that type. Nothing is read
 *    or written through it. A null pointer is never passed.
 * Nothing is asked of the values in the lists: every desk, store and stream gets an answer. */
#ifndef SPHAIRUNE_H
#define SPHAIRUNE_H

#include <stddef.h>
#include <stdint.h>

#ifdef __cplusplus
extern "C" {
#endif

/* ---- Desks */

/* The order of a desk's limits. A limit that the list lacks counts as 0; entries past the ninth are not looked at. */
enum {
    SPHAIRUNE_CHANNELS,        /* 1 to 512: C */
    SPHAIRUNE_DIMMERS,         /* 1 to 512: D */
    SPHAIRUNE_CUES,            /* 1 to 600, all pages together */
    SPHAIRUNE_GROUPS,          /* 0 to 200, all pages together; 0: the desk has no groups */
    SPHAIRUNE_SUBMASTERS,      /* 0 to 96, the highest on each page; 0: the desk has no submasters */
    SPHAIRUNE_CUE_PAGES,       /* 1 to 63 */
    SPHAIRUNE_GROUP_PAGES,     /* 1 to 63, even where there are no groups */
    SPHAIRUNE_SUBMASTER_PAGES, /* 1 to 8, even where there are no submasters */
    SPHAIRUNE_PATCH_PAGES,     /* 1 to 4 */
    SPHAIRUNE_LIMITS           /* how many there are */
};

/* The house small desk, to initialise a list of limits with, and the bytes that its store needs. */
#define SPHAIRUNE_HOUSE { 96, 192, 200, 40, 24, 2, 1, 2, 1 }
#define SPHAIRUNE_HOUSE_STORE 35136

/* The largest desk, to initialise a list of limits with. */
#define SPHAIRUNE_LARGEST { 512, 512, 600, 200, 96, 63, 63, 8, 4 }

/* The bytes that the store of the largest desk needs, and the longest stream that is read or written: a list of SPHAIRUNE_MOST_STREAM bytes
 * takes every stream that is written, so that such a write is never answered R6. */
#define SPHAIRUNE_MOST_STORE 846592
#define SPHAIRUNE_MOST_STREAM 262143

/* The most slots that a desk has of one kind, 96 submasters on each of 8 pages: a list of so many takes every list of memories. */
#define SPHAIRUNE_MOST_SLOTS 768

/* Room for every text of a time or condition, with a NUL behind it. */
#define SPHAIRUNE_TEXT 45

/* ---- Answers */

/* A call answers one word: a number, and 256 times a place. The number is 0, or says why the call is turned away; the reasons that a call
 * has are tested in this order, R4a, R4b and R4c each over the whole store. These three are a store that is not in good form for this desk
 * (never emptied, another desk's, or damaged), and they alone have a place, from 1: R4a and R4b count slots through the whole store, cues,
 * then groups, then submasters; R4c counts patch entries. So an answer is compared with 0 as it is, and with any other number by
 * sphairune_answer_number. */
enum {
    SPHAIRUNE_DONE = 0,
    SPHAIRUNE_R1 = 1,         /* the stream is longer than SPHAIRUNE_MOST_STREAM bytes */
    SPHAIRUNE_R2 = 2,         /* a limit of the desk is outside its range */
    SPHAIRUNE_R3 = 3,         /* the store is shorter than the desk needs */
    SPHAIRUNE_R4A = 0x4A,     /* a slot is out of form by itself; the place is that of the first such slot */
    SPHAIRUNE_R4B = 0x4B,     /* a slot has the number and page of an earlier one of its kind; the first that repeats one */
    SPHAIRUNE_R4C = 0x4C,     /* a patch entry is out of form; the first such entry */
    SPHAIRUNE_R5 = 5,         /* the written stream would be longer than SPHAIRUNE_MOST_STREAM bytes */
    SPHAIRUNE_R6 = 6,         /* the written stream, or a text, is longer than the output given */
    SPHAIRUNE_R7 = 7,         /* a load with translation, tested after R4c: the desk has no groups, or no submasters */
    SPHAIRUNE_NOT_KEPT = 0xFF /* no refusal: the cue is not kept; or the desk has no such slot or dimmer, or there is no such kind */
};

/* What a load tells, with translation or without, by its place in the list of totals. Each record read is in one of the four tallies. */
enum {
    SPHAIRUNE_REPORTS, /* how many conditions were reported, those that found no room in the list of reports too */
    SPHAIRUNE_BLANK,   /* records with no field */
    SPHAIRUNE_OBEYED,  /* records obeyed; of a CHAN or PATCH record single pairs or triples may have been dropped, each with its report */
    SPHAIRUNE_PASSED,  /* records passed over or skipped */
    SPHAIRUNE_DROPPED, /* records dropped whole, each with its report */
    SPHAIRUNE_CLOSING, /* the closing number: the last error, else the last warning, else 0 */
    SPHAIRUNE_TOTALS   /* how many there are */
};

/* The kinds of memory. */
enum { SPHAIRUNE_CUE, SPHAIRUNE_GROUP, SPHAIRUNE_SUBMASTER };

/* What sphairune_head tells of a slot, by its place in the list of values. In a store in good form, what is not present is 0, and so is what
 * goes with it; an unused slot has all of them 0. Times are in tenths of a second. */
enum {
    SPHAIRUNE_HEAD_USED, /* 1: a memory is kept here */
    SPHAIRUNE_HEAD_PAGE,
    SPHAIRUNE_HEAD_WHOLE, /* the number: 2.5 has the whole 2 and the tenths 5; a submaster has no tenths */
    SPHAIRUNE_HEAD_TENTHS,
    SPHAIRUNE_HEAD_LINK, /* 1: a link is present, to the cue of the next two; cues alone have one */
    SPHAIRUNE_HEAD_LINK_WHOLE,
    SPHAIRUNE_HEAD_LINK_TENTHS,
    SPHAIRUNE_HEAD_UP, /* 1: UP was given; groups have no times */
    SPHAIRUNE_HEAD_UP_FADE,
    SPHAIRUNE_HEAD_UP_DELAY,
    SPHAIRUNE_HEAD_DOWN, /* 1: DOWN was given */
    SPHAIRUNE_HEAD_DOWN_FADE,
    SPHAIRUNE_HEAD_DOWN_DELAY,
    SPHAIRUNE_HEAD_FOLLOWON, /* 1: FOLLOWON was given; cues alone have one */
    SPHAIRUNE_HEAD_FOLLOWON_TIME,
    SPHAIRUNE_HEAD_ZERO_BITS, /* 0 in a store in good form */
    SPHAIRUNE_HEAD_VALUES     /* how many there are */
};

/* What sphairune_patch tells of a dimmer, by its place in the list of values. */
enum {
    SPHAIRUNE_PATCH_CHANNEL,   /* 0: the dimmer is unpatched */
    SPHAIRUNE_PATCH_LEVEL,     /* the level at which it follows its channel */
    SPHAIRUNE_PATCH_ZERO_BITS, /* 0 in a store in good form */
    SPHAIRUNE_PATCH_VALUES     /* how many there are */
};

/* ---- The calls: a show */

/* How many bytes a store of this desk needs.
 * Answers 0, with the length in length[0]; or R2, with `length` as it was. Entries past length[0] stay as they were; an empty `length` gets
 * nothing. */
uint32_t sphairune_needed(const uint32_t *limits, size_t limits_n, size_t *length, size_t length_n);

/* Empties a store: no memory, no dimmer patched. The way to begin with fresh bytes, whatever they hold.
 * Answers 0, with every needed byte zero and the bytes past them as they were; or R2, R3, with `store` as it was. */
uint32_t sphairune_empty(const uint32_t *limits, size_t limits_n, uint8_t *store, size_t store_n);

/* Reads a stream into a store, on top of what the store keeps (a stream may begin with CLEAR ALL).
 * Answers 0; then `store` keeps the show and is in good form, its bytes past the needed ones as they were; `reports` has the reports in
 * order, as many as it has room for, and its entries past them as they were; `totals` has its six entries (as many as it has), and those
 * past them as they were. Or R1, R2, R3, R4a, R4b, R4c, with all three as they were.
 * Faults in the stream are no refusals: they are reported, and the rest is read. A list of reports with stream_n + 1 entries never fills. */
uint32_t sphairune_load(const uint32_t *limits, size_t limits_n, uint8_t *store, size_t store_n, const uint8_t *stream, size_t stream_n,
                        uint64_t *reports, size_t reports_n, uint32_t *totals, size_t totals_n);

/* Reads a stream into a store as sphairune_load does, with translation (section 6.4 of the standard): each cue, group and submaster that
 * is accepted gets the next whole number of its kind, 1, 2, 3 on page 1, then on page 2 once 999 (for submasters, the highest) is used,
 * whatever number and page its record has. A memory that is kept under that number already is overwritten. CLEAR's page is ignored. A LINK
 * follows the renumbering: it leads to the last accepted cue of this load whose record has the number that it asks for, before or after it.
 * Where there is none, its record stays obeyed, and when the load ends the link is removed and reported: 41, column 0, under the number of
 * records read. Links that stood before the load stay.
 * Answers as sphairune_load does; or, after R4c, R7, with `store`, `reports` and `totals` as they were. */
uint32_t sphairune_translate(const uint32_t *limits, size_t limits_n, uint8_t *store, size_t store_n, const uint8_t *stream,
                             size_t stream_n, uint64_t *reports, size_t reports_n, uint32_t *totals, size_t totals_n);

/* Writes a store's show as one fixed stream: the same show is always the same bytes, and loading them gives the same show.
 * Answers 0, with the stream at the beginning of `out`, the bytes of `out` past it as they were, and its length in length[0]. Or R6, with
 * the length needed in length[0] and `out` as it was. Or R2, R3, R4a, R4b, R4c, R5, with `out` and `length` as they were. An empty `length`
 * gets nothing, and its entries past length[0] stay as they were. */
uint32_t sphairune_write(const uint32_t *limits, size_t limits_n, const uint8_t *store, size_t store_n, uint8_t *out, size_t out_n,
                         size_t *length, size_t length_n);

/* Where the levels of cue whole.tenths on a page begin in the store.
 * Answers 0, with the place in place[0]: store[place[0]] is the level of channel 1, and C bytes from there are the cue's levels. Or
 * SPHAIRUNE_NOT_KEPT (also for what cannot be, as page 0); or R2, R3, R4a, R4b, R4c. All these leave `place` as it was; its entries past
 * place[0] stay as they were in any case, and an empty one gets nothing. */
uint32_t sphairune_find(const uint32_t *limits, size_t limits_n, const uint8_t *store, size_t store_n, uint32_t page, uint32_t whole,
                        uint32_t tenths, size_t *place, size_t place_n);

/* ---- The calls: reading a store
 *
 * Slots count from 1 through the whole store, cues, then groups, then submasters page by page: the numbers that R4a and R4b tell. Of the
 * lists, entries past what is told stay as they were, and one that is too short gets what it has room for.
 *
 * sphairune_memories looks at the whole store. The other three do not, so that to walk all memories is one listing and a step for each: of a
 * store that is not in good form they tell the bits as they stand. */

/* The kept memories of a kind, by page and number, which is the order of the written stream: their slots.
 * Answers 0, with the slots at the beginning of `slots`, as many as it has room for, and in count[0] how many are kept, those that found no
 * room too. Or SPHAIRUNE_NOT_KEPT, for a kind other than the three; or R2, R3, R4a, R4b, R4c; with `slots` and `count` as they were. */
uint32_t sphairune_memories(const uint32_t *limits, size_t limits_n, const uint8_t *store, size_t store_n, uint32_t kind, uint32_t *slots,
                            size_t slots_n, size_t *count, size_t count_n);

/* The head of a slot.
 * Answers 0, with the SPHAIRUNE_HEAD_VALUES values in `values`. Or SPHAIRUNE_NOT_KEPT, where the desk has no such slot; or R2, R3; with
 * `values` as it was. A slot that is not used answers 0 too, with 0 in values[SPHAIRUNE_HEAD_USED]. */
uint32_t sphairune_head(const uint32_t *limits, size_t limits_n, const uint8_t *store, size_t store_n, uint32_t slot, uint32_t *values,
                        size_t values_n);

/* Where the levels of a slot begin in the store.
 * Answers 0, with the place in place[0]: store[place[0]] is the level of channel 1, and C bytes from there are the slot's levels. Or
 * SPHAIRUNE_NOT_KEPT, where the desk has no such slot; or R2, R3; with `place` as it was. */
uint32_t sphairune_levels(const uint32_t *limits, size_t limits_n, const uint8_t *store, size_t store_n, uint32_t slot, size_t *place,
                          size_t place_n);

/* What a dimmer is patched to on a page, both from 1.
 * Answers 0, with the SPHAIRUNE_PATCH_VALUES values in `values`. Or SPHAIRUNE_NOT_KEPT, where the desk has no such page or dimmer; or R2,
 * R3; with `values` as it was. */
uint32_t sphairune_patch(const uint32_t *limits, size_t limits_n, const uint8_t *store, size_t store_n, uint32_t page, uint32_t dimmer,
                         uint32_t *values, size_t values_n);

/* ---- The calls: what people read */

/* A level in percent, by Table C-1 of the standard. */
uint32_t sphairune_percent(uint8_t level);

/* The standard's letter for a condition's severity: E error, W warning, I (of the closing number 0 alone) information. */
uint8_t sphairune_severity(uint32_t condition);

/* A time in tenths of a second as the written stream has it: 3, 1:30, 2:00:10.5, and past 999:59:59.9 as 999:100:05.
 * Answers 0, with the text at the beginning of `out`, no NUL behind it, the bytes of `out` past it as they were, and its length in
 * length[0]. Or R6, with the length needed in length[0] and `out` as it was. An empty `length` gets nothing, and its entries past length[0]
 * stay as they were. No time needs more than 19 bytes. */
uint32_t sphairune_time_text(uint32_t tenths, uint8_t *out, size_t out_n, size_t *length, size_t length_n);

/* The standard's text for a condition that a load can report (Appendix B), or for the closing number 0; of any other number a text of no
 * bytes. Where the appendix puts the record's own field or keyword between two words, the text has the words alone.
 * Answers as sphairune_time_text does. No text needs more than 44 bytes. */
uint32_t sphairune_condition_text(uint32_t condition, uint8_t *out, size_t out_n, size_t *length, size_t length_n);

/* ---- From here on: inline functions over the calls. They are plain C, not proved. */

/* The number of an answer, one of those above. */
static inline uint32_t sphairune_answer_number(uint32_t answer) { return answer % 256; }

/* The place that goes with R4a, R4b or R4c, 1 to 2048; 0 with any other number. */
static inline uint32_t sphairune_answer_place(uint32_t answer) { return answer / 256; }

/* The levels of a cue, as the very bytes of the caller's store with no copying: C of them, channel 1 first. NULL where there are none; then
 * *answer says why, as sphairune_find does. `answer` may be NULL. */
static inline const uint8_t *sphairune_look_up(const uint32_t *limits, size_t limits_n, const uint8_t *store, size_t store_n,
                                               uint32_t page, uint32_t whole, uint32_t tenths, uint32_t *answer) {
    size_t place = 0;
    uint32_t said = sphairune_find(limits, limits_n, store, store_n, page, whole, tenths, &place, 1);
    if (answer) *answer = said;
    return said == SPHAIRUNE_DONE ? store + place : NULL;
}

/* A refusal's name, as "R4a"; "" for an answer that is none. */
static inline const char *sphairune_refusal_name(uint32_t answer) {
    switch (sphairune_answer_number(answer)) {
    case SPHAIRUNE_R1: return "R1";
    case SPHAIRUNE_R2: return "R2";
    case SPHAIRUNE_R3: return "R3";
    case SPHAIRUNE_R4A: return "R4a";
    case SPHAIRUNE_R4B: return "R4b";
    case SPHAIRUNE_R4C: return "R4c";
    case SPHAIRUNE_R5: return "R5";
    case SPHAIRUNE_R6: return "R6";
    case SPHAIRUNE_R7: return "R7";
    default: return "";
    }
}

/* What a refusal says, in words, without its place; "" for an answer that is none. */
static inline const char *sphairune_refusal_text(uint32_t answer) {
    switch (sphairune_answer_number(answer)) {
    case SPHAIRUNE_R1: return "the stream is longer than 262143 bytes";
    case SPHAIRUNE_R2: return "a limit of the desk is outside its range";
    case SPHAIRUNE_R3: return "the store is shorter than the desk needs";
    case SPHAIRUNE_R4A: return "a slot is out of form for this desk";
    case SPHAIRUNE_R4B: return "a slot has the number and page of an earlier one";
    case SPHAIRUNE_R4C: return "a patch entry is out of form for this desk";
    case SPHAIRUNE_R5: return "the written stream would be longer than 262143 bytes";
    case SPHAIRUNE_R6: return "the written stream is longer than the output given";
    case SPHAIRUNE_R7: return "the desk has no groups, or no submasters, and a load with translation needs both";
    default: return "";
    }
}

/* ---- Reports */

/* A report is one word, the most significant bits first: the record's number, from 1, in 18 bits, the condition in 14, the column in 7, and
 * 25 zero bits. With condition 100 the number is the count of records read, and so it is with each 41 of a load with translation, which is
 * of a link that was removed. */
static inline uint32_t sphairune_report_record(uint64_t word) { return (uint32_t)(word >> 46); }

static inline uint32_t sphairune_report_condition(uint64_t word) { return (uint32_t)(word >> 32 & 0x3fff); }

/* Where the blamed field's first character stands in the record as received: 1 to 80, counting every character, an ignored one or a tab as
 * one. 51, 52, 151 and 152 blame the keyword. 0 where the field is missing, with 21, 22, 91, 100, 701 and 702, and with 41 of a link that
 * was removed. */
static inline uint32_t sphairune_report_column(uint64_t word) { return (uint32_t)(word >> 25 & 0x7f); }

/* ---- Memories and texts */

/* A slot's head by name, and its levels as the very bytes of the caller's store: C of them, channel 1 first. */
struct sphairune_memory {
    uint32_t slot;
    uint32_t used;
    uint32_t page, whole, tenths;
    uint32_t link, link_whole, link_tenths;
    uint32_t up, up_fade, up_delay;
    uint32_t down, down_fade, down_delay;
    uint32_t followon, followon_time;
    const uint8_t *levels;
};

/* Fills *memory from a slot. Answers as sphairune_head and sphairune_levels do; where that is not 0, *memory is as it was. */
static inline uint32_t sphairune_memory_of(const uint32_t *limits, size_t limits_n, const uint8_t *store, size_t store_n, uint32_t slot,
                                           struct sphairune_memory *memory) {
    uint32_t v[SPHAIRUNE_HEAD_VALUES];
    size_t place = 0;
    uint32_t answer = sphairune_head(limits, limits_n, store, store_n, slot, v, SPHAIRUNE_HEAD_VALUES);
    if (answer == SPHAIRUNE_DONE) answer = sphairune_levels(limits, limits_n, store, store_n, slot, &place, 1);
    if (answer != SPHAIRUNE_DONE) return answer;
    memory->slot = slot;
    memory->used = v[SPHAIRUNE_HEAD_USED];
    memory->page = v[SPHAIRUNE_HEAD_PAGE];
    memory->whole = v[SPHAIRUNE_HEAD_WHOLE];
    memory->tenths = v[SPHAIRUNE_HEAD_TENTHS];
    memory->link = v[SPHAIRUNE_HEAD_LINK];
    memory->link_whole = v[SPHAIRUNE_HEAD_LINK_WHOLE];
    memory->link_tenths = v[SPHAIRUNE_HEAD_LINK_TENTHS];
    memory->up = v[SPHAIRUNE_HEAD_UP];
    memory->up_fade = v[SPHAIRUNE_HEAD_UP_FADE];
    memory->up_delay = v[SPHAIRUNE_HEAD_UP_DELAY];
    memory->down = v[SPHAIRUNE_HEAD_DOWN];
    memory->down_fade = v[SPHAIRUNE_HEAD_DOWN_FADE];
    memory->down_delay = v[SPHAIRUNE_HEAD_DOWN_DELAY];
    memory->followon = v[SPHAIRUNE_HEAD_FOLLOWON];
    memory->followon_time = v[SPHAIRUNE_HEAD_FOLLOWON_TIME];
    memory->levels = store + place;
    return SPHAIRUNE_DONE;
}

/* The text of a time, or of a condition, with a NUL behind it, in `text`, which is room for SPHAIRUNE_TEXT characters and is returned. */
static inline const char *sphairune_time_string(uint32_t tenths, char *text) {
    size_t length = 0;
    sphairune_time_text(tenths, (uint8_t *)text, SPHAIRUNE_TEXT - 1, &length, 1);
    text[length] = 0;
    return text;
}

static inline const char *sphairune_condition_string(uint32_t condition, char *text) {
    size_t length = 0;
    sphairune_condition_text(condition, (uint8_t *)text, SPHAIRUNE_TEXT - 1, &length, 1);
    text[length] = 0;
    return text;
}

#ifdef __cplusplus
}
#endif

#endif
