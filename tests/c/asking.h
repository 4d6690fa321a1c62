/* What the programs of this folder share: storage with programs in it, a job over the search loop,
 * memory that shows what a call wrote, and random numbers. */
#ifndef ASKING_H
#define ASKING_H

#include <chanv.h>
#include <inttypes.h>
#include <stdio.h>
#include <stdlib.h>
#include <string.h>

enum { START = 0x800, SMALL = 0x1000, UNTOUCHED = 0x77 };

/* A little more than storage may have. */
static uint8_t storage[16777216 + 8] __attribute__((aligned(8)));

/* Eight bytes of storage: a CCW, or what a CCW points to. */
struct word {
    uint32_t address;
    uint64_t value;
};

/* Puts eight bytes where they belong: the high byte comes first. */
static inline void put(uint32_t address, uint64_t value)
{
    for (int i = 0; i < 8; i++)
        storage[address + i] = (uint8_t)(value >> (56 - 8 * i));
}

/* Storage with these words alone; the last has address 0. */
static inline void fill(const struct word *words)
{
    memset(storage, 0, SMALL);
    for (; words->address != 0; words++)
        put(words->address, words->value);
}

/* Searches for a record until it is found, and reads it. */
static const struct word search_loop[] = {
    {0x800, 0x3100090040000005}, /* search for the record named at 000900 */
    {0x808, 0x0800080000000000}, /* not this one: back to the search */
    {0x810, 0x06000A0020000050}, /* found: read its 80 bytes to 000A00 */
    {0, 0},
};

static const struct chanv_extent some_cylinders[] = {{10, 19}}, all_cylinders[] = {{0, 202}};
static const struct chanv_area all[] = {{0, SMALL}};
static const struct chanv_area argument[] = {{0x900, 0x10}}, record[] = {{0xA00, 0x100}};

/* The job of the search loop, for which the limit just suffices. */
static const struct chanv_job good = {
    .storage = {storage, SMALL},
    .extents = {some_cylinders, 1},
    .fetch = {argument, 1},
    .store = {record, 1},
    .start = START,
    .limit = 3,
    .device = 2314,
};

/* The same, which lends all of storage and grants all cylinders. */
static inline struct chanv_job generous(void)
{
    struct chanv_job job = good;
    job.extents.at = all_cylinders;
    job.fetch.at = job.store.at = all;
    return job;
}

/* The program of a job, as its user hands it in. */
static inline struct chanv_source source_of(const struct chanv_job *job)
{
    return (struct chanv_source){
        .storage = job->storage, .start = job->start, .limit = job->limit, .device = job->device};
}

enum { ALLOW_ALL = CHANV_ALLOW_HANGING | CHANV_ALLOW_INTERRUPTING | CHANV_ALLOW_ENDING_CHAINS };

/* Takes the program of a job in, for a user who owns all storage and may do everything. */
static inline enum chanv_answer take_in_freely(const struct chanv_job *job, void *memory,
                                               size_t room, size_t *len,
                                               struct chanv_program *program,
                                               struct chanv_intake *out)
{
    static const struct chanv_area whole = CHANV_ALL_STORAGE;
    struct chanv_source source = source_of(job);
    struct chanv_areas own = {&whole, 1};
    return chanv_take_in(&source, &own, ALLOW_ALL, memory, room, len, program, out);
}

/* A row of the table with a program in flight. */
static inline struct chanv_row row_of(const struct chanv_program *program)
{
    return (struct chanv_row){.program = *program};
}

/* The word for each number, and for the first numbers without a word. */
static inline void print_words(void)
{
    for (uint32_t reason = 0; reason < 18; reason++)
        printf("reason %" PRIu32 ": %s\n", reason, chanv_reason_word(reason));
    for (uint32_t number = 0; number < 17; number++)
        printf("number %" PRIu32 ": %s, %s, %s\n", number, chanv_answer_word(number),
               chanv_refusal_word(number), chanv_entered_word(number));
}

/* A job with each fault that it can have at once, of which each step takes one away. It gives the
 * step's name, or NULL after the last. */
static inline const char *take_fault_away(int step, struct chanv_job *job)
{
    static const struct chanv_extent backwards[] = {{10, 19}, {9, 3}, {3, 203}};
    static const struct chanv_extent past[] = {{10, 19}, {0, 202}, {3, 203}, {9, 3}};
    switch (step) {
    case 0:
        *job = good, job->storage.len = 16777217, job->extents = (struct chanv_extents){NULL, 0};
        job->limit = 0, job->device = 3330, job->mask = 0x01;
        return "all faults";
    case 1: return job->storage.len--, "storage of 16 MiB";
    case 2: return job->device = 2314, "a device";
    case 3: return job->mask = 0xD8, "a mask, and no extent, NULL";
    case 4: return job->extents = (struct chanv_extents){backwards, 3}, "extents, backwards first";
    case 5: return job->extents = (struct chanv_extents){past, 4}, "extents, past the device first";
    case 6: return job->extents.len = 2, "right extents";
    case 7: return job->limit = CHANV_LARGEST_LIMIT + 1, "a limit that is too large";
    case 8: return job->limit = CHANV_LARGEST_LIMIT, "no fault";
    default: return NULL;
    }
}

/* Memory that a call is handed for so many bytes, which begin after a fence, and of which it may
 * write the first alone. */
enum { FENCE = 64, MOST_HANDED = 2048 };

struct handed {
    uint8_t bytes[FENCE + MOST_HANDED + FENCE] __attribute__((aligned(16)));
};

static inline void *hand(struct handed *to)
{
    memset(to->bytes, UNTOUCHED, sizeof to->bytes);
    return to->bytes + FENCE;
}

/* Whether all bytes after so many were left alone, and those before the first. */
static inline int is_left_alone(const struct handed *room, size_t written)
{
    for (size_t i = 0; i < sizeof room->bytes; i++)
        if ((i < FENCE || i >= FENCE + written) && room->bytes[i] != UNTOUCHED)
            return 0;
    return 1;
}

/* The same of any memory. */
static inline int is_untouched(const void *from, const void *past)
{
    for (const uint8_t *at = from; at != past; at++)
        if (*at != UNTOUCHED)
            return 0;
    return 1;
}

/* A number below another, from the numbers before it. */
static inline uint32_t below(uint64_t *random, uint32_t most)
{
    *random ^= *random << 13;
    *random ^= *random >> 7;
    *random ^= *random << 17;
    return (uint32_t)(*random >> 32) % most;
}

static inline void print_refusal(uint32_t answer, const struct chanv_refusal *refusal)
{
    printf("%" PRIu32, answer);
    if (refusal->code != 0)
        printf(" %s %" PRIX32, chanv_refusal_word(refusal->code), refusal->value);
    if (refusal->row != CHANV_NOBODY)
        printf(" of %zu", refusal->row);
    if (refusal->extent != 0)
        printf(", wrong extent %zu", refusal->extent);
}

#endif
