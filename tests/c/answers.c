/* Programs at the edges, given to the worked supervisor and to the emulator: one that isn't taken
 * in may not start, whatever its struct held before. It prints a line for each case. */
#include <chanv.h>
#include <emulator.c>
#include <supervisor.c>
#include <stdio.h>
#include <stdlib.h>

enum { STORAGE = 0x4000, START = 0x800, DATA = 0x2000 };
enum { READ = 0x06, TRANSFER = 0x08, NO_OPERATION = 0x03, CHAIN = 0x40 };

static uint8_t storage[STORAGE];
static uint8_t memory[MOST_BYTES];
static struct asked asked;
static const struct chanv_extent cylinders = {0, 202};
static const struct chanv_area all = {0, STORAGE}, late = {START + 8, STORAGE};
static const struct chanv_area prefixes = {0x3F00, 0x100};

/* A job that lends everything to some CCWs, chained by command, whose data are 16 bytes apart. */
static struct chanv_job job_of(uint8_t code, uint32_t count)
{
    for (uint32_t i = 0; i < count; i++) {
        uint32_t data = DATA + 16 * i;
        const uint8_t ccw[] = {code, 0, (uint8_t)(data >> 8), (uint8_t)data,
                               i + 1 < count ? CHAIN : 0, 0, 0, 8};
        memcpy(storage + START + 8 * i, ccw, sizeof ccw);
    }
    return (struct chanv_job){
        .storage = {storage, STORAGE},
        .extents = {&cylinders, 1},
        .fetch = {&all, 1},
        .store = {&all, 1},
        .start = START,
        .limit = CHANV_USUAL_LIMIT,
        .device = 2314,
    };
}

/* Takes a program in over whatever was in its struct, and tries to start a copy of the struct,
 * which has to do when the struct itself is gone. */
static void take_in_and_start(const char *name, const struct chanv_job *job)
{
    struct taken program, moved;
    memset(&program, 0xFF, sizeof program);
    program.memory = memory;
    enum chanv_answer answer = take_in(&program, job);
    moved = program;
    memset(&program, 0xFF, sizeof program);
    printf("%s: %s, %s\n", name, chanv_answer_word(answer), start(&moved, 0, job) ? "started" : "held back");
    leave(0);
}

static void try_program(const char *name, uint8_t code, uint32_t count)
{
    struct chanv_job job = job_of(code, count);
    take_in_and_start(name, &job);
}

/* A program for a device of one type may start under a job of this type, and of no other. */
static void try_other_device(uint16_t device, uint16_t other)
{
    struct chanv_job job = job_of(READ, 2);
    struct taken program = {.memory = memory};
    job.device = device;
    enum chanv_answer answer = take_in(&program, &job);
    int same = start(&program, 0, &job);
    leave(0);
    job.device = other;
    printf("for a %u: %s, %s, on a %u %s\n", device, chanv_answer_word(answer), same ? "started" : "held back", other,
           start(&program, 0, &job) ? "started" : "held back");
    leave(0);
}

/* A program whose first CCW isn't in its user's storage, and one that asks for an interruption. */
static void try_refused(void)
{
    struct chanv_job job = job_of(READ, 2);
    own.at = &late;
    take_in_and_start("outside its own storage", &job);
    own.at = &all;
    storage[START + 12] |= 0x08;
    take_in_and_start("an interruption", &job);
    allowed |= CHANV_ALLOW_INTERRUPTING;
    take_in_and_start("an interruption", &job);
    allowed &= ~(uint32_t)CHANV_ALLOW_INTERRUPTING;
}

/* The prefix of a program under the mask 80, from cylinder 10 on: its bytes, and the verdict on both
 * as one program, which begins with mask 00. No program that stores over it starts. */
static void try_prefix(void)
{
    static const struct chanv_extent some = {10, 19};
    struct chanv_job job = job_of(READ, 2), whole;
    struct chanv_verdict verdict;
    job.extents.at = &some, job.mask = 0x80;
    if (!put_prefix(storage, prefixes.start, &job))
        abort();
    for (int i = 0; i < PREFIX_BYTES; i++)
        printf("%s%02X", i == 0 ? "prefix " : i % 8 == 0 ? " " : "", storage[prefixes.start + i]);
    whole = job, whole.start = prefixes.start, whole.mask = 0x00;
    printf(": %s\n", chanv_answer_word(chanv_verify(&whole, &verdict)));
    storage[START + 8 + 2] = 0x3F, storage[START + 8 + 3] = 0x18;
    take_in_and_start("over the prefixes", &job);
    storage[START + 8 + 3] = 0xFF, storage[START + 8 + 2] = 0x3E, storage[START + 8 + 7] = 1;
    take_in_and_start("just before the prefixes", &job);
}

/* A search that never ends by itself: it is taken in only if the supervisor says so. */
static void try_hanging(void)
{
    static const uint8_t loop[] = {0x31, 0, 0x20, 0, CHAIN, 0, 0, 5, TRANSFER, 0, START >> 8, 0};
    struct chanv_job job = job_of(READ, 3);
    memcpy(storage + START, loop, sizeof loop);
    memcpy(storage + START + 16, loop + 8, 4);
    take_in_and_start("a loop", &job);
    allowed |= CHANV_ALLOW_HANGING;
    take_in_and_start("a loop", &job);
    allowed &= ~(uint32_t)CHANV_ALLOW_HANGING;
}

/* With these flags of its first CCW on. */
static void try_emulated(const char *name, uint8_t code, uint32_t count, uint8_t flags)
{
    struct chanv_job job = job_of(code, count);
    storage[START + 4] |= flags;
    memset(&asked, 0xFF, sizeof asked);
    enum chanv_answer answer = ask(&asked, &job);
    const char *there = may_begin(&asked, &job) ? "there" : "not there";
    /* of a shorter storage nothing past its end is read */
    job.storage = (struct chanv_bytes){malloc(8), 8};
    int cut = may_begin(&asked, &job);
    free((void *)job.storage.at);
    printf("emulated %s: %s, %s%s\n", name, chanv_answer_word(answer), there, cut ? ", even if it is cut" : "");
}

/* Writes that begin or end far from the program, and one past the end of all addresses. */
static void try_writes(void)
{
    struct chanv_job job = job_of(READ, 2);
    struct taken program = {.memory = memory};
    if (take_in(&program, &job) != CHANV_OK)
        abort();
    start(&program, 0, &job);
    const struct chanv_area writes[] = {{0, START}, {0, START + 1},          {START + 15, 1},
                                        {START + 16, 8}, {8, UINT32_MAX}, {UINT32_MAX, UINT32_MAX}};
    for (size_t i = 0; i < sizeof writes / sizeof *writes; i++)
        printf("write %X %X: %s\n", writes[i].start, writes[i].len,
               may_write(writes[i].start, writes[i].len) ? "allowed" : "held back");
    leave(0);
}

int main(void)
{
    own = (struct chanv_areas){&all, 1};
    guard_prefixes(prefixes);
    try_program("2 rows", READ, 2);
    try_program("127 rows", READ, 127);
    try_program("128 rows", READ, 128);
    try_program("2032 kept bytes", NO_OPERATION, 254);
    try_program("2040 kept bytes", NO_OPERATION, 255);
    try_program("a code of no command", 0xFF, 1);
    try_other_device(2311, 2314);
    try_other_device(2314, 2311);
    try_hanging();
    try_refused();
    try_prefix();
    try_emulated("2 rows", READ, 2, 0);
    try_emulated("a code of no command", 0xFF, 1, 0);
    try_emulated("chain data where nothing moves", NO_OPERATION, 2, 0x80);
    try_writes();
    return 0;
}
