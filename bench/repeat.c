/* Makes a call of the library for C again and again, so that its instructions can be counted.
 *
 *     repeat CALL PLACES TIMES    CALL is verify, limit, take_in, check_start or check_write
 *
 * The program has so many places, at most 256: by turns a seek and a read. A start and a write are
 * asked about beside 1,024 such programs in flight, all before it in storage. `limit` is the call
 * of limit.c. The status is 1 if an answer isn't yes, and 2 if the words are wrong. bench/ratios.py
 * builds this file. */
#include <chanv.h>
#include <stdlib.h>
#include <string.h>

enum { START = 0x800, APART = 0x3C00, IN_FLIGHT = 1024, READ = 16, CHAINS = 0x40 };

int limit_verify(const struct chanv_job *job, struct chanv_verdict *out);

static uint8_t storage[16777216], memory[16777216];
static struct chanv_extent cylinders[] = {{10, 19}};
static struct chanv_area fetch, store;
static struct chanv_row in_flight[IN_FLIGHT];
static struct chanv_program starting;

static void put(uint32_t address, uint64_t value)
{
    for (uint32_t i = 0; i < 8; i++)
        storage[address + i] = (uint8_t)(value >> (56 - 8 * i));
}

static void put_ccw(uint32_t address, uint64_t code, uint64_t data, uint64_t count, int is_last)
{
    put(address, code << 56 | data << 32 | (uint64_t)(is_last ? 0 : CHAINS) << 24 | count);
}

/* Puts a program and its arguments into storage. */
static struct chanv_job seeks_and_reads(uint32_t start, uint32_t places)
{
    uint32_t arguments = start + 8 * places, data = arguments + 8 * places;
    for (uint32_t i = 0; i < places; i++) {
        uint32_t address = start + 8 * i;
        if (i % 2 == 1) {
            put_ccw(address, 0x06, data + READ * i, READ, i + 1 == places);
        } else {
            put_ccw(address, 0x07, arguments + 8 * i, 6, i + 1 == places);
            put(arguments + 8 * i, (uint64_t)(10 + i % 10) << 32 | (uint64_t)(i % 20) << 16);
        }
    }
    fetch = (struct chanv_area){arguments, 8 * places};
    store = (struct chanv_area){data, READ * places};
    return (struct chanv_job){
        .storage = {storage, sizeof storage},
        .extents = {cylinders, 1},
        .fetch = {&fetch, 1},
        .store = {&store, 1},
        .start = start,
        .limit = places,
        .device = 2314,
    };
}

static int verify(const struct chanv_job *job)
{
    struct chanv_verdict verdict;
    return (int)chanv_verify(job, &verdict);
}

static int limit(const struct chanv_job *job)
{
    struct chanv_verdict verdict;
    return limit_verify(job, &verdict);
}

static int remember(const struct chanv_job *job, size_t used, size_t *len,
                    struct chanv_program *program)
{
    static const struct chanv_area all = CHANV_ALL_STORAGE;
    struct chanv_areas own = {&all, 1};
    struct chanv_source source = {job->storage, job->start, job->limit, job->device};
    return (int)chanv_take_in(&source, &own, CHANV_ALLOW_NOTHING, memory + used,
                              sizeof memory - used, len, program, NULL);
}

static int take_in(const struct chanv_job *job)
{
    struct chanv_program program;
    return remember(job, 0, NULL, &program);
}

static int check_start(const struct chanv_job *job)
{
    struct chanv_refusal refusal;
    return (int)chanv_check_start(job, in_flight, IN_FLIGHT, &starting, &refusal);
}

static int check_write(const struct chanv_job *job)
{
    struct chanv_area written = {job->start, 8};
    struct chanv_refusal refusal;
    return (int)chanv_check_write(in_flight, IN_FLIGHT, &written, &refusal);
}

static const struct call {
    const char *name;
    int (*make)(const struct chanv_job *job);
    int is_of_table;
} calls[] = {
    {"verify", verify, 0},
    {"limit", limit, 0},
    {"take_in", take_in, 0},
    {"check_start", check_start, 1},
    {"check_write", check_write, 1},
};

int main(int argc, char **argv)
{
    const struct call *call = NULL;
    for (size_t i = 0; argc == 4 && i < sizeof calls / sizeof *calls; i++)
        if (strcmp(argv[1], calls[i].name) == 0)
            call = &calls[i];
    if (call == NULL)
        return 2;
    uint32_t places = (uint32_t)atol(argv[2]);
    size_t used = 0, len = 0;
    int is_wrong = 0;
    for (uint32_t i = 0; i < IN_FLIGHT && call->is_of_table; i++) {
        struct chanv_job other = seeks_and_reads(START + i * APART, places);
        is_wrong |= remember(&other, used, &len, &in_flight[i].program);
        used += len;
    }
    struct chanv_job job = seeks_and_reads(START + IN_FLIGHT * APART, places);
    is_wrong |= remember(&job, used, &len, &starting);
    for (long times = atol(argv[3]); times > 0; times--)
        is_wrong |= call->make(&job);
    return is_wrong != CHANV_YES;
}
