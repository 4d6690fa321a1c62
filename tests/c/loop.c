/* The loop of docs/SUPERVISOR.md over two units: which programs start, and what others may write.
 *
 * supervise.c has the C of the page, as it stands there. The program prints a line for each event,
 * with what came of it; loop.out has the lines that follow from the rules. */
#include "supervise.c"
#include <stdio.h>

enum { PROGRAMS = 3, ROOM = 2048 };

static uint8_t storage[0x2000], memory[PROGRAMS][ROOM];
static struct chanv_program programs[PROGRAMS];
static struct chanv_job jobs[PROGRAMS];

static void put(uint32_t address, uint64_t ccw)
{
    for (uint32_t i = 0; i < 8; i++)
        storage[address + i] = (uint8_t)(ccw >> (56 - 8 * i));
}

/* A search loop at an address, which reads 80 bytes to a buffer. */
static void put_loop(uint32_t start, uint32_t buffer)
{
    put(start, 0x3100090040000005);
    put(start + 8, 0x0800000000000000 | (uint64_t)start << 32);
    put(start + 16, 0x0600000020000050 | (uint64_t)buffer << 32);
}

static const struct chanv_extent cylinders[] = {{10, 19}};
static const struct chanv_area fetch[] = {{0x900, 0x10}}, store[] = {{0x700, 0x1100}};
static const uint32_t starts[PROGRAMS] = {0x800, 0x1000, 0x1100};

static struct chanv_job job_at(uint32_t start)
{
    return (struct chanv_job){
        .storage = {storage, sizeof storage},
        .extents = {cylinders, 1},
        .fetch = {fetch, 1},
        .store = {store, 1},
        .start = start,
        .limit = CHANV_USUAL_LIMIT,
        .device = 2314,
    };
}

/* ---- the machine */

static const uint8_t byte = 0xAA;

#define START_OF(n, on) {.what = START, .unit = on, .job = &jobs[n], .program = &programs[n]}
#define WRITE_AT(address) {.what = WRITE, .area = {address, 1}, .bytes = &byte}
#define END_ON(on) {.what = PROGRAM_END, .unit = on}

static const struct {
    const char *name;
    struct event event;
} script[] = {
    {"the first program on unit 0", START_OF(0, 0)},
    {"a program that reads over it, on unit 1", START_OF(1, 1)},
    {"a third program on unit 0, which isn't free", START_OF(2, 0)},
    {"the third program on unit 1", START_OF(2, 1)},
    {"a write over a CCW of the first", WRITE_AT(0x810)},
    {"a write over its data", WRITE_AT(0x910)},
    {"the end of the first", END_ON(0)},
    {"a write over its CCW then", WRITE_AT(0x810)},
    {"the first again, which has changed", START_OF(0, 0)},
    {"the third again, on unit 0", START_OF(2, 0)},
};

static size_t at;

int next(struct event *e)
{
    if (at == sizeof script / sizeof *script)
        return 0;
    printf("%s%s:", at == 0 ? "" : "\n", script[at].name);
    *e = script[at++].event;
    return 1;
}

void lock(void) {}

void unlock(void) {}

int start_io(int unit, const struct chanv_job *job)
{
    printf(" started at %06X on unit %d", job->start, unit);
    return 1;
}

/* All but low storage. */
struct chanv_areas user_storage(const struct chanv_source *source)
{
    static const struct chanv_area users = {0x100, 0x2000 - 0x100};
    (void)source;
    return (struct chanv_areas){&users, 1};
}

void write_storage(struct chanv_area area, const uint8_t *bytes)
{
    memcpy(storage + area.start, bytes, area.len);
    printf(" written");
}

/* ---- what is asked beside the loop */

static void check_input(const char *name, int row, struct chanv_area area)
{
    printf("input into %s: %d\n", name, begin_input(row, area));
}

/* Takes the program of this number in. */
static enum chanv_answer take_number_in(int number)
{
    const struct chanv_job *job = &jobs[number];
    struct chanv_source source = {
        .storage = job->storage, .start = job->start, .limit = job->limit, .device = job->device};
    return take_in(&source, memory[number], ROOM, &programs[number]);
}

/* Takes a program in that begins with this CCW. */
static void try_one(const char *name, uint32_t start, uint64_t ccw)
{
    put(start, ccw);
    jobs[1] = job_at(start);
    enum chanv_answer answer = take_number_in(1);
    printf("taken in, %s: %s\n", name, chanv_answer_word(answer));
}

int main(void)
{
    static const struct chanv_area of_third = {0x1110, 0x10}, of_second = {0x1010, 0x10};
    struct chanv_refusal refusal;
    put_loop(starts[0], 0xA00);
    put_loop(starts[1], 0x800);
    put_loop(starts[2], 0xB00);
    for (int i = 0; i < PROGRAMS; i++) {
        jobs[i] = job_at(starts[i]);
        enum chanv_answer answer = take_number_in(i);
        printf("taken in at %06X: %s\n", starts[i], chanv_answer_word(answer));
    }
    try_one("in low storage", 0xF8, 0x0300000000000001);
    try_one("just above", 0x100, 0x0300000000000001);
    try_one("with an interruption", 0x100, 0x0300000008000001);
    put(0x108, 0x0800010000000000);
    try_one("a loop", 0x100, 0x0300000040000001);
    jobs[1] = job_at(starts[1]);
    if (take_number_in(1) != CHANV_OK)
        return 1;
    supervise();
    printf("\n");
    check_input("a program in flight", UNITS, of_third);
    check_input("a program that isn't in flight", UNITS, of_second);
    enum chanv_answer answer =
        chanv_check_start(&jobs[1], in_flight, ROWS, &programs[1], &refusal);
    const char *word = answer == CHANV_NO ? chanv_refusal_word(refusal.code) : "";
    printf("its start meanwhile: %s %s\n", chanv_answer_word(answer), word);
    memset(&in_flight[UNITS], 0, sizeof *in_flight);
    answer = chanv_check_start(&jobs[1], in_flight, ROWS, &programs[1], &refusal);
    printf("its start afterwards: %s\n", chanv_answer_word(answer));
    return 0;
}
