/* Measures the calls of the library for C: what each costs, and how many a second there are, from
 * one thread and from four.
 *
 *     make lib
 *     cc -O2 -Iout -Iexamples/c -o calls bench/calls.c out/libchanv.a -pthread \
 *       -Wl,--wrap=malloc,--wrap=realloc,--wrap=free && ./calls
 *
 * The programs are the search loop; seeks and reads by turns, each another CCW, of so many places;
 * and 64 of these with 200,000 areas lent for storing, no two of which adjoin. The first table has
 * for each call the time, the most memory that it holds, its growths, and its stack beyond what a
 * thread takes that makes none; the second, the time in which an emulator takes a program in; the
 * third, the calls a second, each measured for two seconds, three times, of which the best is
 * printed. A time is the least of half a second of calls, or of
 * fifty. The status is 1 if an answer isn't the right one.
 */
#define _GNU_SOURCE
#include <chanv.h>
#include <emulator.c>
#include <malloc.h>
#include <pthread.h>
#include <stdatomic.h>
#include <stdio.h>
#include <stdlib.h>
#include <string.h>
#include <time.h>

enum { START = 0x800, SECONDS = 2, RUNS = 3, MOST_THREADS = 4, MOST_PLACES = CHANV_LARGEST_LIMIT };
enum { AREAS = 200000, STACK = 1 << 20, UNTOUCHED = 0xA5 };

static uint8_t storage[16777216];
static uint8_t stack[STACK] __attribute__((aligned(4096)));
static struct chanv_extent cylinders[] = {{10, 19}};
static struct chanv_area fetch[1], store[AREAS];
static struct chanv_place places[MOST_THREADS][MOST_PLACES], second_places[MOST_PLACES];

/* ---- the memory that is held, and the growths */

static size_t held, most_held, growths;

void *__real_malloc(size_t size);
void *__real_realloc(void *block, size_t size);
void __real_free(void *block);

static void hold(void *block, size_t before)
{
    held += malloc_usable_size(block) - before;
    most_held = held > most_held ? held : most_held;
    growths++;
}

static atomic_bool is_counting;

void *__wrap_malloc(size_t size)
{
    void *block = __real_malloc(size);
    if (is_counting)
        hold(block, 0);
    return block;
}

void *__wrap_realloc(void *block, size_t size)
{
    size_t before = malloc_usable_size(block);
    void *grown = __real_realloc(block, size);
    if (is_counting)
        hold(grown, before);
    return grown;
}

void __wrap_free(void *block)
{
    if (is_counting)
        held -= malloc_usable_size(block);
    __real_free(block);
}

/* ---- the programs */

static void put(uint32_t address, uint64_t ccw)
{
    for (uint32_t i = 0; i < 8; i++)
        storage[address + i] = (uint8_t)(ccw >> (56 - 8 * i));
}

static struct chanv_job job_of(uint32_t count)
{
    return (struct chanv_job){
        .storage = {storage, sizeof storage},
        .extents = {cylinders, 1},
        .fetch = {fetch, 1},
        .store = {store, 1},
        .start = START,
        .limit = count,
        .device = 2314,
    };
}

static struct chanv_job search_loop(uint32_t count)
{
    put(START, 0x3100090040000005);
    put(START + 8, 0x0800080000000000);
    put(START + 16, 0x06000A0020000050);
    fetch[0] = (struct chanv_area){0x900, 0x10};
    store[0] = (struct chanv_area){0xA00, 0x100};
    return job_of(count);
}

/* An odd count ends with a No Operation. */
static struct chanv_job seeks_and_reads(uint32_t count)
{
    uint32_t arguments = START + 8 * count, data = arguments + 8 * count;
    for (uint32_t i = 0; i < count / 2; i++) {
        uint64_t chain = 2 * i + 2 < count ? 0x40000010 : 0x00000010;
        put(START + 16 * i, (uint64_t)0x07 << 56 | (uint64_t)(arguments + 8 * i) << 32 | 0x40000006);
        put(START + 16 * i + 8, (uint64_t)0x06 << 56 | (uint64_t)(data + 16 * i) << 32 | chain);
        put(arguments + 8 * i, (uint64_t)(10 + i % 10) << 32 | (uint64_t)(i % 20) << 16);
    }
    if (count % 2 == 1)
        put(START + 8 * (count - 1), 0x0300000000000001);
    fetch[0] = (struct chanv_area){arguments, 4 * count};
    store[0] = (struct chanv_area){data, 8 * count};
    return job_of(count);
}

static struct chanv_job many_areas(uint32_t count)
{
    struct chanv_job job = seeks_and_reads(count);
    for (uint32_t i = 1; i < AREAS; i++)
        store[i] = (struct chanv_area){0x100000 + 32 * i, 16};
    job.store.len = AREAS;
    return job;
}

static const struct program {
    const char *name;
    struct chanv_job (*make)(uint32_t places);
    uint32_t places;
} programs[] = {
    {"search loop", search_loop, 3},         {"1 place", seeks_and_reads, 1},
    {"64 places", seeks_and_reads, 64},      {"4,096 places", seeks_and_reads, 4096},
    {"65,536 places", seeks_and_reads, 65536}, {"200,000 areas", many_areas, 64},
};

enum { PROGRAMS = sizeof programs / sizeof *programs };

/* ---- the calls */

struct work {
    const struct chanv_job *job;
    const struct chanv_row *in_flight; /* IN_FLIGHT of them, each the program itself */
    struct chanv_place *places;
    uint32_t (*call)(const struct work *work);
    long calls, wrong;
};

static uint32_t nothing(const struct work *work)
{
    (void)work;
    return CHANV_YES;
}

static uint32_t verify(const struct work *work)
{
    struct chanv_verdict verdict;
    return chanv_verify(work->job, &verdict);
}

static uint32_t list(const struct work *work)
{
    size_t count, extent;
    uint32_t answer = chanv_list(work->job, work->places, MOST_PLACES, &count, &extent);
    return answer != CHANV_OK || count != work->job->limit;
}

static uint32_t why(const struct work *work)
{
    struct chanv_explanation told;
    return chanv_why(work->job, work->places, MOST_PLACES, second_places, MOST_PLACES, &told);
}

static uint32_t text(const struct work *work)
{
    static char buffer[8 << 20];
    size_t len;
    return chanv_text(work->job, buffer, sizeof buffer, &len);
}

static const struct chanv_area whole = CHANV_ALL_STORAGE;
static uint8_t memory[16 << 20];

static uint32_t take_job_in(const struct chanv_job *job, struct chanv_program *program)
{
    struct chanv_source source = {job->storage, job->start, job->limit, job->device};
    struct chanv_areas own = {&whole, 1};
    return chanv_take_in(&source, &own, UINT32_MAX, memory, sizeof memory, NULL, program, NULL);
}

static uint32_t take_in(const struct work *work)
{
    struct chanv_program program;
    return take_job_in(work->job, &program);
}

enum { IN_FLIGHT = 8 };

static uint32_t check_start(const struct work *work)
{
    struct chanv_refusal refusal;
    return chanv_check_start(work->job, work->in_flight, IN_FLIGHT, &work->in_flight->program,
                             &refusal);
}

static uint32_t check_write(const struct work *work)
{
    static const struct chanv_area area = {0, 8};
    struct chanv_refusal refusal;
    return chanv_check_write(work->in_flight, IN_FLIGHT, &area, &refusal);
}

/* The part of a start that compares the kept bytes. */
static uint32_t compare(const struct work *work)
{
    const struct chanv_program *program = &work->in_flight->program;
    const uint8_t *kept = program->kept.at;
    int differ = 0;
    for (size_t i = 0; i < program->rows.keep.len; i++) {
        struct chanv_area area = program->rows.keep.at[i];
        differ |= memcmp(work->job->storage.at + area.start, kept, area.len);
        kept += area.len;
    }
    return differ != 0;
}

static const struct call {
    const char *name;
    uint32_t (*make)(const struct work *work);
} calls[] = {
    {"verify", verify},        {"list", list},         {"why", why},
    {"text", text},     {"take in", take_in},  {"start", check_start},
    {"write", check_write}, {"compare", compare},
};

enum { CALLS = sizeof calls / sizeof *calls };

static double now(void)
{
    struct timespec time;
    clock_gettime(CLOCK_MONOTONIC, &time);
    return (double)time.tv_sec + (double)time.tv_nsec / 1e9;
}

/* ---- what a call costs */

static void *make_once(void *about)
{
    struct work *work = about;
    work->wrong += work->call(work) != 0;
    return NULL;
}

/* The bytes of stack that a thread touches in which the call is made. */
static size_t touched(struct work *work)
{
    pthread_attr_t attributes;
    pthread_t id;
    size_t untouched = 0;
    memset(stack, UNTOUCHED, sizeof stack);
    pthread_attr_init(&attributes);
    pthread_attr_setstack(&attributes, stack, sizeof stack);
    if (pthread_create(&id, &attributes, make_once, work) != 0)
        exit(2);
    pthread_join(id, NULL);
    while (untouched < sizeof stack && stack[untouched] == UNTOUCHED)
        untouched++;
    return sizeof stack - untouched;
}

static size_t stack_of(struct work *work, uint32_t (*call)(const struct work *))
{
    work->call = nothing;
    size_t without = touched(work);
    work->call = call;
    return touched(work) - without;
}

/* The least seconds of a call, over half a second of calls. */
static double time_of(struct work *work)
{
    double least = 1e9, end = now() + 0.5;
    do {
        double begun = now();
        work->wrong += work->call(work) != 0;
        double took = now() - begun;
        least = took < least ? took : least;
    } while (now() < end);
    return least;
}

static void cost(const char *name, const struct call *call, struct work work, long *wrong)
{
    work.call = call->make;
    held = most_held = growths = 0, is_counting = 1;
    make_once(&work);
    is_counting = 0;
    double seconds = time_of(&work);
    printf("%-16s%-8s%12.1f%12.1f%10zu%10zu\n", name, call->name, seconds * 1e6,
           (double)most_held / 1024, growths, stack_of(&work, call->make));
    fflush(stdout);
    *wrong += work.wrong;
}

static struct chanv_row remembered(const struct chanv_job *job, long *wrong)
{
    struct chanv_row row = {.stores = {0, 0}};
    *wrong += take_job_in(job, &row.program) != CHANV_OK;
    return row;
}

static void costs(long *wrong)
{
    printf("%-16s%-8s%12s%12s%10s%10s\n", "program", "call", "us", "KiB held", "growths", "stack");
    for (int i = 0; i < PROGRAMS; i++) {
        struct chanv_job job = programs[i].make(programs[i].places);
        struct work work = {.job = &job, .places = places[0]};
        struct chanv_row in_flight[IN_FLIGHT];
        for (int number = 0; number < IN_FLIGHT; number++)
            in_flight[number] = remembered(&job, wrong);
        work.in_flight = in_flight;
        for (int call = 0; call < CALLS; call++)
            cost(programs[i].name, &calls[call], work, wrong);
    }
}

/* ---- taking programs in */

/* As an emulator does, whose threads write storage; here it is quiet. */
static void take_programs_in(long *wrong)
{
    static struct asked emulated;
    printf("\n%-16s%12s%12s\n", "program", "bytes kept", "ask, us");
    for (int i = 0; i < PROGRAMS; i++) {
        struct chanv_job job = programs[i].make(programs[i].places);
        double least = 1e9;
        if (ask(&emulated, &job) == CHANV_NO_ROOM)
            continue;
        for (int run = 0; run < 50; run++) {
            double begun = now();
            *wrong += ask(&emulated, &job) != CHANV_OK;
            least = now() - begun < least ? now() - begun : least;
        }
        printf("%-16s%12zu%12.1f\n", programs[i].name, emulated.program.kept.len, least * 1e6);
    }
}

/* ---- calls a second */

static void *ask_on(void *about)
{
    struct work *work = about;
    double end = now() + SECONDS;
    do {
        work->wrong += work->call(work) != 0;
        work->calls++;
    } while (now() < end);
    return NULL;
}

/* The calls a second, of the best run. */
static double speed(const struct chanv_job *job, uint32_t (*call)(const struct work *), int threads,
                    long *wrong)
{
    double best = 0;
    for (int run = 0; run < RUNS; run++) {
        struct work works[MOST_THREADS];
        pthread_t ids[MOST_THREADS];
        long made = 0;
        double begun = now();
        for (int i = 0; i < threads; i++) {
            works[i] = (struct work){.job = job, .places = places[i], .call = call};
            if (pthread_create(&ids[i], NULL, ask_on, &works[i]) != 0)
                exit(2);
        }
        for (int i = 0; i < threads; i++) {
            pthread_join(ids[i], NULL);
            made += works[i].calls;
            *wrong += works[i].wrong;
        }
        double reached = (double)made / (now() - begun);
        best = reached > best ? reached : best;
    }
    return best;
}

static void speeds(long *wrong)
{
    printf("\n%-16s%12s%12s%12s%12s\n", "calls a second", "verify", "list", "verify, 4", "list, 4");
    for (int i = 0; i < PROGRAMS; i++) {
        struct chanv_job job = programs[i].make(programs[i].places);
        printf("%-16s", programs[i].name);
        for (int threads = 1; threads <= MOST_THREADS; threads += MOST_THREADS - 1)
            printf("%12.0f%12.0f", speed(&job, verify, threads, wrong),
                   speed(&job, list, threads, wrong));
        printf("\n");
        fflush(stdout);
    }
}

int main(void)
{
    long wrong = 0;
    costs(&wrong);
    take_programs_in(&wrong);
    speeds(&wrong);
    return wrong != 0;
}
