/* A program changes while it is taken in: a second thread stands for the channel of a program in
 * flight, which reads from its disk over a part of the new program.
 *
 *     changing PLACES ROUNDS MODE..
 *
 * Each round: storage holds version A; `chanv_take_in` runs while the channel stores; the channel
 * ends; `chanv_check_start` is asked with an empty table; and `chanv_verify` is asked about storage,
 * which nothing writes any more. A program may start only if its verdict is yes then, and what was
 * remembered of it has to be what quiet storage gives. The modes:
 *
 *     once     one store of one CCW, version B, at a random moment of the call
 *     toggle   stores B and A by turns, at random moments
 *     seek     once, but six bytes of a seek's argument
 *     link     once, but a CCW that is read twice: as a link of a seek's data chain, and by itself
 *     growths  link, but without a thread: at each allocation of the call in turn B is stored, and
 *              then that allocation is refused
 *     start    the program is taken in while storage is quiet, and `chanv_check_start` is asked
 *              while a program in the table stores: into other bytes, and over the new program
 *     room     there is just enough memory for A, and B needs more: it is stored at each allocation
 *              of the call in turn
 *
 * A line for each mode says what came of its rounds. The status is 1 if a program that was never
 * judged started, if needs were wrong, or if a refused allocation or a change left anything behind;
 * or if a store into other bytes keeps the program from its start, or a store over it doesn't.
 */
#define _POSIX_C_SOURCE 200809L
#include "asking.h"
#include <pthread.h>
#include <stdatomic.h>
#include <time.h>

enum { LENT = 0xE0000, SUPERVISOR = 0x400, LENGTH = 1 << 20, ROOM = 1 << 22 };

static const struct chanv_area lent[] = {{LENT, 0x1000}};
static const struct chanv_job job = {
    .storage = {storage, LENGTH},
    .extents = {some_cylinders, 1},
    .fetch = {lent, 1},
    .store = {lent, 1},
    .start = START,
    .limit = CHANV_LARGEST_LIMIT,
    .device = 2314,
};

static uint8_t memory[ROOM], other_memory[ROOM];

/* ---- the programs, of which eight bytes change */

static struct word a, b;

static void put_word(struct word word)
{
    *(volatile uint64_t *)(void *)&storage[word.address] = __builtin_bswap64(word.value);
}

/* A read, and then No Operations by command chaining. B reads over the supervisor. */
static void begin_plain(int places)
{
    a = (struct word){START, 0x0600000040000008 | (uint64_t)LENT << 32};
    b = (struct word){START, 0x0600000040000008 | (uint64_t)SUPERVISOR << 32};
    for (int i = 1; i < places; i++)
        put(START + 8 * (uint32_t)i, 0x0300000000000001 | (i + 1 < places ? 0x40000000 : 0));
}

/* A seek, and then No Operations. B goes to cylinder 150, in another user's file. */
static void begin_seek(int places)
{
    begin_plain(places);
    put(START, 0x0700000040000006 | (uint64_t)(LENT + 0x800) << 32);
    a = (struct word){LENT + 0x800, 0x0000000A00000000};
    b = (struct word){LENT + 0x800, 0x0000009600000000};
}

/* A tree of searches, each of which leads to two others, so that many places wait to be looked at.
 * The last leaf is a seek, of whose argument a link of its data chain gives four bytes: of cylinder
 * 10, and in B of cylinder 150. */
static void begin_link(int places)
{
    uint32_t nodes = (uint32_t)places / 6 | 1, leaf = START + 32 * (nodes - 1);
    for (uint32_t i = 0; i < nodes; i++) {
        uint32_t at = START + 32 * i, left = START + 32 * (2 * i + 1);
        int leads_on = 2 * i + 2 < nodes;
        put(at, leads_on ? 0x3100000040000005 | (uint64_t)LENT << 32 : 0x0300000000000001);
        put(at + 8, leads_on ? 0x0800000000000000 | (uint64_t)left << 32 : 0);
        put(at + 16, leads_on ? 0x0800000000000000 | (uint64_t)(left + 32) << 32 : 0);
    }
    put(leaf, 0x0700000080000002 | (uint64_t)(LENT + 0x800) << 32);
    put(LENT + 0x800, 0);
    put(LENT + 0x810, 0x000A000000000000);
    put(LENT + 0x820, 0x0096000000000000);
    a = (struct word){leaf + 8, 0x0000000000000004 | (uint64_t)(LENT + 0x810) << 32};
    b = (struct word){leaf + 8, 0x0000000000000004 | (uint64_t)(LENT + 0x820) << 32};
}

/* A read. B goes on to a seek, so it needs a cylinder, and keeps more. */
static void begin_short(void)
{
    a = (struct word){START, 0x0600000000000008 | (uint64_t)LENT << 32};
    b = (struct word){START, 0x0600000040000008 | (uint64_t)LENT << 32};
    put(START + 8, 0x0700000000000006 | (uint64_t)(LENT + 0x800) << 32);
    put(LENT + 0x800, 0x0000000A00000000);
}

/* ---- allocations: tests/changing.py links these in place of malloc and realloc */

static long grown, stored_at, refused_at;

void *__real_malloc(size_t size);
void *__real_realloc(void *block, size_t size);
void *__wrap_malloc(size_t size);
void *__wrap_realloc(void *block, size_t size);

static int is_granted(void)
{
    grown++;
    if (grown == stored_at)
        put_word(b);
    return grown != refused_at;
}

void *__wrap_malloc(size_t size)
{
    return is_granted() ? __real_malloc(size) : NULL;
}

void *__wrap_realloc(void *block, size_t size)
{
    return is_granted() ? __real_realloc(block, size) : NULL;
}

/* ---- the channel */

static atomic_int go, done;
static int toggles;
static uint64_t call_ns;

static uint64_t now_ns(void)
{
    struct timespec now;
    clock_gettime(CLOCK_MONOTONIC, &now);
    return (uint64_t)now.tv_sec * 1000000000 + (uint64_t)now.tv_nsec;
}

static uint64_t part_of(uint64_t *random, uint64_t ns)
{
    return ns * below(random, 1 << 16) >> 16;
}

static void wait_until(uint64_t ns)
{
    while (now_ns() < ns)
        ;
}

static void store(uint64_t *random)
{
    uint64_t begin = now_ns(), at = begin + part_of(random, call_ns);
    wait_until(at);
    put_word(b);
    for (int is_b = 1; toggles && at < begin + call_ns; is_b = !is_b) {
        at += part_of(random, call_ns / 2);
        wait_until(at);
        put_word(is_b ? a : b);
    }
}

static void *run_channel(void *nothing)
{
    uint64_t random = 88172645463325252;
    for (int round, last = 0;; last = round) {
        while ((round = atomic_load(&go)) == last)
            ;
        if (round < 0)
            return nothing;
        store(&random);
        atomic_store(&done, round);
    }
}

/* ---- the supervisor */

static int is_same(const void *one, const void *other, size_t bytes)
{
    return bytes == 0 || memcmp(one, other, bytes) == 0;
}

static int are_same_rows(const struct chanv_rows *one, const struct chanv_rows *other)
{
    return one->extents.len == other->extents.len && one->fetch.len == other->fetch.len
           && one->store.len == other->store.len && one->keep.len == other->keep.len
           && one->mask == other->mask
           && is_same(one->extents.at, other->extents.at,
                      one->extents.len * sizeof *one->extents.at)
           && is_same(one->fetch.at, other->fetch.at, one->fetch.len * sizeof *one->fetch.at)
           && is_same(one->store.at, other->store.at, one->store.len * sizeof *one->store.at)
           && is_same(one->keep.at, other->keep.at, one->keep.len * sizeof *one->keep.at);
}

static enum chanv_answer take_in(uint8_t *into, struct chanv_program *program)
{
    struct chanv_intake intake;
    size_t len;
    return take_in_freely(&job, into, ROOM, &len, program, &intake);
}

static long taken, changed, started, wrong_starts, wrong_needs;

/* Whether the program that was taken in may start over storage, which is quiet now. */
static void count_start(const struct chanv_program *program)
{
    struct chanv_refusal refusal;
    struct chanv_verdict verdict;
    struct chanv_program quiet;
    taken++;
    if (chanv_check_start(&job, NULL, 0, program, &refusal) != CHANV_YES)
        return;
    started++;
    wrong_starts += chanv_verify(&job, &verdict) != CHANV_YES;
    wrong_needs += take_in(other_memory, &quiet) != CHANV_OK
                   || !are_same_rows(&program->rows, &quiet.rows);
}

static void count_round(enum chanv_answer answer, const struct chanv_program *program)
{
    changed += answer == CHANV_CHANGED_MEANWHILE;
    if (answer == CHANV_OK)
        count_start(program);
}

/* How long a call takes over quiet storage, where it always gives an answer. */
static uint64_t shortest_call(void)
{
    uint64_t shortest = UINT64_MAX;
    struct chanv_program program;
    for (int i = 0; i < 20; i++) {
        uint64_t begin = now_ns();
        if (take_in(memory, &program) != CHANV_OK)
            exit(2);
        uint64_t took = now_ns() - begin;
        shortest = took < shortest ? took : shortest;
    }
    return shortest;
}

static void race(int rounds)
{
    pthread_t channel;
    struct chanv_program program;
    call_ns = shortest_call() * 5 / 4;
    if (pthread_create(&channel, NULL, run_channel, NULL) != 0)
        exit(2);
    for (int round = 1; round <= rounds; round++) {
        put_word(a);
        atomic_store(&go, round);
        enum chanv_answer answer = take_in(memory, &program);
        while (atomic_load(&done) != round)
            ;
        count_round(answer, &program);
    }
    atomic_store(&go, -1);
    pthread_join(channel, NULL);
    atomic_store(&go, 0);
    atomic_store(&done, 0);
}

/* Whether a call that has no memory says so, and leaves all as it was. */
static int is_refused(long growth)
{
    static const struct chanv_program none;
    struct chanv_program program;
    memset(memory, UNTOUCHED, ROOM);
    grown = 0, refused_at = growth;
    enum chanv_answer answer = take_in(memory, &program);
    refused_at = 0;
    return answer == CHANV_MEMORY && memcmp(&program, &none, sizeof none) == 0
           && is_untouched(memory, memory + ROOM);
}

static int try_growths(void)
{
    int failed = 0;
    struct chanv_program program;
    put_word(a);
    grown = 0;
    if (take_in(memory, &program) != CHANV_OK)
        exit(2);
    for (long growths = grown, growth = 1; growth <= growths; growth++) {
        put_word(a);
        failed += !is_refused(growth);
        grown = 0, stored_at = growth;
        enum chanv_answer answer = take_in(memory, &program);
        stored_at = 0;
        count_round(answer, &program);
    }
    return failed;
}

/* Whether the call left what its answer says, if A takes just so much memory: the program of A;
 * how much more B takes; or nothing at all. */
static int is_left(enum chanv_answer answer, size_t just, size_t len,
                   const struct chanv_program *program, const struct chanv_intake *intake)
{
    static const struct chanv_program none;
    static const struct chanv_intake nothing = {.refusal.row = CHANV_NOBODY};
    if (answer == CHANV_OK)
        return len == just && program->kept.len == 8;
    int is_empty = is_same(program, &none, sizeof none) && is_untouched(memory, memory + just);
    if (answer == CHANV_NO_ROOM)
        return is_empty && len > just;
    return answer == CHANV_CHANGED_MEANWHILE && is_empty && len == 0
           && is_same(intake, &nothing, sizeof nothing);
}

/* Takes A in with just enough memory, while B comes at each allocation in turn. */
static int try_room(void)
{
    int wrong = 0;
    size_t just, len;
    long counts[CHANV_CHANGED_MEANWHILE + 1] = {0};
    struct chanv_program program;
    struct chanv_intake intake;
    put_word(a), grown = 0;
    if (take_in_freely(&job, NULL, 0, &just, &program, &intake) != CHANV_NO_ROOM)
        exit(2);
    /* at last B doesn't come */
    for (long growths = grown, growth = 1; growth <= growths + 1; growth++) {
        put_word(a), grown = 0, stored_at = growth;
        memset(memory, UNTOUCHED, just), memset(&program, UNTOUCHED, sizeof program);
        memset(&intake, UNTOUCHED, sizeof intake), len = UNTOUCHED;
        enum chanv_answer answer = take_in_freely(&job, memory, just, &len, &program, &intake);
        stored_at = 0;
        wrong += !is_left(answer, just, len, &program, &intake);
        counts[answer <= CHANV_CHANGED_MEANWHILE ? answer : CHANV_MEMORY]++;
    }
    printf("room: %ld taken in, %ld without room, %ld changed, %d wrong\n", counts[CHANV_OK],
           counts[CHANV_NO_ROOM], counts[CHANV_CHANGED_MEANWHILE], wrong);
    return wrong != 0;
}

/* Asks whether the program may start while another in the table stores A and B by turns into an
 * area, into which it may store. */
static void ask_beside(const struct chanv_program *program, struct chanv_area area, int rounds,
                       long *asked, long *granted)
{
    const struct chanv_row in_flight = {.stores = area};
    struct chanv_refusal refusal;
    pthread_t channel;
    toggles = 1;
    if (pthread_create(&channel, NULL, run_channel, NULL) != 0)
        exit(2);
    for (int round = 1; round <= rounds; round++) {
        put_word(a);
        atomic_store(&go, round);
        do {
            *granted += chanv_check_start(&job, &in_flight, 1, program, &refusal) == CHANV_YES;
            ++*asked;
        } while (atomic_load(&done) != round);
    }
    atomic_store(&go, -1);
    pthread_join(channel, NULL);
    atomic_store(&go, 0);
    atomic_store(&done, 0);
}

/* Stores into other bytes never keep a program from its start, and stores over it always do. */
static int try_starts(int places, int rounds)
{
    struct chanv_program program;
    long beside[2] = {0, 0}, over[2] = {0, 0};
    struct word data = {LENT, 0x0123456789ABCDEF}, other_data = {LENT, 0xFEDCBA9876543210};
    call_ns = shortest_call();
    if (take_in(memory, &program) != CHANV_OK)
        exit(2);
    struct word first = a, second = b;
    a = data, b = other_data;
    ask_beside(&program, lent[0], rounds, &beside[0], &beside[1]);
    a = first, b = second;
    ask_beside(&program, (struct chanv_area){START, 8}, rounds, &over[0], &over[1]);
    printf("start, %d places: %ld refused beside stores, %ld granted over them\n", places,
           beside[0] - beside[1], over[1]);
    return beside[0] != beside[1] || over[1] != 0;
}

int main(int argc, char **argv)
{
    int is_wrong = 0, places = atoi(argv[1]), rounds = atoi(argv[2]);
    for (int i = 3; i < argc; i++) {
        int failed = 0;
        memset(storage, 0, LENGTH);
        taken = changed = started = wrong_starts = wrong_needs = 0;
        toggles = strcmp(argv[i], "toggle") == 0;
        if (strcmp(argv[i], "seek") == 0)
            begin_seek(places);
        else if (strcmp(argv[i], "link") == 0 || strcmp(argv[i], "growths") == 0)
            begin_link(places);
        else if (strcmp(argv[i], "room") == 0)
            begin_short();
        else
            begin_plain(places);
        put_word(a);
        int is_start = strcmp(argv[i], "start") == 0;
        if (is_start || strcmp(argv[i], "room") == 0) {
            is_wrong |= is_start ? try_starts(places, rounds) : try_room();
            continue;
        }
        if (strcmp(argv[i], "growths") == 0)
            failed = try_growths();
        else
            race(rounds);
        printf("%s, %d places: %ld taken in, %ld changed, %ld started, of which %ld wrongly and %ld "
               "with other needs; %d wrong refusals\n",
               argv[i], places, taken, changed, started, wrong_starts, wrong_needs, failed);
        is_wrong |= wrong_starts != 0 || wrong_needs != 0 || failed != 0;
    }
    return is_wrong;
}
