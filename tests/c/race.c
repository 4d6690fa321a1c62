/* A second thread rewrites the program while the library looks at it, as the guest of an emulator
 * may. What most calls answer then means nothing. But each has to return, with one of the codes that
 * the header gives it, and may write only what it was handed for that.
 *
 *     race SECONDS CALL..     each CALL, such as verify or check_start, for so many seconds
 *
 * The last is `ask` of examples/c/emulator.c, whose answer is about the kept bytes. So what it says
 * of the needs has to agree with the verdict on any storage that holds these, at any time after. A
 * line for each CALL says how often each code came. The status is 1 if a call did anything else, and
 * a line says what.
 */
#define _POSIX_C_SOURCE 200809L
#include "asking.h"
#include <emulator.c>
#include <pthread.h>
#include <stdatomic.h>
#include <time.h>

enum { CODES = 13, LISTS = 2, MOST_ROWS = 32, ROW = MOST_HANDED / MOST_ROWS };
enum { PROGRAM_END = 0x868, DATA = 0x900, DATA_END = 0x938 };

/* A program with all that is looked at while it is judged. It may run, and has fourteen places. */
static const struct word right[] = {
    {0x800, 0x1F00093040000001}, /* set the file mask to the byte at 000930 */
    {0x808, 0x0700090080000002}, /* seek, by an argument that a data chain gives */
    {0x810, 0x0000090280000002},
    {0x818, 0x0800082000000000}, /* a transfer in channel, within that chain */
    {0x820, 0x0000090440000002},
    {0x828, 0x3100091040000005}, /* search, until the record is found */
    {0x830, 0x0800082800000000},
    {0x838, 0x06000A0080000040}, /* read, into two areas */
    {0x840, 0x00000A4040000040},
    {0x848, 0x0500094040000020}, /* write */
    {0x850, 0x0B00092040000006}, /* seek to a cylinder */
    {0x858, 0x06000A8040000040}, /* read */
    {0x860, 0x0300000000000001}, /* no operation: the end */
    {0x900, 0x0000000A00000000}, /* cylinder 10, head 0 */
    {0x920, 0x0000000B00010000}, /* cylinder 11, head 1 */
    {0x930, 0x8000000000000000}, /* the mask 80, which is stricter than 00 */
};

/* What one word can make of the program: too many places, or by itself a no with this reason. */
static const struct wrong {
    struct word word;
    uint32_t reason;
} wrongs[] = {
    {{0x830, 0x0800082900000000}, 1},  /* misaligned: a transfer to 000829 */
    {{0x830, 0x08FFFFF800000000}, 2},  /* outside-storage: a transfer to FFFFF8 */
    {{0x860, 0x0800083000000000}, 3},  /* transfer-not-allowed: a transfer to a transfer */
    {{0x848, 0x5000094040000020}, 4},  /* invalid-code: 50 */
    {{0x848, 0x0500094041000020}, 5},  /* bad-format: a low flag bit */
    {{0x838, 0x06000A0080000000}, 6},  /* zero-count, and chain data */
    {{0x858, 0x06FFFFF040000040}, 7},  /* data-outside: a read to FFFFF0 */
    {{0x850, 0x0200092040000006}, 8},  /* not-in-table: 02 */
    {{0x848, 0x1900094040000020}, 9},  /* inhibited: a write of the home address */
    {{0x838, 0x0600010080000040}, 10}, /* store-not-lent: a read to 000100 */
    {{0x848, 0x0500010040000020}, 11}, /* fetch-not-lent: a write from 000100 */
    {{0x820, 0x0000090440000001}, 12}, /* short-seek: five bytes of argument */
    {{0x820, 0x0000090440000000}, 12}, /* short-seek: a chain that ends with a count of zero */
    {{0x900, 0x0000001400000000}, 13}, /* seek-outside: cylinder 20 */
    {{0x900, 0x0000000A00140000}, 13}, /* seek-outside: head 20 */
    {{0x920, 0x0001000B00010000}, 13}, /* seek-outside: a bin */
    {{0x858, 0x0600082040000040}, 14}, /* changes-ccw: a read over 000820 to 00085F */
    {{0x838, 0x0600083880000008}, 14}, /* changes-ccw: a read over itself */
    {{0x858, 0x0600090040000006}, 15}, /* changes-argument: a read over an argument */
    {{0x840, 0x0000093040000001}, 15}, /* changes-argument: a chained read over the mask */
    {{0x930, 0xC000000000000000}, 16}, /* weakens-mask: C0 */
    {{0x930, 0xFF00000000000000}, 16}, /* weakens-mask: no mask */
    {{0x860, 0x08000C0000000000}, 0},  /* too many places: on to a hundred more */
};

enum { RIGHT = sizeof right / sizeof *right, WRONG = sizeof wrongs / sizeof *wrongs };

static uint8_t before[SMALL];
static const struct chanv_area fetch[] = {{0x900, 0x100}}, store[] = {{0x800, 0x700}};
static struct chanv_job job;

/* ---- the second thread */

/* Writes the word, in one go or byte by byte. */
static void rewrite_word(struct word word, int in_one_go)
{
    uint64_t in_order = __builtin_bswap64(word.value);
    if (in_one_go)
        *(volatile uint64_t *)(void *)&storage[word.address] = in_order;
    for (int i = 0; !in_one_go && i < 8; i++)
        *(volatile uint8_t *)&storage[word.address + i] = (uint8_t)(in_order >> (8 * i));
}

static void put_right(int in_one_go)
{
    for (int i = 0; i < RIGHT; i++)
        rewrite_word(right[i], in_one_go);
}

/* Mostly a part of what a call takes. Now and then it gives the processor up, so that a call is
 * interrupted too where there is but one. */
static void wait_a_while(uint64_t *random)
{
    struct timespec while_asleep = {0, below(random, 50000)};
    if (below(random, 64) == 0)
        nanosleep(&while_asleep, NULL);
    for (volatile uint32_t i = below(random, 4096); i > 0; i--)
        ;
}

static atomic_bool is_over;

/* Up to three words of the program become wrong, or a byte of it any byte; then all is right. */
static void *rewrite(void *nothing)
{
    uint64_t random = 0x9E3779B97F4A7C15;
    while (!is_over) {
        for (uint32_t i = below(&random, 4); i > 0; i--)
            rewrite_word(wrongs[below(&random, WRONG)].word, (int)below(&random, 2));
        if (below(&random, 4) == 0) {
            uint32_t address = right[below(&random, RIGHT)].address + below(&random, 8);
            *(volatile uint8_t *)&storage[address] = (uint8_t)below(&random, 256);
        }
        wait_a_while(&random);
        put_right((int)below(&random, 2));
        wait_a_while(&random);
    }
    return nothing;
}

/* ---- the calls, each with room for so many rows in its lists, of which it has at most five */

static const char *asked = "before the race";

static void fail(const char *what, uint32_t code)
{
    printf("%s: %s, code %" PRIu32 "\n", asked, what, code);
    exit(1);
}

static struct handed outcome, lists[LISTS];
static size_t outcome_size, sizes[LISTS];

/* A list of so many rows of this size. */
static void *rows_of(int list, size_t size, size_t room)
{
    sizes[list] = size * room;
    return hand(&lists[list]);
}

static void *answer_of(size_t size)
{
    outcome_size = size;
    memset(sizes, 0, sizeof sizes);
    for (int i = 0; i < LISTS; i++)
        hand(&lists[i]);
    return hand(&outcome);
}

/* No list has more rows than room, if it is wanted. */
static uint32_t within(uint32_t code, int is_listed, size_t count, size_t room)
{
    if (is_listed && room != 0 && count > room)
        fail("more rows than room", code);
    return code;
}

static uint32_t verify(size_t room)
{
    (void)room;
    return chanv_verify(&job, answer_of(sizeof(struct chanv_verdict)));
}

static uint32_t list(size_t room)
{
    size_t *counts = answer_of(2 * sizeof *counts);
    uint32_t code = chanv_list(&job, rows_of(0, sizeof(struct chanv_place), room), room, counts,
                               counts + 1);
    return within(code, code == CHANV_OK, *counts, room);
}

static uint32_t why(size_t room)
{
    struct chanv_explanation *told = answer_of(sizeof *told);
    size_t size = sizeof(struct chanv_place), second = MOST_ROWS - room;
    uint32_t code =
        chanv_why(&job, rows_of(0, size, room), room, rows_of(1, size, second), second, told);
    within(code, code == CHANV_NO, told->second_path_count, second);
    return within(code, code == CHANV_NO, told->path_count, room);
}

static uint32_t text(size_t room)
{
    size_t *len = answer_of(sizeof *len), bytes = ROW * room;
    uint32_t code = chanv_text(&job, rows_of(0, 1, bytes), bytes, len);
    return within(code, code <= CHANV_NO, *len, bytes);
}

static uint32_t take_in(size_t room)
{
    struct chanv_program *program = answer_of(sizeof *program);
    struct chanv_intake intake;
    size_t len, bytes = ROW * room;
    uint8_t *memory = rows_of(0, 1, bytes);
    uint32_t code = take_in_freely(&job, memory, bytes, &len, program, &intake);
    size_t past = code == CHANV_OK ? (size_t)(program->kept.at - memory) + program->kept.len : 0;
    within(code, code == CHANV_OK, past, len);
    return within(code, code == CHANV_OK, len, bytes);
}

/* The program while it is right, with all that is remembered of it, which no call may write. */
static struct remembered {
    struct chanv_program program;
    uint8_t memory[1024];
} remembered, remembered_before;

static uint32_t check_start(size_t room)
{
    struct chanv_refusal *refusal = answer_of(sizeof *refusal);
    (void)room;
    struct chanv_row row = row_of(&remembered.program);
    return chanv_check_start(&job, &row, 1, &remembered.program, refusal);
}

/* This doesn't look at storage, so its answer is always the same. */
static uint32_t check_write(size_t room)
{
    static const struct chanv_area area = {0, START};
    struct chanv_refusal *refusal = answer_of(sizeof *refusal);
    (void)room;
    struct chanv_row row = row_of(&remembered.program);
    return chanv_check_write(&row, 1, &area, refusal);
}

/* Storage with a program's kept bytes, and with others that nothing depends on. */
static void hold(uint8_t *still, const struct chanv_program *program)
{
    const uint8_t *kept = program->kept.at;
    memset(still, UNTOUCHED, SMALL);
    for (size_t i = 0; i < program->rows.keep.len; i++) {
        struct chanv_area area = program->rows.keep.at[i];
        memcpy(still + area.start, kept, area.len);
        kept += area.len;
    }
}

static uint32_t emulator(size_t room)
{
    static uint8_t held[SMALL];
    static struct asked asked_by_it;
    struct chanv_job still = job;
    struct chanv_verdict verdict;
    (void)room;
    answer_of(0);
    uint32_t code = ask(&asked_by_it, &job);
    if (code != CHANV_OK)
        return code;
    hold(held, &asked_by_it.program);
    still.storage.at = held;
    if (may_begin(&asked_by_it, &still) != (chanv_verify(&still, &verdict) == CHANV_YES))
        fail("another verdict on what is kept", code);
    return code;
}

/* The calls, each with a code that the header doesn't give it. */
static const struct call {
    const char *name;
    uint32_t (*make)(size_t room);
    uint32_t never;
} calls[] = {
    {"verify", verify, CHANV_NO_ROOM},
    {"list", list, CHANV_NO},
    {"why", why, CODES},
    {"text", text, CODES},
    {"take_in", take_in, CODES},
    {"check_start", check_start, CHANV_TOO_MANY_PLACES},
    {"check_write", check_write, CHANV_TOO_MANY_PLACES},
    {"emulator", emulator, CHANV_NO_ROOM},
};

/* ---- what each call has to leave alone */

static void look_at_the_rest(uint32_t code)
{
    static const uint32_t alone[][2] = {{0, START}, {PROGRAM_END, DATA}, {DATA_END, SMALL}};
    if (!is_left_alone(&outcome, outcome_size))
        fail("written beside the outcome", code);
    for (int i = 0; i < LISTS; i++)
        if (!is_left_alone(&lists[i], sizes[i]))
            fail("written beside the rows", code);
    for (int i = 0; i < 3; i++)
        if (memcmp(storage + alone[i][0], before + alone[i][0], alone[i][1] - alone[i][0]) != 0)
            fail("written to storage", code);
    if (memcmp(&remembered, &remembered_before, sizeof remembered) != 0)
        fail("written to the program handed in", code);
}

/* The program is right, and each wrong word does what it is there for. */
static void begin(void)
{
    struct chanv_verdict verdict;
    size_t len;
    job = good, job.fetch.at = fetch, job.store.at = store, job.limit = 64;
    put_right(1);
    for (uint32_t i = 0; i < 100; i++)
        put(0xC00 + 8 * i, 0x0300000040000001);
    memcpy(before, storage, SMALL);
    for (int i = 0; i < WRONG; i++) {
        uint32_t wanted = wrongs[i].reason == 0 ? CHANV_TOO_MANY_PLACES : CHANV_NO;
        rewrite_word(wrongs[i].word, 1);
        if (chanv_verify(&job, &verdict) != wanted || verdict.reason != wrongs[i].reason)
            fail("another reason", verdict.reason);
        put_right(1);
    }
    uint32_t code = take_in_freely(&job, remembered.memory, sizeof remembered.memory, &len,
                                   &remembered.program, NULL);
    if (code != CHANV_OK || chanv_verify(&job, &verdict) != CHANV_YES)
        fail("the program is wrong", code);
    remembered_before = remembered;
}

static double seconds_now(void)
{
    struct timespec now;
    clock_gettime(CLOCK_MONOTONIC, &now);
    return (double)now.tv_sec + (double)now.tv_nsec / 1e9;
}

static void make_calls(const struct call *call, double seconds)
{
    uint64_t made[CODES] = {0}, random = 0x2545F4914F6CDD1D;
    asked = call->name;
    for (double end = seconds_now() + seconds; seconds_now() < end;) {
        uint32_t code = call->make(below(&random, MOST_ROWS + 1));
        look_at_the_rest(code);
        if (code >= CODES || code == call->never)
            fail("no code of this call", code);
        made[code]++;
    }
    printf("%s", call->name);
    for (int code = 0; code < CODES; code++)
        if (made[code] != 0)
            printf(", %" PRIu64 " times %d", made[code], code);
    printf("\n");
}

int main(int argc, char **argv)
{
    pthread_t rewriting;
    begin();
    if (pthread_create(&rewriting, NULL, rewrite, NULL) != 0)
        fail("no second thread", 0);
    for (int i = 2; i < argc; i++)
        for (size_t call = 0; call < sizeof calls / sizeof *calls; call++)
            if (strcmp(calls[call].name, argv[i]) == 0)
                make_calls(&calls[call], atof(argv[1]));
    is_over = 1;
    pthread_join(rewriting, NULL);
    return 0;
}
