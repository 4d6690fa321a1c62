/* Every call of the library over one job, which an input makes within the rules of chanv.h, and
 * oracles over what the calls say together. */
#include <chanv.h>
#include <stdio.h>
#include <stdlib.h>
#include <string.h>

#define MUST(is_so)                                                             \
    do {                                                                        \
        if (!(is_so)) {                                                         \
            fprintf(stderr, "%s:%d: %s isn't so\n", __FILE__, __LINE__, #is_so); \
            abort();                                                            \
        }                                                                       \
    } while (0)

enum { CHOICES = 40, STORAGE = 2048, PLACES = 5000, TEXT = 60000, MEMORY = 32000, ROWS = 600 };

static const uint8_t *choice;
static uint8_t storage[STORAGE];
static struct chanv_extent extents[4];
static struct chanv_area fetch[4], store[4];
static struct chanv_job job;

/* What the calls say of it. */
static enum chanv_answer answer;
static struct chanv_verdict verdict;
static struct chanv_place places[PLACES], path[PLACES], second_path[PLACES];
static size_t place_count;
static struct chanv_program program;
static struct chanv_intake intake;
static uint32_t memory[MEMORY / 4], other_memory[MEMORY / 4];

/* A byte for each byte of storage: whether it is stored into or kept. */
static uint8_t stored[STORAGE], kept[STORAGE];

void over_calls(const uint8_t *at, size_t len);

/* ---- the job */

/* Makes CCWs of what is there, which a verdict gets further with than with noise. */
static void near_ccws(size_t from, size_t size)
{
    for (size_t i = from; i + 8 <= size && i < from + 8u * (choice[4] & 31); i += 8) {
        storage[i + 1] = storage[i + 5] = storage[i + 6] = 0;
        storage[i + 2] &= 7, storage[i + 4] &= 0xF8;
    }
}

static void lend(void)
{
    for (unsigned i = 0; i < 4; i++) {
        extents[i].first = choice[8 + i];
        extents[i].last = choice[0] & 4 ? choice[8 + i] : choice[12 + i];
        fetch[i] = (struct chanv_area){choice[16 + i] * 8u, choice[20 + i] * 4u};
        store[i] = (struct chanv_area){choice[24 + i] * 8u, choice[28 + i] * 4u};
    }
    if (choice[0] & 8)
        extents[0] = (struct chanv_extent)CHANV_ALL_CYLINDERS;
    if (choice[0] & 16)
        fetch[0] = (struct chanv_area){0, 0xFFFFFFFF};
    if (choice[0] & 32)
        store[0] = (struct chanv_area){0, 0x00FFFFFF};
}

/* One thing of the job that is wrong, or far. */
static void spoil(size_t from)
{
    uint8_t value = choice[33];
    switch (choice[32]) {
    case 2: job.mask = value; break;
    case 3: job.device = (uint16_t)(value * 256 + choice[34]); break;
    case 4: job.limit = value ? CHANV_LARGEST_LIMIT + 1 : 0; break;
    case 5: job.start = (uint32_t)value << 24 | (uint32_t)from; break;
    }
}

static void make_job(const uint8_t *at, size_t len)
{
    size_t size = choice[0] & 1 ? STORAGE : choice[2] * 8u + (choice[3] & 7);
    size_t from = (choice[1] & 0x7F) * 8u;
    memset(storage, 0, STORAGE);
    if (from < size)
        memcpy(storage + from, at, len < size - from ? len : size - from);
    if (choice[0] & 2)
        near_ccws(from, size);
    lend();
    unsigned count = choice[5] & 3 ? choice[5] & 3u : choice[5] & 4 ? 0 : 4;
    job = (struct chanv_job){
        .storage = {storage, size},
        .extents = {extents, count},
        .fetch = {fetch, choice[5] >> 3 & 3},
        .store = {store, choice[5] >> 5 & 3},
        .start = (uint32_t)from + (choice[0] & 64 ? choice[6] : 0),
        .limit = choice[0] & 128 ? choice[7] : CHANV_USUAL_LIMIT,
        .device = choice[6] & 1 ? 2311 : 2314,
        .mask = choice[3] & 0xD8,
    };
    spoil(from);
}

/* ---- the verdict, the places, the explanation */

static int is_fault(enum chanv_answer code)
{
    return code >= CHANV_STORAGE_TOO_LARGE && code <= CHANV_NOT_A_LIMIT;
}

static void check_verdict(void)
{
    memset(&verdict, 0xAA, sizeof verdict);
    answer = chanv_verify(&job, &verdict);
    MUST(answer <= CHANV_NOT_A_LIMIT && answer != CHANV_MEMORY);
    if (answer == CHANV_NO)
        MUST(*chanv_reason_word(verdict.reason) != '\0');
    else
        MUST(verdict.address == 0 && verdict.reason == 0);
    MUST(is_fault(answer) || verdict.extent == 0);
}

static uint64_t order(const struct chanv_place *place)
{
    return (uint64_t)place->address << 16 | (uint64_t)place->entered << 8 | place->after_transfer;
}

/* The places rise, take exactly so much room, and are exactly so many as the least limit. */
static void check_places(void)
{
    size_t count, extent;
    enum chanv_answer listed = chanv_list(&job, places, PLACES, &place_count, &extent);
    MUST(listed == (answer == CHANV_NO ? CHANV_OK : answer));
    if (listed != CHANV_OK) {
        MUST(place_count == 0 && extent == verdict.extent);
        return;
    }
    MUST(place_count >= 1 && place_count <= job.limit);
    for (size_t i = 1; i < place_count; i++)
        MUST(order(&places[i - 1]) < order(&places[i]));
    MUST(chanv_list(&job, path, place_count - 1, &count, &extent) == CHANV_NO_ROOM);
    MUST(count == place_count);
    struct chanv_job exact = job;
    struct chanv_verdict same;
    exact.limit = (uint32_t)place_count;
    MUST(chanv_verify(&exact, &same) == answer && !memcmp(&verdict, &same, sizeof same));
    if (--exact.limit > 0)
        MUST(chanv_verify(&exact, &same) == CHANV_TOO_MANY_PLACES);
}

static void must_be_places(const struct chanv_place *rows, size_t count)
{
    for (size_t i = 0; i < count; i++) {
        size_t at = 0;
        while (at < place_count && order(&places[at]) != order(&rows[i]))
            at++;
        MUST(at < place_count);
    }
}

/* The paths are of reachable places, from the start to the offence, and to what it changes. */
static void check_why(void)
{
    struct chanv_explanation why;
    MUST(chanv_why(&job, path, PLACES, second_path, PLACES, &why) == answer);
    MUST(!memcmp(&why.verdict, &verdict, sizeof verdict));
    if (answer != CHANV_NO) {
        MUST(why.path_count == 0 && why.second_path_count == 0 && why.evidence.reason == 0);
        return;
    }
    MUST(why.path_count >= 1 && path[0].address == job.start);
    MUST(path[why.path_count - 1].address == verdict.address);
    MUST(why.evidence.reason == verdict.reason);
    must_be_places(path, why.path_count);
    must_be_places(second_path, why.second_path_count);
    uint32_t last = why.second_path_count ? second_path[why.second_path_count - 1].address : 0;
    if (verdict.reason == CHANV_REASON_CHANGES_CCW)
        MUST(why.second_path_count && last == why.evidence.address);
    else if (verdict.reason == CHANV_REASON_CHANGES_ARGUMENT)
        MUST(why.second_path_count && last == why.evidence.taker);
    else
        MUST(why.second_path_count == 0);
}

static void check_text(void)
{
    static char text[TEXT], less[TEXT];
    size_t len, same;
    MUST(chanv_text(&job, (void *)text, TEXT, &len) == answer);
    if (answer > CHANV_NO) {
        MUST(len == 0);
        return;
    }
    less[0] = 0x55;
    MUST(len > 1 && chanv_text(&job, (void *)less, len - 1, &same) == CHANV_NO_ROOM);
    MUST(same == len && less[0] == 0x55);
}

/* ---- the needs */

static void mark(const struct chanv_areas *areas, uint8_t *bytes)
{
    memset(bytes, 0, STORAGE);
    for (size_t i = 0; i < areas->len; i++) {
        const struct chanv_area *it = &areas->at[i];
        MUST(it->len > 0 && (uint64_t)it->start + it->len <= STORAGE);
        MUST(i == 0 || it[-1].start + it[-1].len < it->start);
        memset(bytes + it->start, 1, it->len);
    }
}

static int meet(const uint8_t *some, const uint8_t *others)
{
    for (int i = 0; i < STORAGE; i++)
        if (some[i] && others[i])
            return 1;
    return 0;
}

static struct chanv_job least_job(void)
{
    static const struct chanv_extent first = {0, 0};
    struct chanv_job least = job;
    least.extents = program.rows.extents;
    if (least.extents.len == 0)
        least.extents = (struct chanv_extents){&first, 1};
    least.fetch = program.rows.fetch, least.store = program.rows.store;
    least.mask = program.rows.mask, least.limit = CHANV_LARGEST_LIMIT;
    return least;
}

static void must_be_yes(const struct chanv_job *asked)
{
    struct chanv_verdict none;
    struct chanv_refusal no;
    MUST(chanv_verify(asked, &none) == CHANV_YES);
    MUST(chanv_check_start(asked, NULL, 0, &program, &no) == CHANV_YES);
}

static const struct chanv_area whole = CHANV_ALL_STORAGE;
static const struct chanv_areas everything = {&whole, 1};

/* Takes a job's program in, for a user who owns these areas. */
static enum chanv_answer take_in(const struct chanv_job *asked, struct chanv_areas own,
                                 uint32_t allowed, void *room, size_t len, size_t *used,
                                 struct chanv_program *taken)
{
    struct chanv_source source = {asked->storage, asked->start, asked->limit, asked->device};
    memset(&intake, 0xAA, sizeof intake);
    return chanv_take_in(&source, &own, allowed, room, len, used, taken, &intake);
}

/* The kept bytes are storage's; so much memory is enough, and a byte less isn't. */
static void check_rows(size_t len)
{
    struct chanv_program same;
    size_t again, at = 0;
    mark(&program.rows.store, stored);
    mark(&program.rows.keep, kept);
    MUST(!meet(stored, kept) && program.rows.storage_len == job.storage.len);
    for (int i = 0; i < STORAGE; i++)
        if (kept[i])
            MUST(program.kept.at[at++] == storage[i]);
    MUST(at == program.kept.len);
    uint8_t *room = (uint8_t *)other_memory + (choice[36] & 7);
    MUST(take_in(&job, everything, UINT32_MAX, room, len, &again, &same) == CHANV_OK);
    MUST(again == len);
    MUST(take_in(&job, everything, UINT32_MAX, room, len - 1, &again, &same) == CHANV_NO_ROOM);
    MUST(again == len);
}

/* The least job has a yes, and with one byte less a no. */
static void check_least(void)
{
    static struct chanv_area fewer[ROWS + 1];
    struct chanv_job least = least_job();
    struct chanv_verdict no_verdict;
    struct chanv_refusal no;
    must_be_yes(&least);
    int fetches = least.fetch.len > 0 && (choice[38] & 1 || least.store.len == 0);
    struct chanv_areas *lent = fetches ? &least.fetch : &least.store;
    if (lent->len == 0 || lent->len > ROWS)
        return;
    size_t row = choice[39] % lent->len;
    struct chanv_area cut = lent->at[row];
    uint32_t missing = choice[38] % cut.len;
    memcpy(fewer, lent->at, lent->len * sizeof *fewer);
    fewer[row].len = missing;
    fewer[lent->len] = (struct chanv_area){cut.start + missing + 1, cut.len - missing - 1};
    *lent = (struct chanv_areas){fewer, lent->len + 1};
    MUST(chanv_verify(&least, &no_verdict) == CHANV_NO);
    MUST(chanv_check_start(&least, NULL, 0, &program, &no) == CHANV_NO);
    MUST(no.code == (fetches ? CHANV_REFUSED_NOT_FETCHABLE : CHANV_REFUSED_NOT_STORABLE));
    MUST(no.value == cut.start + missing);
}

/* Whatever the other bytes are, the answers are the same; a kept byte that changes is noticed. */
static void check_kept(void)
{
    static uint8_t others[STORAGE];
    struct chanv_job moved = least_job();
    struct chanv_refusal no;
    uint32_t random = choice[37] | 1u;
    for (int i = 0; i < STORAGE; i++) {
        random = random * 1103515245 + 12345;
        others[i] = kept[i] ? storage[i] : (uint8_t)(random >> 16);
    }
    moved.storage.at = others;
    must_be_yes(&moved);
    const struct chanv_area *area = &program.rows.keep.at[choice[38] % program.rows.keep.len];
    uint32_t address = area->start + choice[39] % area->len;
    others[address] ^= (uint8_t)(1 << (choice[37] & 7));
    MUST(chanv_check_start(&moved, NULL, 0, &program, &no) == CHANV_NO);
    MUST(no.code == CHANV_REFUSED_CHANGED && no.value == address);
}

/* ---- starts and writes */

static void check_start(void)
{
    struct chanv_refusal no;
    enum chanv_answer alone = chanv_check_start(&job, NULL, 0, &program, &no);
    MUST(is_fault(answer) || alone <= CHANV_NO);
    MUST(answer == CHANV_TOO_MANY_PLACES || alone == answer);
    MUST(alone != CHANV_NO
         || (no.code >= CHANV_REFUSED_MASK && no.code <= CHANV_REFUSED_NOT_STORABLE));
    struct chanv_row row = {.program = program};
    MUST(chanv_check_start(&job, &row, 1, &program, &no) == alone);
}

static void check_write(void)
{
    struct chanv_area area = {choice[38] * 8u + choice[37], choice[39] * 3u};
    struct chanv_refusal no;
    uint32_t first = area.start;
    while (first < area.start + area.len && !(first < STORAGE && kept[first]))
        first++;
    int meets = first < area.start + area.len;
    struct chanv_row row = {.program = program};
    MUST(chanv_check_write(&row, 1, &area, &no) == (meets ? CHANV_NO : CHANV_YES));
    MUST(!meets || (no.code == CHANV_REFUSED_WRITES_OVER_KEPT && no.value == first));
}

/* Who owns just what the program keeps may run it; who owns nothing, or a byte less, may not. */
static void check_owned(void)
{
    static struct chanv_area fewer[2];
    struct chanv_program same;
    struct chanv_area cut = program.rows.keep.at[0];
    struct chanv_areas none = {NULL, 0}, less = {fewer, 2};
    uint32_t missing = choice[38] % cut.len;
    fewer[0] = (struct chanv_area){0, cut.start + missing};
    fewer[1] = (struct chanv_area){cut.start + missing + 1, 0xFFFFFFFF};
    MUST(take_in(&job, program.rows.keep, UINT32_MAX, other_memory, MEMORY, NULL, &same)
         == CHANV_OK);
    MUST(take_in(&job, none, UINT32_MAX, other_memory, MEMORY, NULL, &same) == CHANV_NO);
    MUST(intake.refusal.code == CHANV_REFUSED_KEEPS_OUTSIDE && intake.refusal.value == cut.start);
    MUST(take_in(&job, less, UINT32_MAX, other_memory, MEMORY, NULL, &same) == CHANV_NO);
    MUST(intake.refusal.value == cut.start + missing);
}

/* Whatever the program may do is refused, exactly if it isn't allowed, and the first comes first. */
static void check_allowed(void)
{
    struct chanv_program same;
    uint32_t allowed = choice[37] & 7;
    enum chanv_answer code =
        take_in(&job, everything, allowed, other_memory, MEMORY, NULL, &same);
    uint32_t refused = 0;
    if (intake.ends_chaining && !(allowed & CHANV_ALLOW_ENDING_CHAINS))
        refused = CHANV_REFUSED_ENDS_CHAINING;
    if (intake.interrupts && !(allowed & CHANV_ALLOW_INTERRUPTING))
        refused = CHANV_REFUSED_INTERRUPTS;
    if (intake.may_hang && !(allowed & CHANV_ALLOW_HANGING))
        refused = CHANV_REFUSED_MAY_HANG;
    MUST(code == (refused ? CHANV_NO : CHANV_OK) && intake.refusal.code == refused);
}

/* Beside another program of the same storage, among rows of zeros. */
static void check_beside(void)
{
    static uint8_t others_stored[STORAGE], others_kept[STORAGE];
    struct chanv_row table[3];
    struct chanv_program *taken = &table[1].program;
    struct chanv_refusal no;
    struct chanv_job least = least_job(), other = job;
    memset(table, 0, sizeof table);
    other.start = choice[37] * 8u;
    if (take_in(&other, everything, UINT32_MAX, other_memory, MEMORY, NULL, taken) != CHANV_OK)
        return;
    mark(&taken->rows.store, others_stored);
    mark(&taken->rows.keep, others_kept);
    uint32_t code = meet(stored, others_kept)   ? CHANV_REFUSED_STORES_OVER_KEPT
                    : meet(kept, others_stored) ? CHANV_REFUSED_KEEPS_STORED_OVER
                                                : 0;
    size_t row = 1;
    table[2].stores = (struct chanv_area){choice[36] * 8u, choice[39] % 3u};
    memset(others_stored, 0, STORAGE);
    memset(others_stored + table[2].stores.start, 1, table[2].stores.len);
    if (code == 0 && meet(kept, others_stored))
        code = CHANV_REFUSED_KEEPS_STORED_OVER, row = 2;
    MUST(chanv_check_start(&least, table, 3, &program, &no) == (code ? CHANV_NO : CHANV_YES));
    MUST(no.code == code && no.row == (code ? row : CHANV_NOBODY));
}

static void check_taken_in(void)
{
    static const struct chanv_program zeros;
    size_t len;
    uint8_t *room = (uint8_t *)memory + (choice[35] & 7);
    enum chanv_answer taken =
        take_in(&job, everything, UINT32_MAX, room, MEMORY - 8, &len, &program);
    MUST(taken != CHANV_MEMORY && taken < CHANV_NO_ROOM && intake.verdict.extent == 0);
    MUST(!is_fault(taken) || is_fault(answer));
    if (answer == CHANV_YES)
        MUST(taken == CHANV_OK);
    if (taken != CHANV_OK) {
        MUST(len == 0 && !memcmp(&program, &zeros, sizeof zeros));
        return;
    }
    check_rows(len);
    check_least();
    check_kept();
    check_start();
    check_write();
    check_owned();
    check_allowed();
    check_beside();
}

static void check_find(void)
{
    static uint32_t starts[STORAGE];
    size_t count;
    enum chanv_answer found = chanv_find(&job.storage, job.device, starts, STORAGE, &count);
    if (found != CHANV_OK)
        MUST(count == 0 && found == answer);
    for (size_t i = 0; i < count; i++) {
        MUST(starts[i] % 8 == 0 && starts[i] + 8 <= job.storage.len);
        MUST(i == 0 || starts[i - 1] < starts[i]);
    }
}

void over_calls(const uint8_t *at, size_t len)
{
    if (len < CHOICES)
        return;
    choice = at;
    make_job(at + CHOICES, len - CHOICES);
    check_verdict();
    check_places();
    check_why();
    check_text();
    check_taken_in();
    check_find();
}
