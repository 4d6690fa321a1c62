/* Asks at the edges: NULL for empty lists, each fault of a job and two at once, the limits, too
 * little room, several threads. Each line is the name of a case, the call's code, and what it
 * wrote. */
#include "asking.h"
#include <pthread.h>

static const struct chanv_areas no_areas = {NULL, 0};

/* Whether so many rows from the front are written, and none behind them. */
static int are_written(const struct chanv_place *rows, size_t room, size_t written)
{
    for (size_t i = 0; i < room; i++)
        if ((i < written) == (rows[i].address == 0x77777777))
            return 0;
    return 1;
}

/* Asks why with so much room, and says what was told and whether the rows are as they should be. */
static uint32_t why(struct chanv_job job, struct chanv_place *path, size_t room,
                    struct chanv_place *second_path, size_t second_room,
                    struct chanv_explanation *told)
{
    memset(told, 0x77, sizeof *told);
    if (room != 0)
        memset(path, 0x77, sizeof *path * room);
    if (second_room != 0)
        memset(second_path, 0x77, sizeof *second_path * second_room);
    uint32_t answer = chanv_why(&job, path, room, second_path, second_room, told);
    int written = answer == CHANV_NO;
    size_t count = written && room != 0 ? told->path_count : 0;
    size_t second_count = written && second_room != 0 ? told->second_path_count : 0;
    printf("why %" PRIu32 ", %zu and %zu", answer, told->path_count, told->second_path_count);
    if (!are_written(path, room, count) || !are_written(second_path, second_room, second_count))
        printf(", wrong rows");
    return answer;
}

/* Whether nothing is told but perhaps an extent. */
static int is_empty(const struct chanv_explanation *told)
{
    static const struct chanv_evidence no_values;
    return told->unused == 0 && told->path_count == 0 && told->second_path_count == 0 && told->verdict.address == 0
           && told->verdict.reason == 0
           && memcmp(&told->evidence, &no_values, offsetof(struct chanv_evidence, mask) + 1) == 0;
}

/* `chanv_why` says what `chanv_verify` said, and what it doesn't tell is 0. */
static void ask_why(struct chanv_job job, uint32_t verified, const struct chanv_verdict *verdict)
{
    enum { ROOM = CHANV_LARGEST_LIMIT + 1 };
    static struct chanv_place path[ROOM], second_path[ROOM];
    struct chanv_explanation told;
    uint32_t answer = why(job, path, ROOM, second_path, ROOM, &told);
    if (answer != verified || memcmp(&told.verdict, verdict, sizeof *verdict) != 0)
        printf(", another verdict");
    if (told.evidence.reason != verdict->reason || (answer != CHANV_NO && !is_empty(&told)))
        printf(", wrong values");
    printf("\n");
}

static void print_path(const char *name, const struct chanv_place *path, size_t count)
{
    printf("; %s", name);
    for (size_t i = 0; i < count; i++)
        printf(" %06" PRIX32 " %u %u", path[i].address, path[i].entered, path[i].after_transfer);
}

/* Asks why with room for so many rows. */
static void why_with_room(const char *name, struct chanv_job job, size_t room, size_t second_room)
{
    static struct chanv_place rows[4], second_rows[4];
    struct chanv_place *path = room == 0 ? NULL : rows;
    struct chanv_place *second_path = second_room == 0 ? NULL : second_rows;
    struct chanv_explanation told;
    printf("%s: ", name);
    uint32_t answer = why(job, path, room, second_path, second_room, &told);
    struct chanv_evidence values = told.evidence;
    printf(", %06" PRIX32 " %s, range %06" PRIX32 " %" PRIX32 ", address %06" PRIX32,
           told.verdict.address, chanv_reason_word(values.reason), values.range.start,
           values.range.len, values.address);
    if (answer == CHANV_NO) {
        print_path("path", path, room == 0 ? 0 : told.path_count);
        print_path("second", second_path, second_room == 0 ? 0 : told.second_path_count);
    }
    printf("\n");
}

/* All calls, with what they wrote. What isn't to be written is looked at. */
static void ask(const char *name, struct chanv_job job)
{
    static struct chanv_place rows[CHANV_LARGEST_LIMIT + 1], before[CHANV_LARGEST_LIMIT + 1];
    struct chanv_verdict verdict = {77, 77, 77};
    size_t count = 77, extent = 77, written;
    uint32_t verified = chanv_verify(&job, &verdict);
    printf("%s: verify %" PRIu32 ", %06" PRIX32 " %s, extent %zu", name, verified, verdict.address,
           verdict.reason ? chanv_reason_word(verdict.reason) : "-", verdict.extent);
    memset(rows, 0x77, sizeof rows);
    memcpy(before, rows, sizeof rows);
    uint32_t answer = chanv_list(&job, rows, CHANV_LARGEST_LIMIT + 1, &count, &extent);
    written = answer == CHANV_OK ? count : 0;
    size_t rest = sizeof *rows * (CHANV_LARGEST_LIMIT + 1 - written);
    int is_past = memcmp(rows + written, before + written, rest) != 0;
    const char *more = is_past ? ", written past the end" : "";
    printf("; list %" PRIu32 ", %zu, extent %zu%s; ", answer, count, extent, more);
    ask_why(job, verified, &verdict);
}

/* Asks with so much room. */
static void list(const char *name, struct chanv_job job, struct chanv_place *rows, size_t room)
{
    size_t count = 77, extent = 77;
    uint32_t answer = chanv_list(&job, rows, room, &count, &extent);
    printf("%s: list %" PRIu32 ", %zu", name, answer, count);
    if (extent != 0)
        printf(", extent %zu", extent);
    for (size_t i = 0; answer == CHANV_OK && i < count; i++)
        printf(", %06" PRIX32 " %u %u", rows[i].address, rows[i].entered, rows[i].after_transfer);
    printf("\n");
}

/* Asks a thousand times, and says how often the answer was the right one. */
static void *ask_often(void *about)
{
    const struct chanv_job *job = about;
    uintptr_t right = 0;
    for (int i = 0; i < 1000; i++) {
        struct chanv_verdict verdict;
        struct chanv_place rows[3];
        struct chanv_explanation told;
        size_t count, extent;
        right += chanv_verify(job, &verdict) == CHANV_NO && verdict.address == 0x810
                 && verdict.reason == CHANV_REASON_STORE_NOT_LENT
                 && chanv_list(job, rows, 3, &count, &extent) == CHANV_OK
                 && count == 3 && rows[2].address == 0x810
                 && chanv_why(job, rows, 3, NULL, 0, &told) == CHANV_NO && told.path_count == 2
                 && rows[1].address == 0x810;
    }
    return (void *)right;
}

static void ask_in_threads(struct chanv_job job)
{
    pthread_t threads[4];
    uintptr_t right = 0;
    for (int i = 0; i < 4; i++)
        if (pthread_create(&threads[i], NULL, ask_often, &job) != 0)
            exit(4);
    for (int i = 0; i < 4; i++) {
        void *of_one;
        pthread_join(threads[i], &of_one);
        right += (uintptr_t)of_one;
    }
    printf("four threads: %" PRIuPTR " right answers\n", right);
}

/* Asks for the text with so much room, and says whether what is behind it stands as it did. */
static void text_with_room(const char *name, struct chanv_job job, size_t room)
{
    static char buffer[1024];
    size_t length = 77, written;
    memset(buffer, 0x77, sizeof buffer);
    uint32_t answer = chanv_text(&job, room == 0 ? NULL : buffer, room, &length);
    written = answer <= CHANV_NO ? length : 0;
    printf("%s: text %" PRIu32 ", %zu\n%.*s", name, answer, length, (int)written, buffer);
    for (size_t i = written; i < sizeof buffer; i++)
        if (buffer[i] != 0x77)
            printf("written past the text\n");
}

/* A search loop whose read stores over the CCW behind it. */
static void ask_with_little_room(void)
{
    struct chanv_job job = good;
    job.fetch = job.store = (struct chanv_areas){all, 1};
    put(0x810, 0x0600081840000008);
    put(0x818, 0x0300000000000001);
    job.limit = 4;
    ask("a store over the next CCW", job);
    why_with_room("no room, NULL", job, 0, 0);
    why_with_room("room for one and three", job, 1, 3);
    why_with_room("room for one and none, NULL", job, 1, 0);
    why_with_room("room for two and none, NULL", job, 2, 0);
    why_with_room("no room, NULL, and room for three", job, 0, 3);
    why_with_room("room for two and two", job, 2, 2);
    why_with_room("room for two and three", job, 2, 3);
    why_with_room("room for four and four", job, 4, 4);
    text_with_room("no room, NULL", job, 0);
    text_with_room("room for all but one byte", job, 393);
    text_with_room("room for the text", job, 394);
    text_with_room("more room", job, 395);
    put(0x810, 0x06000A0020000050);
}

static void ask_with_nothing_lent(void)
{
    struct chanv_job job = good;
    job.store = no_areas;
    ask("nothing lent for storing, NULL", job);
    why_with_room("a path of two, no second", job, 2, 0);
    ask_in_threads(job);
    job.fetch = no_areas;
    ask("nothing lent, NULL", job);
}

static void ask_with_another_value(void)
{
    struct chanv_job job = good;
    job.storage = (struct chanv_bytes){NULL, 0};
    ask("no storage, NULL", job);
    job = good, job.start = 0x801;
    ask("misaligned start", job);
    job.start = 0xFFFFFFFF;
    ask("the last address", job);
    job = good, job.device = 2311;
    ask("2311", job);
    text_with_room("a yes", job, 4);
    job.device = 2312, job.limit = 0;
    text_with_room("no device and no limit", job, 4);
    job.device = 2311, job.limit = 1;
    text_with_room("too many places", job, 4);
}

static void ask_with_faults(void)
{
    struct chanv_job job;
    const char *name;
    for (int step = 0; (name = take_fault_away(step, &job)) != NULL; step++)
        ask(name, job);
}

static void list_with_little_room(void)
{
    struct chanv_job job = good;
    struct chanv_place rows[4];
    list("no room, NULL", good, NULL, 0);
    list("room for two", good, rows, 2);
    list("room for three", good, rows, 3);
    job.limit = 2;
    list("three places where two are allowed", job, rows, 4);
}

static void print_part(const struct chanv_evidence *values)
{
    switch (values->outside) {
    case CHANV_PART_BIN: printf("bin %" PRIu32 "\n", values->value); break;
    case CHANV_PART_CYLINDER: printf("cylinder %" PRIu32 "\n", values->value); break;
    case CHANV_PART_HEAD:
        printf("head %" PRIu32 " of %" PRIu32 "\n", values->value, values->below);
        break;
    default: printf("no part\n");
    }
}

/* Seeks of which a part of the argument isn't allowed: the bin, the cylinder or the head. */
static void ask_about_parts(void)
{
    static const uint64_t arguments[] = {0x0001000A00000000, 0x0000001400000000,
                                         0x0000000A00140000};
    for (size_t i = 0; i < sizeof arguments / sizeof *arguments; i++) {
        const struct word seek[] = {{0x800, 0x0700090040000006},
                                    {0x808, 0x0300000020000001},
                                    {0x900, arguments[i]},
                                    {0, 0}};
        struct chanv_explanation told;
        fill(seek);
        enum chanv_answer answer = chanv_why(&good, NULL, 0, NULL, 0, &told);
        printf("a seek to %012" PRIX64 ": why %u, %s, ", arguments[i] >> 16, answer,
               chanv_reason_word(told.verdict.reason));
        print_part(&told.evidence);
    }
}

static void ask_at_the_limits(void)
{
    struct chanv_job job = {
        .storage = {storage, 16777216},
        .extents = good.extents,
        .device = 2314,
    };
    for (uint32_t i = 0; i < 65537; i++)
        put(0x1000 + 8 * i, 0x0300000040000001);
    put(0x1000 + 8 * 65537, 0x0300000000000001);
    job.start = 0x1000 + 8 * 2;
    job.limit = CHANV_LARGEST_LIMIT;
    ask("65,536 places", job);
    job.start -= 8;
    ask("65,537 places", job);
    job.start = 0x1000 + 8 * (65537 - 4095);
    job.limit = CHANV_USUAL_LIMIT;
    ask("4,096 places", job);
    job.limit = CHANV_USUAL_LIMIT - 1;
    ask("4,096 places, one fewer allowed", job);
}

int main(void)
{
    fill(search_loop);
    ask("search loop", good);
    ask_with_little_room();
    ask_with_nothing_lent();
    ask_with_another_value();
    ask_with_faults();
    list_with_little_room();
    ask_about_parts();
    ask_at_the_limits();
    print_words();
    return 0;
}
