/* Makes one call, so that the growths of memory in that call can be refused one by one. It is about
 * the search loop; calls that explain a no are about one whose read stores over the CCW after it.
 *
 *     one_call CALL     such as verify or check_start; prints what it answers, and ends with its
 *                       code, or with 0 if that answer is due
 *     one_call setup    all that comes before the call
 *
 * The status is 99 where something was written that shouldn't be. Nothing here asks for memory.
 */
#include "asking.h"
#include <unistd.h>

static int say(const char *text)
{
    return write(1, text, strlen(text)) == (ssize_t)strlen(text) ? 0 : 98;
}

static int verify(const struct chanv_job *job)
{
    static const struct chanv_verdict empty = {0, 0, 0};
    struct chanv_verdict verdict = {7, 7, 7};
    uint32_t answer = chanv_verify(job, &verdict);
    if (memcmp(&verdict, &empty, sizeof empty) != 0)
        return 99;
    return answer == CHANV_YES ? say("yes\n") : (int)answer;
}

static int list(const struct chanv_job *job)
{
    struct chanv_place rows[4], before[4];
    size_t count = 7, extent = 7;
    memset(rows, 7, sizeof rows);
    memcpy(before, rows, sizeof rows);
    uint32_t answer = chanv_list(job, rows, 4, &count, &extent);
    size_t written = answer == CHANV_OK ? 3 : 0;
    if (count != written || extent != 0
        || memcmp(rows + written, before + written, sizeof *rows * (4 - written)) != 0)
        return 99;
    return answer == CHANV_OK ? say("3\n") : (int)answer;
}

static int is_untold(const struct chanv_explanation *told)
{
    static const struct chanv_explanation none;
    return memcmp(told, &none, sizeof none) == 0;
}

static int why(const struct chanv_job *job)
{
    struct chanv_explanation told;
    struct chanv_place path[4], second_path[4], before[4];
    memset(&told, 7, sizeof told);
    memset(path, 7, sizeof path);
    memset(second_path, 7, sizeof second_path);
    memcpy(before, path, sizeof path);
    uint32_t answer = chanv_why(job, path, 4, second_path, 4, &told);
    size_t written = answer == CHANV_NO ? 2 : 0, second_written = answer == CHANV_NO ? 3 : 0;
    if (told.path_count != written || told.second_path_count != second_written
        || memcmp(path + written, before, sizeof *path * (4 - written)) != 0
        || memcmp(second_path + second_written, before, sizeof *path * (4 - second_written)) != 0
        || (answer != CHANV_NO && !is_untold(&told)))
        return 99;
    return answer == CHANV_NO ? say("2 3\n") : (int)answer;
}

static int text(const struct chanv_job *job)
{
    char buffer[1024];
    size_t len = 7;
    memset(buffer, 7, sizeof buffer);
    uint32_t answer = chanv_text(job, buffer, sizeof buffer, &len);
    if ((answer == CHANV_NO) != (len != 0) || len >= sizeof buffer
        || (len != 0 && buffer[len - 1] != '\n'))
        return 99;
    for (size_t i = len; i < sizeof buffer; i++)
        if (buffer[i] != 7)
            return 99;
    return answer == CHANV_NO ? say("no\n") : (int)answer;
}

/* Into ample memory, and without memory a program of zeros. */
static int take_in(const struct chanv_job *job)
{
    static const struct chanv_program none;
    static const struct chanv_intake nothing = {.refusal.row = CHANV_NOBODY};
    struct chanv_intake intake;
    struct chanv_program taken;
    uint8_t memory[256], before[256];
    size_t len = 7;
    memset(&taken, 7, sizeof taken), memset(&intake, 7, sizeof intake);
    memset(memory, 7, sizeof memory), memcpy(before, memory, sizeof memory);
    uint32_t answer = take_in_freely(job, memory, sizeof memory, &len, &taken, &intake);
    if (answer != CHANV_OK
        && (len != 0 || memcmp(&taken, &none, sizeof none) != 0
            || memcmp(&intake, &nothing, sizeof nothing) != 0
            || memcmp(memory, before, sizeof memory) != 0))
        return 99;
    return answer == CHANV_OK && len <= sizeof memory ? say("yes\n") : (int)answer;
}

/* The search loop, and what it needs. */
static struct chanv_area fetched[] = {{0x900, 5}}, stored[] = {{0xA00, 0x50}};
static struct chanv_area kept[] = {{0x800, 0x18}};
static const struct chanv_program program = {
    .rows =
        {
            .fetch = {fetched, 1},
            .store = {stored, 1},
            .keep = {kept, 1},
            .storage_len = SMALL,
            .mask = 0x58,
        },
    .kept = {storage + 0x800, 0x18},
    .start = 0x800,
    .device = 2314,
};

/* With itself in flight: it keeps no byte that it stores into. */
static int check_start(const struct chanv_job *job)
{
    static const struct chanv_refusal none = {.row = CHANV_NOBODY};
    struct chanv_refusal refusal;
    memset(&refusal, 7, sizeof refusal);
    struct chanv_row row = row_of(&program);
    uint32_t answer = chanv_check_start(job, &row, 1, &program, &refusal);
    if (memcmp(&refusal, &none, sizeof none) != 0)
        return 99;
    return answer == CHANV_YES ? say("yes\n") : (int)answer;
}

static int check_write(const struct chanv_job *job)
{
    static const struct chanv_area area = {0x900, 5};
    struct chanv_refusal refusal;
    (void)job;
    struct chanv_row row = row_of(&program);
    uint32_t answer = chanv_check_write(&row, 1, &area, &refusal);
    return answer == CHANV_YES ? say("yes\n") : (int)answer;
}

/* Under mask 00 the prefix is a Seek, a transfer and the seek's argument. */
static int make_prefix(const struct chanv_job *job)
{
    static const uint8_t wanted[] = {7, 0, 1, 0x10, 0x40, 0, 0, 6, 8, 0, 8, 0, 0,
                                     0, 0, 0, 0,    0,    0, 10, 0, 0, 0, 0, 99};
    uint8_t bytes[sizeof wanted];
    size_t len = 7;
    memset(bytes, 99, sizeof bytes);
    uint32_t answer = chanv_make_prefix(job, 0x100, bytes, sizeof bytes, &len);
    if (answer != CHANV_OK)
        return len == 0 && bytes[0] == 99 ? (int)answer : 99;
    return len == 24 && memcmp(bytes, wanted, sizeof wanted) == 0 ? say("yes\n") : 99;
}

static int find(const struct chanv_job *job)
{
    uint32_t starts[] = {7, 7};
    size_t count = 7;
    uint32_t answer = chanv_find(&job->storage, job->device, starts, 2, &count);
    int is_listed = answer == CHANV_OK;
    if (count != (size_t)is_listed || starts[0] != (is_listed ? 0x800 : 7) || starts[1] != 7)
        return 99;
    return is_listed ? say("1\n") : (int)answer;
}

static const struct call {
    const char *name;
    int (*make)(const struct chanv_job *job);
} calls[] = {
    {"verify", verify},           {"list", list},
    {"why", why},                 {"text", text},
    {"take_in", take_in},         {"check_start", check_start},
    {"check_write", check_write}, {"make_prefix", make_prefix},
    {"find", find},
};

int main(int argc, char **argv)
{
    static const struct chanv_area over[] = {{0x818, 8}};
    struct chanv_job job = good;
    fill(search_loop);
    const char *name = argc < 2 ? "setup" : argv[1];
    if (strcmp(name, "why") == 0 || strcmp(name, "text") == 0) {
        put(0x810, 0x0600081840000008);
        put(0x818, 0x0300000000000001);
        job.store.at = over, job.limit = 4;
    }
    for (size_t i = 0; i < sizeof calls / sizeof *calls; i++)
        if (strcmp(name, calls[i].name) == 0)
            return calls[i].make(&job);
    return 0;
}
