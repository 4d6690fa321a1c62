/* Takes programs in that keep 8 bytes, 9 and so on up to 64, at each offset of the memory from 0 to
 * 15 and into each room up to what is needed, and far beyond. At each address the need is the same,
 * no byte is written but those of the program, and none at all unless the answer is CHANV_OK; then
 * the program is the same as in ample room. It prints a line for each number of kept bytes, and one
 * for each case that is wrong. */
#include "asking.h"

enum { SEEK = 0x07, SET_MASK = 0x1F, NO_OPERATION = 0x03, CHAIN = 0x40 };
enum { OFFSETS = 16, MOST_KEPT = 64, BEYOND = 6 * MOST_KEPT };

/* The program, as it is taken into ample room. */
static struct chanv_program whole;
static uint8_t ample[16 * MOST_KEPT] __attribute__((aligned(4)));

static struct handed memory;
static int wrong;

static void put_ccw(uint32_t at, uint8_t code, uint32_t data, int is_last, uint32_t count)
{
    put(at, (uint64_t)code << 56 | (uint64_t)data << 32 | (is_last ? 0 : (uint64_t)CHAIN << 24)
                | count);
}

/* Where the argument of a seek at START begins, of which so many bytes aren't bytes of the CCWs.
 * The others are such that the argument is a right one. */
static uint32_t argument_of(uint32_t bytes, uint32_t ccws)
{
    uint32_t end = START + 8 * ccws;
    return bytes == 2 ? end - 4 : bytes == 6 ? 0xC00 : START - bytes;
}

/* A program that keeps so many bytes: those of some CCWs, of the argument of a seek, and of masks
 * that are set. Gives 0 if there is none. */
static int put_program(uint32_t bytes)
{
    static const uint32_t seeks[] = {0, 0, 0, 3, 3, 5, 6, 6};
    uint32_t ccws = bytes / 8, rest = bytes % 8, seek = seeks[rest];
    if (ccws == 1 && rest == 2)
        seek = 2;
    uint32_t masks = rest - seek, done = 0;
    memset(storage, 0, SMALL);
    if ((seek != 0) + masks > ccws)
        return 0;
    if (seek != 0)
        put_ccw(START, SEEK, argument_of(seek, ccws), ++done == ccws, 6);
    for (uint32_t i = 0; i < masks; i++, done++)
        put_ccw(START + 8 * done, SET_MASK, 0xD00 + 16 * i, done + 1 == ccws, 1);
    for (; done < ccws; done++)
        put_ccw(START + 8 * done, NO_OPERATION, 0, done + 1 == ccws, 6);
    return 1;
}

static void fail(const char *what, uint32_t bytes, size_t offset, size_t room)
{
    if (wrong++ < 20)
        printf("%s: %" PRIu32 " kept bytes, offset %zu, room %zu\n", what, bytes, offset, room);
}

static int is_same(const void *one, const void *other, size_t size)
{
    return size == 0 || memcmp(one, other, size) == 0;
}

/* Whether a list is the same as that of the whole program, and lies in the first bytes of the
 * memory. */
static int has(const uint8_t *at, size_t len, const void *list, const void *rows, size_t size)
{
    const uint8_t *from = list;
    return is_same(list, rows, size) && (size == 0 || (from >= at && from + size <= at + len));
}

static int has_areas(const uint8_t *at, size_t len, struct chanv_areas areas,
                     struct chanv_areas wanted)
{
    return areas.len == wanted.len
           && has(at, len, areas.at, wanted.at, sizeof *areas.at * areas.len);
}

static int is_whole(const uint8_t *at, size_t len, const struct chanv_program *program)
{
    const struct chanv_rows *rows = &program->rows, *wanted = &whole.rows;
    return rows->extents.len == wanted->extents.len && program->kept.len == whole.kept.len
           && rows->mask == wanted->mask && rows->storage_len == wanted->storage_len
           && has(at, len, rows->extents.at, wanted->extents.at,
                  sizeof *rows->extents.at * rows->extents.len)
           && has_areas(at, len, rows->fetch, wanted->fetch)
           && has_areas(at, len, rows->store, wanted->store)
           && has_areas(at, len, rows->keep, wanted->keep)
           && has(at, len, program->kept.at, whole.kept.at, program->kept.len);
}

/* One call: `need` is how much memory the program takes, or 0 if no job will do for it. */
static void take_in(const struct chanv_job *job, uint32_t bytes, size_t need, size_t offset,
                    size_t room)
{
    static const struct chanv_program none;
    struct chanv_program program;
    struct chanv_intake intake;
    size_t len = UNTOUCHED, fits = need != 0 && need <= room;
    uint8_t *at = (uint8_t *)hand(&memory) + offset;
    memset(&program, UNTOUCHED, sizeof program);
    enum chanv_answer due = need == 0 ? CHANV_NO : fits ? CHANV_OK : CHANV_NO_ROOM;
    enum chanv_answer answer =
        take_in_freely(job, room == 0 && offset == 0 ? NULL : at, room, &len, &program, &intake);
    if (answer != due)
        fail("another answer", bytes, offset, room);
    if (len != need)
        fail("another length", bytes, offset, room);
    if (!is_untouched(memory.bytes, at)
        || !is_untouched(at + (fits ? need : 0), memory.bytes + sizeof memory.bytes))
        fail("written beside the program", bytes, offset, room);
    if (fits && (!is_whole(at, len, &program) || program.start != job->start
                 || program.device != job->device))
        fail("another program", bytes, offset, room);
    if (!fits && memcmp(&program, &none, sizeof none) != 0)
        fail("a program", bytes, offset, room);
}

/* In each room at each offset. The padding of three bytes is always counted. */
static void try_all(const struct chanv_job *job, uint32_t bytes, int is_no)
{
    const struct chanv_rows *rows = &whole.rows;
    enum chanv_answer answer = take_in_freely(job, ample, sizeof ample, NULL, &whole, NULL);
    size_t areas = rows->fetch.len + rows->store.len + rows->keep.len;
    size_t need = is_no ? 0 : 3 + 8 * areas + 4 * rows->extents.len + whole.kept.len;
    if (answer != (is_no ? CHANV_NO : CHANV_OK) || whole.kept.len != bytes)
        fail("not the program that was wanted", bytes, 0, 0);
    size_t most = need > BEYOND ? need : BEYOND;
    for (size_t offset = 0; offset < OFFSETS; offset++)
        for (size_t room = 0; room <= most + 8; room++)
            take_in(job, bytes, need, offset, room);
}

int main(void)
{
    struct chanv_job job = generous();
    job.limit = CHANV_USUAL_LIMIT;
    for (uint32_t bytes = 8; bytes <= MOST_KEPT; bytes++) {
        if (!put_program(bytes))
            continue;
        job.device = bytes % 2 ? 2311 : 2314;
        try_all(&job, bytes, 0);
        printf("%" PRIu32 " kept bytes\n", bytes);
    }
    put_ccw(START, SET_MASK, 0xD00, 1, 1), storage[0xD00] = 0x01;
    try_all(&job, 0, 1);
    printf("no job will do\n");
    return wrong != 0;
}
