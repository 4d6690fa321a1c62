/* Takes programs in whose lists are as long as their places allow: under a limit of just as many
 * places, each place seeks with an argument of its own, to every second cylinder, or reads a byte
 * of its own. It asks without room, with the room that the answer says, and with a byte less. Each
 * line has the three codes, how many rows each list has, how many bytes are kept, and the memory.
 */
#include "asking.h"

enum { LENGTH = 1 << 21, POINTED_TO = 1 << 20, ROOM = 1 << 21 };
enum { SEEK = 0x07, READ = 0x06, CHAIN = 0x40, CYLINDERS = 203 };

static uint8_t memory[ROOM];

static uint32_t cylinder_of(uint32_t place)
{
    return 2 * place % (CYLINDERS + 1);
}

/* So many CCWs behind each other, each of which points to eight bytes of its own. */
static void put_program(uint8_t code, uint64_t count, uint32_t places)
{
    memset(storage, 0, LENGTH);
    for (uint32_t i = 0; i < places; i++) {
        uint32_t at = POINTED_TO + 8 * i;
        put(START + 8 * i, (uint64_t)code << 56 | (uint64_t)at << 32
                               | (i + 1 < places ? (uint64_t)CHAIN << 24 : 0) | count);
        put(at, code == SEEK ? (uint64_t)cylinder_of(i) << 32 : 0);
    }
}

/* Whether rows are those of each place, so many bytes long. */
static int are_apart(const struct chanv_area *rows, uint32_t places, uint32_t len)
{
    for (uint32_t i = 0; i < places; i++)
        if (rows[i].start != POINTED_TO + 8 * i || rows[i].len != len)
            return 0;
    return 1;
}

static int is_right(const struct chanv_program *program, uint8_t code, uint32_t places)
{
    const struct chanv_rows *rows = &program->rows;
    const uint8_t *kept = program->kept.at;
    for (size_t i = 0; i < rows->extents.len; i++)
        if (rows->extents.at[i].first != 2 * i || rows->extents.at[i].last != 2 * i)
            return 0;
    for (size_t i = 0; i < rows->keep.len; kept += rows->keep.at[i++].len)
        if (memcmp(kept, storage + rows->keep.at[i].start, rows->keep.at[i].len) != 0)
            return 0;
    if (rows->keep.at[0].start != START || rows->keep.at[0].len != 8 * places)
        return 0;
    return code == READ ? are_apart(rows->store.at, places, 1)
                        : are_apart(rows->fetch.at, places, 6)
                              && are_apart(rows->keep.at + 1, places, 6);
}

static void ask(const char *name, uint8_t code, uint32_t count, uint32_t places)
{
    struct chanv_job job = generous();
    struct chanv_program program;
    size_t len = 0, unused;
    put_program(code, count, places);
    job.storage.len = LENGTH, job.limit = places;
    uint32_t first = take_in_freely(&job, NULL, 0, &len, &program, NULL);
    uint32_t less = take_in_freely(&job, memory, len - (len > 0), &unused, &program, NULL);
    uint32_t exact = take_in_freely(&job, memory, len, NULL, &program, NULL);
    int is_wrong = exact == CHANV_OK && !is_right(&program, code, places);
    const struct chanv_rows *rows = &program.rows;
    printf("%" PRIu32 " %s: %" PRIu32 " %" PRIu32 " %" PRIu32 ", %zu %zu %zu %zu, %zu, %zu%s\n",
           places, name, first, exact, less, rows->extents.len, rows->fetch.len, rows->store.len,
           rows->keep.len, program.kept.len, len, is_wrong ? ", wrong rows" : "");
}

int main(void)
{
    static const uint32_t places[] = {1, 102, CHANV_USUAL_LIMIT + 1, CHANV_LARGEST_LIMIT};
    for (size_t i = 0; i < sizeof places / sizeof *places; i++) {
        ask("seeks", SEEK, 6, places[i]);
        ask("reads", READ, 1, places[i]);
    }
    return 0;
}
