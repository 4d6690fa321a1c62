/* Makes one call of `chanv_check_start`, so that its instructions can be counted.
 *
 *     many_rows rows ROWS     a program, and one in flight, each with so many rows in order of each
 *                             kind, which turn by turn lie between those of the other
 *     many_rows beyond ROWS   a program with four rows of each kind, and one in flight with so many,
 *                             all of which lie beyond
 *     many_rows bytes BYTES   a program that keeps so many bytes in one row
 *
 * The status is what the call returned. */
#include "asking.h"

enum { MOST_ROWS = 65536, APART = 64, FEW = 4 };

static struct chanv_area lists[6][MOST_ROWS];
static uint8_t zeros[16777216];

/* Areas of 4 bytes from an address on, so far apart that those of six lists fit between two. */
static struct chanv_areas list(int number, size_t rows, uint32_t from)
{
    from += 8 * (uint32_t)number;
    for (size_t i = 0; i < rows; i++)
        lists[number][i] = (struct chanv_area){from + (uint32_t)(APART * i), 4};
    return (struct chanv_areas){lists[number], rows};
}

static struct chanv_program program_of(int number, size_t rows, uint32_t from)
{
    return (struct chanv_program){
        .rows =
            {
                .fetch = list(number, rows, from),
                .store = list(number + 1, rows, from),
                .keep = list(number + 2, rows, from),
                .storage_len = sizeof zeros,
                .mask = 0x58,
            },
        .kept = {zeros, 4 * rows},
        .start = START,
        .device = 2314,
    };
}

int main(int argc, char **argv)
{
    struct chanv_job job = generous();
    struct chanv_refusal refusal;
    size_t count = argc < 3 ? 0 : (size_t)atol(argv[2]);
    int is_beyond = argc > 2 && strcmp(argv[1], "beyond") == 0;
    int has_rows = is_beyond || (argc > 2 && strcmp(argv[1], "rows") == 0);
    job.storage = (struct chanv_bytes){zeros, sizeof zeros};
    job.limit = CHANV_USUAL_LIMIT;
    struct chanv_program program = program_of(0, is_beyond ? FEW : has_rows ? count : 0, 0);
    struct chanv_program other = program_of(3, has_rows ? count : 0, is_beyond ? FEW * APART : 0);
    struct chanv_area whole = {0, (uint32_t)count};
    if (has_rows) {
        job.fetch = program.rows.fetch, job.store = program.rows.store;
    } else {
        program.rows.keep = (struct chanv_areas){&whole, 1};
        program.kept.len = count;
    }
    struct chanv_row row = row_of(&other);
    return (int)chanv_check_start(&job, &row, 1, &program, &refusal);
}
