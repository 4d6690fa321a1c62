/* Asks about addresses at the end of 32 bits, and about rows that reach to 2^32 and past it, where a
 * sum of addresses wraps if it is made in 32 bits. Each line is the name of a case, the call's code,
 * and what it told. */
#include "asking.h"

static const struct chanv_area at_end[] = {{0xFFFFFFF8, 16}};
static const struct chanv_area last_byte[] = {{0xFFFFFFFF, 1}};
static const struct chanv_area past[] = {{0xFFFFFFF0, 0xFFFFFFFF}, {0x10, 0xFFFFFFFF}};
/* 2^33 bytes, of which the first eight are as storage has them */
static const struct chanv_area most[] = {{0x800, 8}, {0x900, 0xFFFFFFFF}, {0x10, 0xFFFFFFF9}};
static uint8_t kept[64];

static void verify(const char *name, const struct chanv_job *job)
{
    struct chanv_verdict verdict;
    unsigned answer = chanv_verify(job, &verdict);
    printf("%s: %u %08" PRIX32 " %s\n", name, answer, verdict.address,
           chanv_reason_word(verdict.reason));
}

static void refused(const char *name, unsigned answer, const struct chanv_refusal *no)
{
    printf("%s: %u %s %08" PRIX32 "\n", name, answer, chanv_refusal_word(no->code), no->value);
}

static void verify_far(void)
{
    struct chanv_job job = good;
    job.start = 0xFFFFFFF8;
    verify("start FFFFFFF8", &job);
    job.start = 0xFFFFFFFC;
    verify("start FFFFFFFC", &job);
    job.start = 0xFFFFFFF8, job.storage.len = 16777216;
    verify("start FFFFFFF8 in 16 MiB", &job);
    job = good, job.store = (struct chanv_areas){past, 2};
    verify("lent for storing past 2^32", &job);
    job = good, job.fetch = (struct chanv_areas){past, 2};
    verify("lent for fetching past 2^32", &job);
    job.fetch.len = 1;
    verify("lent for fetching only past 2^32", &job);
}

/* A program that keeps and fetches other rows than it was taken in with. */
static void start(const char *name, struct chanv_program program, const struct chanv_area *keep,
                  size_t count, size_t kept_len)
{
    struct chanv_job job = generous();
    struct chanv_refusal no;
    program.rows.keep = (struct chanv_areas){keep, count};
    program.kept = (struct chanv_bytes){kept, kept_len};
    refused(name, chanv_check_start(&job, NULL, 0, &program, &no), &no);
    struct chanv_row row = row_of(&program);
    refused("written there", chanv_check_write(&row, 1, &at_end[0], &no), &no);
}

/* The search loop, if the far areas are among those that its user owns. */
static void take_in(const char *name, const struct chanv_area *own, size_t count)
{
    static uint8_t memory[256];
    struct chanv_source source = source_of(&good);
    struct chanv_areas areas = {own, count};
    struct chanv_program program;
    struct chanv_intake intake;
    unsigned answer = chanv_take_in(&source, &areas, CHANV_ALLOW_NOTHING, memory, sizeof memory,
                                    NULL, &program, &intake);
    refused(name, answer, &intake.refusal);
}

int main(void)
{
    static uint8_t memory[256];
    struct chanv_program program;
    struct chanv_refusal no;
    struct chanv_job job = good;
    fill(search_loop);
    verify_far();
    take_in("owned at the end", at_end, 1);
    take_in("owned past 2^32", past, 2);
    take_in("owned from 900 and 10 on", most, 3);
    if (take_in_freely(&good, memory, sizeof memory, NULL, &program, NULL) != CHANV_OK)
        return 1;
    memcpy(kept, storage + START, 8);
    start("keeps to 2^32 and past it", program, at_end, 1, 16);
    start("keeps the last byte", program, last_byte, 1, 1);
    start("keeps 2^33 bytes", program, most, 3, sizeof kept);
    program.rows.fetch = (struct chanv_areas){past, 2};
    refused("fetches past 2^32", chanv_check_start(&good, NULL, 0, &program, &no), &no);
    job.fetch = (struct chanv_areas){past, 2};
    refused("lent as it fetches", chanv_check_start(&job, NULL, 0, &program, &no), &no);
    job.start = 0xFFFFFFF8;
    printf("taken in at FFFFFFF8: %u\n",
           take_in_freely(&job, memory, sizeof memory, NULL, &program, NULL));
    return 0;
}
