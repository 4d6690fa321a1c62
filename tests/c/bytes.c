/* Every byte of an answer is written, also between the fields: none keeps what the caller had there,
 * and none is what was left on the stack. Before each call both are filled, each time with another
 * byte. It prints a line for each byte between fields that isn't 0. */
#include "asking.h"

/* Bytes that belong to no field. */
struct gap {
    size_t from, past;
};

#define PAST(type, field) (offsetof(struct type, field) + sizeof((struct type *)NULL)->field)

static const struct gap of_intake[] = {
    {PAST(chanv_intake, hangs_entered), sizeof(struct chanv_intake)}};
static const struct gap of_program[] = {{PAST(chanv_program, device), sizeof(struct chanv_program)},
                                        {PAST(chanv_rows, mask), sizeof(struct chanv_rows)}};

/* after the evidence's last byte */
static const struct gap of_explanation[] = {
    {offsetof(struct chanv_explanation, evidence) + PAST(chanv_evidence, mask),
     sizeof(struct chanv_explanation)}};
static const struct gap of_place[] = {
    {PAST(chanv_place, after_transfer), sizeof(struct chanv_place)}};

static void __attribute__((noinline)) paint_stack(uint8_t byte)
{
    volatile uint8_t stack[0x4000];
    for (size_t i = 0; i < sizeof stack; i++)
        stack[i] = byte;
}

static void look(const char *name, const void *answer, const struct gap *gaps, size_t count)
{
    const uint8_t *bytes = answer;
    for (const struct gap *gap = gaps; gap < gaps + count; gap++)
        for (size_t i = gap->from; i < gap->past; i++)
            if (bytes[i] != 0)
                printf("%s: byte %zu is %02X\n", name, i, bytes[i]);
}

#define LOOK(name, answer, gaps) look(name, answer, gaps, sizeof gaps / sizeof *gaps)

static void take_in(const char *name, const struct chanv_job *job, size_t room, uint8_t byte)
{
    static uint8_t memory[512];
    struct chanv_program program;
    struct chanv_intake intake;
    size_t len;
    memset(&program, byte, sizeof program), memset(&intake, byte, sizeof intake);
    paint_stack(byte);
    enum chanv_answer answer = take_in_freely(job, memory, room, &len, &program, &intake);
    printf("%s: take in %u\n", name, answer);
    LOOK(name, &intake, of_intake);
    LOOK(name, &program, of_program);
}

static void ask_why(const char *name, const struct chanv_job *job, uint8_t byte)
{
    struct chanv_explanation told;
    struct chanv_place path[2];
    memset(&told, byte, sizeof told), memset(path, byte, sizeof path);
    paint_stack(byte);
    enum chanv_answer answer = chanv_why(job, path, 2, NULL, 0, &told);
    printf("%s: why %u\n", name, answer);
    LOOK(name, &told, of_explanation);
    for (size_t i = 0; answer == CHANV_NO && i < told.path_count; i++)
        LOOK(name, &path[i], of_place);
}

static void list(const char *name, const struct chanv_job *job, uint8_t byte)
{
    struct chanv_place rows[3];
    size_t count, extent;
    memset(rows, byte, sizeof rows);
    paint_stack(byte);
    enum chanv_answer answer = chanv_list(job, rows, 3, &count, &extent);
    printf("%s: list %u\n", name, answer);
    for (size_t i = 0; answer == CHANV_OK && i < count; i++)
        LOOK(name, &rows[i], of_place);
}

int main(void)
{
    static const uint8_t fills[] = {0x77, 0xEE};
    for (size_t i = 0; i < sizeof fills; i++) {
        struct chanv_job job = generous();
        fill(search_loop);
        take_in("with much room", &job, 512, fills[i]);
        take_in("with just enough room", &job, 51, fills[i]);
        take_in("with too little room", &job, 50, fills[i]);
        ask_why("a yes", &job, fills[i]);
        list("the search loop", &job, fills[i]);
        job.store.len = 0;
        ask_why("nothing lent for storing", &job, fills[i]);
        job.start = 0x804;
        take_in("a misaligned start", &job, 512, fills[i]);
        job.device = 3330;
        take_in("no device", &job, 512, fills[i]);
    }
    return 0;
}
