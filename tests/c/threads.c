/* Eight threads ask about starts and writes at once, over the same programs, each with a job of its
 * own. Each answer has to be the one that was given before, with one thread. It prints how many
 * answers differed. */
#include "asking.h"
#include <pthread.h>

enum { THREADS = 8, ROUNDS = 20000, MEMORY = 256 };

static uint8_t memory[MEMORY];
static const uint8_t masks[THREADS] = {0x00, 0x40, 0x80, 0xC0, 0x08, 0x10, 0x18, 0x58};
static struct chanv_row in_flight[2];
static struct chanv_program program;

static struct chanv_job job_of(int thread)
{
    struct chanv_job job = generous();
    job.store.len = thread % 2;
    job.device = thread == 7 ? 2311 : 2314;
    job.mask = masks[thread];
    return job;
}

struct answers {
    uint32_t start, write, taken_in;
    struct chanv_refusal refusals[2];
    size_t len, kept_len;
    uint8_t memory[MEMORY];
};

static void ask(int thread, struct answers *told)
{
    struct chanv_job job = job_of(thread);
    struct chanv_area area = {0x7F8, 8 + (uint32_t)thread};
    struct chanv_program taken;
    struct chanv_intake intake;
    memset(told, 0, sizeof *told);
    told->start = chanv_check_start(&job, in_flight, 2, &program, &told->refusals[0]);
    told->write = chanv_check_write(in_flight, 2, &area, &told->refusals[1]);
    told->taken_in = take_in_freely(&job, told->memory, MEMORY, &told->len, &taken, &intake);
    told->kept_len = taken.kept.len;
}

struct work {
    pthread_t id;
    int thread;
    unsigned long differed;
    struct answers before;
};

static void *ask_often(void *about)
{
    struct work *work = about;
    for (int round = 0; round < ROUNDS; round++) {
        struct answers told;
        ask(work->thread, &told);
        work->differed += memcmp(&told, &work->before, sizeof told) != 0;
    }
    return NULL;
}

int main(void)
{
    static struct work works[THREADS];
    struct chanv_job job = job_of(1);
    struct chanv_intake intake;
    unsigned long differed = 0;
    fill(search_loop);
    size_t len;
    if (take_in_freely(&job, memory, MEMORY, &len, &program, &intake) != CHANV_OK)
        return 1;
    in_flight[1] = row_of(&program);
    for (int i = 0; i < THREADS; i++) {
        works[i].thread = i;
        ask(i, &works[i].before);
    }
    for (int i = 0; i < THREADS; i++)
        if (pthread_create(&works[i].id, NULL, ask_often, &works[i]) != 0)
            return 1;
    for (int i = 0; i < THREADS; i++) {
        pthread_join(works[i].id, NULL);
        differed += works[i].differed;
        printf("thread %d: %u %s, %u %s\n", i, works[i].before.start,
               chanv_refusal_word(works[i].before.refusals[0].code), works[i].before.write,
               chanv_refusal_word(works[i].before.refusals[1].code));
    }
    printf("%lu answers differed\n", differed);
    return 0;
}
