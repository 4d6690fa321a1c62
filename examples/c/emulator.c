/* An emulator whose threads write storage all the time takes a program in, and asks whether it may
 * start. It stops none of them, and copies nothing. */
#include <chanv.h>

enum { ROOM = 262144, MOST_TIMES = 8 };

/* A program that was taken in, which points into `memory`: so keep the struct where it is. Zeros in
 * `program` are no program, which may not start. */
struct asked {
    struct chanv_program program;
    uint8_t memory[ROOM];
};

/* Takes the job's program in. chanv judges a private copy of what the program keeps, and says so if
 * storage changed too much for that. A program that changes each time isn't taken in. Nor is one
 * with a No Operation or a Recalibrate that has chain data on: chanv judges it only up to there, but
 * this emulator, like others, goes on. The program may lie anywhere, may go on until it is halted,
 * and may interrupt. */
static enum chanv_answer ask(struct asked *asked, const struct chanv_job *job)
{
    static const struct chanv_area all = CHANV_ALL_STORAGE;
    struct chanv_areas own = {&all, 1};
    struct chanv_source source = {
        .storage = job->storage, .start = job->start, .limit = job->limit, .device = job->device};
    enum chanv_answer answer = CHANV_CHANGED_MEANWHILE;
    for (int i = 0; i < MOST_TIMES && answer == CHANV_CHANGED_MEANWHILE; i++)
        answer = chanv_take_in(&source, &own, CHANV_ALLOW_HANGING | CHANV_ALLOW_INTERRUPTING,
                               asked->memory, ROOM, NULL, &asked->program, NULL);
    return answer;
}

/* Whether the program may start under a job now. Of storage only the kept bytes are looked at. From
 * here until the program has left, the emulator sees to it that nothing else writes these: here it
 * runs one program at a time, so no other channel does. */
static int may_begin(const struct asked *asked, const struct chanv_job *job)
{
    struct chanv_refusal refusal;
    return chanv_check_start(job, NULL, 0, &asked->program, &refusal) == CHANV_YES;
}
