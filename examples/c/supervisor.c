/* A supervisor that has several channel programs in flight at once, on one main storage that others
 * write too. It takes each program in, and asks before each start and before each write of others
 * into its users' storage. That is all: under the premises of chanv.h no program in flight then
 * meets a program check, moves a byte that it wasn't lent, seeks outside its extents or issues an
 * inhibited command. A supervisor with threads holds one lock during each function below except
 * take_in, and keeps it until the program has been started or the bytes are written. */
#include <chanv.h>
#include <string.h>

enum { UNITS = 8, ROWS = UNITS + 1, MOST_BYTES = 2048, PREFIX_BYTES = 32 };

/* What programs may do, a sum of `enum chanv_allowed`. On its disks a No Operation or a Recalibrate
 * ends a program, also with chain data on. */
static uint32_t allowed = CHANV_ALLOW_ENDING_CHAINS;

/* What users own. All the rest is written without a question, by the supervisor and by the machine
 * itself, and the prefixes stand there. */
static struct chanv_areas own;

/* A program that was taken in. The program points into `memory`, which has MOST_BYTES and stays
 * where it is, so this struct may be copied. */
struct taken {
    struct chanv_program program;
    uint8_t *memory;
};

/* What is in flight, by the number of the unit; zeros are nothing. The last row keeps the
 * prefixes. */
static struct chanv_row in_flight[ROWS];

/* Takes the job's program in, which isn't in flight now. Only after CHANV_OK may it start. The
 * channels of other programs may store meanwhile, even over this program: chanv judges a private
 * copy of what the program keeps. If it answers CHANV_CHANGED_MEANWHILE, the caller may ask again,
 * but not without end. */
static enum chanv_answer take_in(struct taken *taken, const struct chanv_job *job)
{
    struct chanv_source source = {
        .storage = job->storage, .start = job->start, .limit = job->limit, .device = job->device};
    return chanv_take_in(&source, &own, allowed, taken->memory, MOST_BYTES, NULL, &taken->program,
                         NULL);
}

/* Lets no program that starts from now on store over the prefixes: the jobs here may lend more than
 * users own. It is called before the first start. */
static void guard_prefixes(struct chanv_area area)
{
    in_flight[UNITS].keeps = area;
}

/* Puts the prefix with which a program starts into storage, at an address of the prefixes, a
 * multiple of 8; the channel is started there. It moves the arm into the extents, sets the job's
 * mask, and goes on to the program in the same chain. */
static int put_prefix(uint8_t *storage, uint32_t address, const struct chanv_job *job)
{
    uint8_t prefix[PREFIX_BYTES];
    size_t len;
    if (chanv_make_prefix(job, address, prefix, sizeof prefix, &len) != CHANV_OK)
        return 0;
    memcpy(storage + address, prefix, len);
    return 1;
}

/* Starts the program on a unit that is free, if it may start. It is in flight until the channel
 * makes no further step for it. */
static int start(const struct taken *taken, int unit, const struct chanv_job *job)
{
    struct chanv_refusal refusal;
    if (in_flight[unit].program.device != 0)
        return 0;
    if (chanv_check_start(job, in_flight, ROWS, &taken->program, &refusal) != CHANV_YES)
        return 0;
    in_flight[unit] = (struct chanv_row){.program = taken->program};
    return 1;
}

/* The program on a unit has ended, or was halted, and the channel's last store is visible. It may
 * be started again without being taken in again. */
static void leave(int unit)
{
    memset(&in_flight[unit], 0, sizeof in_flight[unit]);
}

/* Whether others, such as the processor, may write these bytes of users' storage now. */
static int may_write(uint32_t address, uint32_t length)
{
    struct chanv_area area = {address, length};
    struct chanv_refusal refusal;
    return chanv_check_write(in_flight, ROWS, &area, &refusal) == CHANV_YES;
}
