/* The worked supervisor, for a model of channel and device that calls it (tests/model/flying.py). It
 * forgets some duties that are its caller's:
 *
 *     SHARES_MEMORY  each program is taken in into the same memory
 *     LEAVES_EARLY   each program leaves the table as soon as it has started */
#include <supervisor.c>

#ifndef SHARES_MEMORY
#define SHARES_MEMORY 0
#endif
#ifndef LEAVES_EARLY
#define LEAVES_EARLY 0
#endif

enum { PROGRAMS = 12 };

static struct taken programs[PROGRAMS];
static uint8_t memory[PROGRAMS][MOST_BYTES];

/* The machine itself stores into the 32 bytes from 000240 on, and prefixes stand in those from 0005C0
 * on. Users own the rest. */
void flights_begin(void)
{
    static const struct chanv_area users[] = {{0, 0x240}, {0x260, 0x360}, {0x5E0, 0x220}};
    static const struct chanv_area prefixes = {0x5C0, 0x20};
    own = (struct chanv_areas){users, 3};
    guard_prefixes(prefixes);
}

uint32_t flights_take_in(int number, const struct chanv_job *job)
{
    allowed = CHANV_ALLOW_HANGING | CHANV_ALLOW_INTERRUPTING | CHANV_ALLOW_ENDING_CHAINS;
    programs[number].memory = memory[SHARES_MEMORY ? 0 : number];
    return take_in(&programs[number], job);
}

const struct chanv_program *flights_program(int number)
{
    return &programs[number].program;
}

static uint8_t prefix[0x600];

/* The channel begins with the prefix; the model begins behind it, as premise 2 has it. */
int flights_start(int number, int unit, const struct chanv_job *job)
{
    memset(prefix, 0, sizeof prefix);
    if (!put_prefix(prefix, 0x5C0, job) || !start(&programs[number], unit, job))
        return 0;
    if (LEAVES_EARLY)
        leave(unit);
    return 1;
}

/* The cylinder of the seek with which the last program began, or -1 if there was none. */
int flights_arm(void)
{
    const uint8_t *ccw = prefix + 0x5C0, *argument = prefix + (ccw[2] << 8 | ccw[3]);
    return ccw[0] == 0x07 ? argument[2] << 8 | argument[3] : -1;
}

void flights_leave(int unit)
{
    leave(unit);
}

int flights_may_write(uint32_t address, uint32_t len)
{
    return may_write(address, len);
}
