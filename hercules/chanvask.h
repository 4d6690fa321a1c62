/* chanvask.h: asks chanv about the channel programs of Hercules's disks before they start.
 *
 * A program is asked about once, and what it needs is remembered with the bytes that it keeps. At
 * each start chanv_check_start says whether storage still has these bytes, whether the extents, the
 * mask and the storage keys grant what is needed, and whether the programs in flight are spared.
 * Only chanv_why needs storage that nobody writes meanwhile: it sees a copy.
 */
#ifndef CHANVASK_H
#define CHANVASK_H
#include <chanv.h>

enum {
    CHANVASK_EXTENTS = 32,  /* may be in a device statement */
    CHANVASK_PROGRAMS = 64, /* are remembered for a disk */
    CHANVASK_PATH = 64,     /* places of a path are logged */
    CHANVASK_TOLD = 8192,   /* the lines about a refusal have fewer bytes */
    CHANVASK_BLOCK = 2048,  /* bytes have one storage key in S/370 mode */
    CHANVASK_STORAGE = 0x1000000, /* bytes can be named by CCWs */
    CHANVASK_BLOCKS = CHANVASK_STORAGE / CHANVASK_BLOCK,
    CHANVASK_LOW = 0x200, /* bytes of low storage are the machine's: PSWs, CSW, timer, save areas */
    CHANVASK_LOWS = 8,    /* low storages there may be, one for each processor */
    CHANVASK_ROWS = CHANVASK_LOWS + 256
};

/* What is in flight on all disks, in one table under one lock. First come rows for the stores
 * that the machine makes into low storage. The row of a disk holds its program from a yes to the
 * channel's last step for it, and otherwise zeros. A program that starts without a yes has no row,
 * because its stores keep to nothing: it is counted, to be reported with each yes beside it. */
static struct {
    pthread_mutex_t lock; /* held from a question until its program is entered */
    struct chanv_row table[CHANVASK_ROWS];
    U16 devices[CHANVASK_ROWS];  /* whose row it is */
    size_t rows;                 /* are in use; a disk keeps its row */
    unsigned long long unjudged; /* programs that have started without a yes, */
    U16 unjudged_device;         /* and where the last of them has */
} flight = {.lock = PTHREAD_MUTEX_INITIALIZER, .rows = CHANVASK_LOWS};

static BYTE chanvask_storage[CHANVASK_STORAGE]; /* a copy, for the explanation of a no */

/* A program that was asked about, and the memory for what it needs and keeps. */
struct chanvask_program {
    struct chanv_program program;
    void *memory;
    size_t room;
};

struct CHANVASK {
    DEVBLK *dev;
    size_t row;       /* of the table */
    unsigned running; /* programs between start and last step: a system reset forgets one that runs
                         on, so there may be two */
    BYTE is_unjudged; /* one of them has started without a yes */
    BYTE mask, refuse, refuse_beside, quiet;
    const char *outcome; /* of a no: what its line ends with */
    U32 address;         /* of the CCW that offended last */
    struct chanv_extent extents[CHANVASK_EXTENTS];
    size_t extent_count;     /* 0: the disk doesn't ask */
    unsigned long long seen; /* flight.unjudged when the program of the row started */
    unsigned long long starts, questions, noes, refused, beside, changed, nanoseconds;
    char told[CHANVASK_TOLD]; /* the last refusal, as it was logged */
    size_t told_len;
    struct chanvask_program programs[CHANVASK_PROGRAMS];
    struct chanv_area fetch[CHANVASK_BLOCKS], store[CHANVASK_BLOCKS]; /* lent for this start */
};

/* Logs a line about the last refusal, and remembers it. */
__attribute__((format(printf, 2, 3))) static inline void chanvask_tell(struct CHANVASK *ask,
                                                                       const char *format, ...)
{
    char *line = ask->told + ask->told_len;
    size_t room = sizeof ask->told - ask->told_len;
    va_list values;

    va_start(values, format);
    vsnprintf(line, room, format, values);
    va_end(values);
    ask->told_len += strlen(line);
    logmsg("%s", line);
}

/* Reads extents, as 10-19,30-40. Returns whether they are right. */
static inline int chanvask_extents(struct CHANVASK *ask, const char *text)
{
    unsigned first, last;
    int length;

    for (ask->extent_count = 0; ask->extent_count < CHANVASK_EXTENTS; text += length + 1) {
        if (sscanf(text, "%3u-%3u%n", &first, &last, &length) != 2 || first > last || last > 202)
            return 0;
        ask->extents[ask->extent_count++] = (struct chanv_extent){first, last};
        if (text[length] != ',')
            return text[length] == 0;
    }
    return 0;
}

/* Reads a parameter of the device statement. Returns whether it is one of these, and right. */
static inline int chanvask_arg(struct CHANVASK *ask, const char *arg)
{
    int beside = strcasecmp(arg, "chanvrefuse=beside") == 0, length;
    unsigned mask;

    if (strncasecmp(arg, "chanv=", 6) == 0) {
        ask->mask = CHANV_OPEN_MASK; /* what a chain may set, if it sets one */
        ask->outcome = "";
        return chanvask_extents(ask, arg + 6);
    }
    if (ask->extent_count == 0)
        return 0;
    if (strcasecmp(arg, "chanvquiet") == 0)
        return ask->quiet = 1;
    if (beside || strcasecmp(arg, "chanvrefuse") == 0) {
        ask->outcome = ", not started";
        ask->refuse_beside |= beside;
        return ask->refuse = 1;
    }
    if (sscanf(arg, "chanvmask=%2x%n", &mask, &length) != 1 || arg[length] != 0 || mask & ~0xD8)
        return 0;
    ask->mask = mask;
    return 1;
}

/* The disk asks no longer: it is closed, and has nothing in flight. */
static inline void chanvask_end(struct CHANVASK *ask)
{
    DEVBLK *dev = ask->dev;
    size_t i, row = ask->row;

    if (ask->extent_count > 0)
        logmsg("HHCCV005I %4.4X: chanv: %llu starts, %llu questions, %llu noes, %llu ns\n",
               dev->devnum, ask->starts, ask->questions, ask->noes, ask->nanoseconds);
    for (i = 0; i < CHANVASK_PROGRAMS; i++)
        free(ask->programs[i].memory);
    memset(ask, 0, sizeof *ask);
    ask->dev = dev;
    ask->row = row;
}

/* Of each row those blocks that the key of this start lets a channel fetch from, or store into. */
static inline struct chanv_areas chanvask_lent(DEVBLK *dev, struct chanv_areas rows, int fetching,
                                               struct chanv_area *lent)
{
    BYTE key = dev->orb.flag4 & ORB4_KEY, has;
    size_t i, count = 0;

    for (i = 0; i < rows.len; i++) {
        U32 at = rows.at[i].start & -CHANVASK_BLOCK, end = rows.at[i].start + rows.at[i].len;
        if (count > 0 && lent[count - 1].start == at)
            at += CHANVASK_BLOCK; /* the row before reached into this block */
        for (; at < end && at <= dev->mainlim; at += CHANVASK_BLOCK) {
            has = STORAGE_KEY(at, dev);
            if (key == 0 || (has & STORKEY_KEY) == key || (fetching && !(has & STORKEY_FETCH)))
                lent[count++] = (struct chanv_area){at, CHANVASK_BLOCK};
        }
    }
    return (struct chanv_areas){lent, count};
}

/* The job of a start: what the device statement and the storage keys grant, as far as it matters to
 * these rows. */
static inline struct chanv_job chanvask_job(struct CHANVASK *ask, U32 start,
                                            struct chanv_areas fetch, struct chanv_areas store)
{
    const DEVBLK *dev = ask->dev;
    size_t len = dev->mainlim < CHANVASK_STORAGE ? dev->mainlim + 1 : CHANVASK_STORAGE;

    return (struct chanv_job){
        .storage = {dev->mainstor, len},
        .extents = {ask->extents, ask->extent_count},
        .fetch = chanvask_lent(ask->dev, fetch, 1, ask->fetch),
        .store = chanvask_lent(ask->dev, store, 0, ask->store),
        .start = start,
        .limit = CHANV_USUAL_LIMIT,
        .device = dev->devtype == 0x2311 ? 2311 : 2314,
        .mask = ask->mask,
    };
}

/* Begins to tell of a refusal. The CCW that offends, or else the first, is at the address. */
static inline void chanvask_refuse(struct CHANVASK *ask, U32 address)
{
    ask->told[ask->told_len = 0] = 0;
    ask->address = address;
}

static inline void chanvask_no_answer(struct CHANVASK *ask, U32 start, enum chanv_answer answer)
{
    chanvask_refuse(ask, start);
    chanvask_tell(ask, "HHCCV004E %4.4X: chanv has no answer, %s, start %6.6X%s\n",
                  ask->dev->devnum, chanv_answer_word(answer), start, ask->outcome);
}

static inline void chanvask_tell_path(struct CHANVASK *ask, const struct chanv_place *path,
                                      size_t count)
{
    for (; count > 0; count--, path++) {
        U32 at = path->address;
        int is_there = at % 8 == 0 && at < CHANVASK_STORAGE && at < ask->dev->mainlim;
        U64 ccw = is_there ? fetch_dw(chanvask_storage + at) : 0;
        chanvask_tell(ask, "HHCCV003I %4.4X:  %6.6X %s %16.16llX\n", ask->dev->devnum, at,
                      chanv_entered_word(path->entered), (unsigned long long)ccw);
    }
}

/* Asks why the program may not run, and tells it. No room for the path is a no too, with no place
 * of it written. After a yes something has changed since the refusal. */
static inline void chanvask_why(struct CHANVASK *ask, U32 start)
{
    static const struct chanv_area all = CHANV_ALL_STORAGE;
    static const struct chanv_areas rows = {&all, 1};
    struct chanv_place path[CHANVASK_PATH], second_path[CHANVASK_PATH];
    struct chanv_explanation why;
    struct chanv_area *gap = &why.evidence.gap;
    struct chanv_job job = chanvask_job(ask, start, rows, rows);
    enum chanv_answer answer;

    memcpy(chanvask_storage, job.storage.at, job.storage.len);
    job.storage.at = chanvask_storage;
    answer = chanv_why(&job, path, CHANVASK_PATH, second_path, CHANVASK_PATH, &why);
    if (answer != CHANV_NO && answer != CHANV_NO_ROOM) {
        chanvask_no_answer(ask, start, answer == CHANV_YES ? CHANV_CHANGED_MEANWHILE : answer);
        return;
    }
    chanvask_refuse(ask, why.verdict.address);
    chanvask_tell(ask, "HHCCV002W %4.4X: chanv no %6.6X %s, start %6.6X%s\n", ask->dev->devnum,
                  ask->address, chanv_reason_word(why.verdict.reason), start, ask->outcome);
    if (answer == CHANV_NO)
        chanvask_tell_path(ask, path, why.path_count);
    if (answer == CHANV_NO && why.second_path_count > 0) {
        chanvask_tell(ask, "HHCCV003I %4.4X: reached by\n", ask->dev->devnum);
        chanvask_tell_path(ask, second_path, why.second_path_count);
    }
    if (gap->len > 0)
        chanvask_tell(ask, "HHCCV003I %4.4X: not lent: %6.6X-%6.6X\n", ask->dev->devnum,
                      gap->start, gap->start + gap->len - 1);
}

/* Takes the program at an address in, into memory that grows as it does. It isn't in flight. */
static inline enum chanv_answer chanvask_remember(struct CHANVASK *ask, U32 start,
                                                  struct chanvask_program *taken,
                                                  struct chanv_intake *intake)
{
    static const struct chanv_areas none;
    static const struct chanv_area all = CHANV_ALL_STORAGE;
    const struct chanv_areas own = {&all, 1}; /* the guest has one user, who owns it all */
    struct chanv_job job = chanvask_job(ask, start, none, none);
    struct chanv_source source = {job.storage, start, job.limit, job.device};
    enum chanv_answer answer = CHANV_CHANGED_MEANWHILE;
    size_t len = taken->room;
    int tries;
    void *more;

    ask->questions++;
    for (tries = 0; tries < 8; tries++) {
        if (len > taken->room) {
            if ((more = realloc(taken->memory, len)) == NULL)
                return CHANV_MEMORY;
            taken->memory = more;
            taken->room = len;
        }
        answer = chanv_take_in(&source, &own, CHANV_ALLOW_HANGING | CHANV_ALLOW_INTERRUPTING,
                               taken->memory, taken->room, &len, &taken->program, intake);
        if (answer != CHANV_NO_ROOM && answer != CHANV_CHANGED_MEANWHILE)
            break;
    }
    return answer;
}

/* Takes the program in, or tells why it can't be; then it is zeros, which never start. Nor does a
 * program with a No Operation or a Recalibrate that has chain data on: chanv judges it only up to
 * there, and Hercules goes on. */
static inline int chanvask_take_in(struct CHANVASK *ask, struct chanvask_program *taken, U32 start)
{
    struct chanv_intake intake = {.refusal.code = 0};
    enum chanv_answer answer = chanvask_remember(ask, start, taken, &intake);

    if (answer == CHANV_OK)
        return 1;
    memset(&taken->program, 0, sizeof taken->program);
    if (intake.refusal.code == CHANV_REFUSED_ENDS_CHAINING) {
        chanvask_refuse(ask, intake.refusal.value);
        chanvask_tell(ask, "HHCCV006W %4.4X: chanv stops at %6.6X, start %6.6X%s\n",
                      ask->dev->devnum, ask->address, start, ask->outcome);
    } else if (answer == CHANV_NO)
        chanvask_why(ask, start);
    else
        chanvask_no_answer(ask, start, answer);
    return 0;
}

static inline int chanvask_may_start(struct CHANVASK *ask, const struct chanv_program *program,
                                     U32 start, struct chanv_refusal *refusal)
{
    struct chanv_job job = chanvask_job(ask, start, program->rows.fetch, program->rows.store);

    return chanv_check_start(&job, flight.table, flight.rows, program, refusal) == CHANV_YES;
}

/* Asks about the program at an address, under the table's lock. Returns it after a yes. After a no,
 * which is told, it returns NULL. */
static inline const struct chanv_program *chanvask_ask(struct CHANVASK *ask, U32 start)
{
    struct chanvask_program *taken = &ask->programs[start / 8 % CHANVASK_PROGRAMS];
    struct chanv_refusal refusal;
    char who[32] = "the machine";
    int may_start = chanvask_may_start(ask, &taken->program, start, &refusal), stores;

    if (!may_start && refusal.code <= CHANV_REFUSED_CHANGED) { /* it isn't the one taken in */
        if (!chanvask_take_in(ask, taken, start))
            return NULL;
        may_start = chanvask_may_start(ask, &taken->program, start, &refusal);
    }
    if (may_start)
        return &taken->program;
    stores = refusal.code == CHANV_REFUSED_STORES_OVER_KEPT;
    if (!stores && refusal.code != CHANV_REFUSED_KEEPS_STORED_OVER) {
        chanvask_why(ask, start);
        return NULL;
    }
    if (refusal.row >= CHANVASK_LOWS)
        sprintf(who, "the program on %4.4X", flight.devices[refusal.row]);
    chanvask_refuse(ask, start);
    chanvask_tell(ask, "HHCCV007W %4.4X: chanv %s %6.6X %s %s, start %6.6X%s\n", ask->dev->devnum,
                  chanv_refusal_word(refusal.code), refusal.value, stores ? "of" : "by", who,
                  start, ask->outcome);
    return NULL;
}

/* Whether a byte that the program keeps isn't as it was judged; then `address` is the first. */
static inline int chanvask_has_changed(const struct chanv_program *program, const BYTE *storage,
                                       U32 *address)
{
    const struct chanv_area *area = program->rows.keep.at, *end = area + program->rows.keep.len;
    const BYTE *kept = program->kept.at;
    U32 i;

    while (area < end && memcmp(kept, storage + area->start, area->len) == 0)
        kept += area++->len;
    if (area == end)
        return 0;
    for (i = 0; i < area->len - 1 && storage[area->start + i] == kept[i]; i++)
        ;
    *address = area->start + i;
    return 1;
}

#endif
