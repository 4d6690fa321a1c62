/* Tries hercules/chanvask.h without Hercules, over random programs that are started again and again
 * while bytes of storage, storage keys and what another program may store into change. Each answer
 * has to be that of chanv_verify about storage as it is, with all blocks lent that the keys allow.
 * But a program for which some job will do, and that ends though chain data is on, is refused where
 * it first does, and so is a program that may be stored over.
 *
 *     hercules SEED STARTS
 *     hercules 0 STARTS      says how long a start takes beside eight programs in flight
 */
#include <chanv.h>
#include <pthread.h>
#include <stdarg.h>
#include <stdio.h>
#include <stdlib.h>
#include <string.h>
#include <strings.h>
#include <time.h>

/* What the header takes from Hercules. */
typedef uint8_t BYTE;
typedef uint16_t U16;
typedef uint32_t U32;
typedef uint64_t U64;
typedef struct {
    unsigned devnum, devtype;
    BYTE *mainstor, *storkeys;
    U64 mainlim;
    struct {
        BYTE flag4, ccwaddr[4];
    } orb;
} DEVBLK;
enum { ORB4_KEY = 0xF0, STORKEY_KEY = 0xF0, STORKEY_FETCH = 0x08 };
#define STORAGE_KEY(address, dev) (dev)->storkeys[(address) >> 11]
#define logmsg(...) ((void)(0 && printf(__VA_ARGS__)))

static U32 fetch_fw(const BYTE *at)
{
    return (U32)at[0] << 24 | (U32)at[1] << 16 | (U32)at[2] << 8 | at[3];
}

static U64 fetch_dw(const BYTE *at)
{
    return (U64)fetch_fw(at) << 32 | fetch_fw(at + 4);
}

#include "chanvask.h"

enum { STORAGE = 0x40000, BLOCKS = STORAGE / 2048, STARTS = 8 };

static BYTE storage[STORAGE], keys[BLOCKS];
static U64 state;

static U32 below(U32 bound)
{
    state = state * 6364136223846793005u + 1442695040888963407u;
    return (U32)(state >> 33) % bound;
}

static void put(U32 address, U32 high, U32 low)
{
    for (int i = 0; i < 4; i++) {
        storage[address + i] = (BYTE)(high >> (24 - 8 * i));
        storage[address + 4 + i] = (BYTE)(low >> (24 - 8 * i));
    }
}

/* Writes some CCWs from an address on, at times behind a transfer to elsewhere. */
static void write_program(U32 at)
{
    static const BYTE codes[] = {0x03, 0x06, 0x07, 0x0B, 0x1B, 0x1F, 0x31, 0x05, 0x06, 0x07};
    U32 scattered = below(4) == 0, count = scattered ? 60 : 1 + below(8);

    for (U32 i = 0; i < count && at < STORAGE - 16; i++, at += 8) {
        U32 code = codes[below(sizeof codes)], data = below(STORAGE - 64);
        if (i > 0 && below(scattered ? 1 : 4) == 0) {
            U32 to = 8 * below(STORAGE / 8 - 16);
            put(at, 0x08000000 | to, 0);
            at = to;
        }
        if (scattered) /* it leads from block to block, and moves nothing */
            code = 0x03, data = at;
        if (code == 0x07 || (code & 0x0F) == 0x0B) /* a seek's bin, cylinder and head */
            put(data, below(20), below(20) << 16);
        if (code == 0x1F)
            storage[data] = below(4) ? 0xC0 : (BYTE)below(256);
        put(at, code << 24 | data, (i + 1 < count ? (below(8) ? 0x40u : 0x80u) : 0) << 24
                                       | (below(8) ? 6 : 1 + below(40)));
    }
}

static struct CHANVASK ask;
static struct chanv_area stored; /* what another program in flight may store into */

/* Somebody changes something, above all what a program that is remembered keeps. */
static void change(U32 start)
{
    const struct chanvask_program *taken = &ask.programs[start / 8 % CHANVASK_PROGRAMS];
    U32 how = below(16);

    if (how == 0)
        write_program(start);
    else if (how == 1)
        keys[below(BLOCKS)] = (BYTE)(below(3) << 4 | below(2) << 3);
    else if (how == 2)
        storage[below(STORAGE)] = (BYTE)below(256);
    else if (how == 3 && taken->program.device != 0) {
        const struct chanv_areas *keep = &taken->program.rows.keep;
        struct chanv_area area = keep->at[below((U32)keep->len)];
        storage[area.start + below(area.len)] ^= (BYTE)(1 << below(8));
    } else if (how == 4) {
        stored = (struct chanv_area){below(2) ? start : below(STORAGE), below(3) * 64};
        flight.table[CHANVASK_LOWS].stores = stored;
    }
}

/* Whether the program keeps a byte that the other program in flight may store into. Some job will
 * do for it. */
static int is_stored_over(U32 start)
{
    static const struct chanv_area all = CHANV_ALL_STORAGE;
    static BYTE memory[1 << 20];
    struct chanv_program program;
    const struct chanv_source source = {{storage, STORAGE}, start, CHANV_USUAL_LIMIT, 2314};
    const struct chanv_areas own = {&all, 1};

    if (chanv_take_in(&source, &own, UINT32_MAX, memory, sizeof memory, NULL, &program, NULL)
        != CHANV_OK)
        return 0;
    for (size_t i = 0; i < program.rows.keep.len; i++) {
        struct chanv_area kept = program.rows.keep.at[i];
        if (kept.start < stored.start + stored.len && stored.start < kept.start + kept.len)
            return 1;
    }
    return 0;
}

static U32 asked_directly(const DEVBLK *dev, U32 start, struct chanv_verdict *verdict)
{
    static struct chanv_area fetch[BLOCKS], store[BLOCKS];
    BYTE key = dev->orb.flag4;
    struct chanv_job job = {
        .storage = {storage, STORAGE},
        .extents = {ask.extents, ask.extent_count},
        .fetch = {fetch, 0},
        .store = {store, 0},
        .start = start,
        .limit = CHANV_USUAL_LIMIT,
        .device = 2314,
        .mask = ask.mask,
    };

    for (U32 block = 0; block < BLOCKS; block++) {
        struct chanv_area area = {block * 2048, 2048};
        int mine = key == 0 || (keys[block] & 0xF0) == key;
        if (mine || !(keys[block] & 0x08))
            fetch[job.fetch.len++] = area;
        if (mine)
            store[job.store.len++] = area;
    }
    return chanv_verify(&job, verdict);
}

enum { NOWHERE = STORAGE };

/* The address of the first No Operation or Recalibrate with chain data that the program comes to,
 * if some job will do for it; else NOWHERE. */
static U32 stops_at(U32 start)
{
    static const struct chanv_extent disk = CHANV_ALL_CYLINDERS;
    static const struct chanv_area all = CHANV_ALL_STORAGE;
    static struct chanv_place places[CHANV_USUAL_LIMIT];
    struct chanv_verdict verdict;
    size_t count, extent;
    const struct chanv_job job = {{storage, STORAGE}, {&disk, 1}, {&all, 1}, {&all, 1}, start,
                                  CHANV_USUAL_LIMIT, 2314, CHANV_OPEN_MASK};

    if (chanv_verify(&job, &verdict) != CHANV_YES
        || chanv_list(&job, places, CHANV_USUAL_LIMIT, &count, &extent) != CHANV_OK)
        return NOWHERE;
    for (size_t i = 0; i < count; i++) {
        const BYTE *ccw = storage + places[i].address;
        if (places[i].entered == CHANV_ENTERED_FRESH && (ccw[0] | 0x10) == 0x13
            && ccw[4] & 0x80)
            return places[i].address;
    }
    return NOWHERE;
}

/* Starts random programs, and compares the answers. Returns the exit status. */
static int try_starts(DEVBLK *dev, U32 count)
{
    U32 starts[STARTS], yes = 0, stopped = 0, beside = 0;

    for (int i = 0; i < STARTS; i++)
        write_program(starts[i] = 8 * below(STORAGE / 8 - 16));
    for (U32 i = 0; i < count; i++) {
        U32 start = starts[below(STARTS)], answer, stop;
        const struct chanv_program *program;
        struct chanv_verdict verdict;
        change(start);
        dev->orb.flag4 = (BYTE)(below(3) << 4);
        program = chanvask_ask(&ask, start);
        answer = asked_directly(dev, start, &verdict);
        stop = stops_at(start);
        if (stop != NOWHERE) {
            answer = CHANV_NO, verdict.address = stop;
            stopped++;
        } else if (answer == CHANV_YES && is_stored_over(start)) {
            answer = CHANV_NO, verdict.address = start;
            beside++;
        }
        yes += answer == CHANV_YES;
        if ((program != NULL) != (answer == CHANV_YES)
            || (answer == CHANV_NO && ask.address != verdict.address)) {
            printf("differs at start %u of %06X: %u %06X, not %06X\n", i, start, answer,
                   verdict.address, ask.address);
            return 1;
        }
    }
    printf("%u starts, %u yes, %u stopped, %u beside, %u questions\n", count, yes, stopped, beside,
           (unsigned)ask.questions);
    return 0;
}

/* How long a start is held up, beside eight programs in flight like it. */
static void measure(U32 count)
{
    static struct CHANVASK others[8];
    struct timespec began, ended;
    U32 yes = 0;

    for (U32 i = 0; i < 9; i++) { /* seek to cylinder 5, search, transfer, and read */
        U32 at = 0x1000 + i * 0x800;
        struct CHANVASK *one = i < 8 ? &others[i] : &ask;
        put(at, 0x07000000 | (at + 0x100), 0x40000006);
        put(at + 8, 0x31000000 | (at + 0x102), 0x60000005);
        put(at + 16, 0x08000000 | (at + 8), 0);
        put(at + 24, 0x06000000 | (at + 0x200), 0x20000050);
        put(at + 0x100, 5, 0);
        one->dev = ask.dev;
        chanvask_arg(one, "chanv=0-9");
        if (i < 8)
            flight.table[flight.rows++].program = *chanvask_ask(one, at);
    }
    clock_gettime(CLOCK_PROCESS_CPUTIME_ID, &began);
    for (U32 i = 0; i < count; i++)
        yes += chanvask_ask(&ask, 0x5000) != NULL;
    clock_gettime(CLOCK_PROCESS_CPUTIME_ID, &ended);
    printf("%u of %u yes beside 8, %.0f ns a start\n", yes, count,
           ((double)(ended.tv_sec - began.tv_sec) * 1e9 + (double)(ended.tv_nsec - began.tv_nsec))
               / count);
}

int main(int argc, char **argv)
{
    DEVBLK dev = {0x190, 0x2314, storage, keys, STORAGE - 1, {0, {0}}};
    U32 count = argc > 2 ? (U32)atoi(argv[2]) : 0;
    int status = 0;

    state = argc > 1 ? (U64)atoi(argv[1]) : 1;
    ask.dev = &dev;
    flight.rows = CHANVASK_LOWS + 1;
    if (!chanvask_arg(&ask, "chanv=0-9,12-19") || !chanvask_arg(&ask, "chanvmask=80")
        || !chanvask_arg(&ask, "chanvrefuse") || chanvask_arg(&ask, "chanvmask=81")
        || chanvask_arg(&ask, "chanvask"))
        return 2;
    if (state == 0)
        measure(count);
    else
        status = try_starts(&dev, count);
    chanvask_end(&ask);
    return status;
}
