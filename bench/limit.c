/* A verifier written by hand in C for speed alone. bench/ratios.py compares chanv with it.
 *
 *     cc -O3 -march=x86-64 -o limit limit.c
 *     ./limit verify [FILE...]    writes the verdicts that chanv writes, with its status
 *     ./limit list [FILE...]      writes the listings
 *     ./limit scan IMAGE          tests two bytes of each doubleword, the least that `find` must do
 *
 * With -DLIBRARY it is the call `limit_verify`, which answers as `chanv_verify` does.
 *
 * It is fast because it looks at each CCW once, and because places, guarded bytes and digits are in
 * flat tables. It does less than chanv: it doesn't say what is wrong with a deck, makes one call at
 * a time, ends if memory runs out, and needs a machine that stores the low byte first. */
#include <errno.h>
#include <fcntl.h>
#include <stdint.h>
#include <stdio.h>
#include <stdlib.h>
#include <string.h>
#include <unistd.h>

enum {
    LARGEST_STORAGE = 1 << 24,
    ADDRESSES = LARGEST_STORAGE + 16, /* those that a program may lead to */
    MOST_PLACES = 65536,
    LONGEST_DECK = 1 << 26,
    CYLINDERS = 203,
};

/* Where the data of a command go. A place that a data chain enters is entered by the kind of the
 * chain's command, and any other by IDLE. */
enum kind { IDLE, IN, OUT, SEARCH };

/* What else is looked at, besides the data. */
enum class { UNKNOWN, PLAIN, SEEK, SEEK_CYLINDER, SEEK_HEAD, RECALIBRATE, SET_MASK,
             HOME, FORMAT, UPDATE };

struct command {
    uint8_t kind, class;
    const char *name;
};

#define WITH_MT(code, kind, name) \
    [code] = {kind, PLAIN, name}, [(code) | 0x80] = {kind, PLAIN, name "-mt"}

static const struct command commands[256] = {
    [0x03] = {IDLE, PLAIN, "no-operation"},
    [0x04] = {IN, PLAIN, "sense"},
    [0x07] = {OUT, SEEK, "seek"},
    [0x0B] = {OUT, SEEK_CYLINDER, "seek-cylinder"},
    [0x1B] = {OUT, SEEK_HEAD, "seek-head"},
    [0x13] = {IDLE, RECALIBRATE, "recalibrate"},
    [0x1F] = {OUT, SET_MASK, "set-file-mask"},
    [0x19] = {OUT, HOME, "write-home-address"},
    [0x15] = {OUT, HOME, "write-record-zero"},
    [0x1D] = {OUT, FORMAT, "write-count-key-data"},
    [0x01] = {OUT, FORMAT, "write-special-count-key-data"},
    [0x11] = {OUT, FORMAT, "erase"},
    [0x05] = {OUT, UPDATE, "write-data"},
    [0x0D] = {OUT, UPDATE, "write-key-data"},
    WITH_MT(0x39, SEARCH, "search-home-address-equal"),
    WITH_MT(0x31, SEARCH, "search-id-equal"),
    WITH_MT(0x51, SEARCH, "search-id-high"),
    WITH_MT(0x71, SEARCH, "search-id-equal-or-high"),
    WITH_MT(0x29, SEARCH, "search-key-equal"),
    WITH_MT(0x49, SEARCH, "search-key-high"),
    WITH_MT(0x69, SEARCH, "search-key-equal-or-high"),
    WITH_MT(0x1A, IN, "read-home-address"),
    WITH_MT(0x12, IN, "read-count"),
    WITH_MT(0x16, IN, "read-record-zero"),
    WITH_MT(0x06, IN, "read-data"),
    WITH_MT(0x0E, IN, "read-key-data"),
    WITH_MT(0x1E, IN, "read-count-key-data"),
};

enum { OTHER_BITS = 0x27 }; /* of a file mask, which are off */

/* The classes of command that a file mask inhibits, a bit for each. */
static uint32_t inhibited_by(uint8_t mask)
{
    enum { MOVES = 1 << SEEK | 1 << RECALIBRATE };
    static const uint32_t writes[] = {1 << HOME, 1 << HOME | 1 << FORMAT | 1 << UPDATE,
                                      1 << HOME | 1 << FORMAT, 0};
    static const uint32_t seeks[] = {0, MOVES, MOVES | 1 << SEEK_CYLINDER,
                                     MOVES | 1 << SEEK_CYLINDER | 1 << SEEK_HEAD};
    return writes[mask >> 6] | seeks[mask >> 3 & 3];
}

enum reason { NONE, MISALIGNED, OUTSIDE_STORAGE, TRANSFER_NOT_ALLOWED, INVALID_CODE, BAD_FORMAT,
              ZERO_COUNT, DATA_OUTSIDE, NOT_IN_TABLE, INHIBITED, STORE_NOT_LENT, FETCH_NOT_LENT,
              SHORT_SEEK, SEEK_OUTSIDE, CHANGES_CCW, CHANGES_ARGUMENT, WEAKENS_MASK };

enum answer { YES, NO, TOO_MANY_PLACES, NO_MEMORY };

struct area {
    uint32_t start, len;
};

struct areas {
    struct area *at;
    size_t len;
};

struct job {
    const uint8_t *storage;
    uint32_t length, start, limit;
    uint8_t mask, heads;
    uint64_t cylinders[4]; /* a bit for each that an extent has */
    struct areas fetch, store;
};

static void *or_end(void *memory)
{
    if (!memory)
        exit(NO_MEMORY);
    return memory;
}

/* ---- areas */

static int by_start(const void *one, const void *other)
{
    uint32_t left = ((const struct area *)one)->start, right = ((const struct area *)other)->start;
    return (left > right) - (left < right);
}

/* Sorts areas by starts of at most 28 bits, many of them by 14 bits at a time. */
static void sort(struct area *areas, size_t count)
{
    enum { BITS = 14, VALUES = 1 << BITS, FEW = 256 };
    size_t rising = 1;
    while (rising < count && areas[rising - 1].start <= areas[rising].start)
        rising++;
    if (rising >= count)
        return;
    if (count < FEW) {
        qsort(areas, count, sizeof *areas, by_start);
        return;
    }
    struct area *other = or_end(malloc(count * sizeof *other)), *from = areas, *to = other;
    for (int shift = 0; shift < 2 * BITS; shift += BITS) {
        uint32_t ends[VALUES + 1] = {0};
        for (size_t i = 0; i < count; i++)
            ends[(from[i].start >> shift & (VALUES - 1)) + 1]++;
        for (int value = 0; value < VALUES; value++)
            ends[value + 1] += ends[value];
        for (size_t i = 0; i < count; i++)
            to[ends[from[i].start >> shift & (VALUES - 1)]++] = from[i];
        to = from, from = from == areas ? other : areas;
    }
    free(other);
}

/* Cuts areas at the end of storage, sorts them, and joins those that meet. */
static void merge(struct areas *areas, uint32_t length)
{
    struct area *at = areas->at, *last = NULL;
    size_t count = 0;
    for (size_t i = 0; i < areas->len; i++) {
        struct area area = at[i];
        if (area.len == 0 || area.start >= length)
            continue;
        if (area.len > length - area.start)
            area.len = length - area.start;
        at[count++] = area;
    }
    sort(at, count);
    areas->len = 0;
    for (size_t i = 0; i < count; i++) {
        uint32_t end = at[i].start + at[i].len;
        if (last == NULL || last->start + last->len < at[i].start) {
            last = &at[areas->len++];
            *last = at[i];
        } else if (end > last->start + last->len) {
            last->len = end - last->start;
        }
    }
}

/* Whether a merged area has all these bytes. */
static inline int covers(const struct areas *areas, uint32_t start, uint32_t len)
{
    size_t low = 0, high = areas->len;
    while (low < high) {
        size_t middle = (low + high) / 2;
        if (areas->at[middle].start <= start)
            low = middle + 1;
        else
            high = middle;
    }
    return low && start + len <= areas->at[low - 1].start + areas->at[low - 1].len;
}

/* ---- CCWs */

enum { CHAIN_DATA = 0x80, CHAIN_COMMAND = 0x40, SKIP = 0x10, ZERO_BITS = 0x07 };

static inline uint64_t ccw_at(const struct job *job, uint32_t address)
{
    uint64_t ccw;
    memcpy(&ccw, job->storage + address, 8);
    return __builtin_bswap64(ccw);
}

static inline uint8_t code_of(uint64_t ccw) { return (uint8_t)(ccw >> 56); }
static inline uint32_t data_of(uint64_t ccw) { return ccw >> 32 & 0xFFFFFF; }
static inline uint8_t flags_of(uint64_t ccw) { return (uint8_t)(ccw >> 24); }
static inline uint32_t count_of(uint64_t ccw) { return ccw & 0xFFFF; }
static inline int is_transfer(uint64_t ccw) { return (code_of(ccw) & 0x0F) == 8; }

/* The kind of the command, or of that whose data chain enters the CCW. */
static inline uint32_t kind_of(uint64_t ccw, uint32_t entered)
{
    return entered ? entered : commands[code_of(ccw)].kind;
}

static inline int is_in_storage(const struct job *job, uint32_t address)
{
    return address % 8 == 0 && address < job->length;
}

/* ---- places */

/* A place is its address, two bits for how it is entered, and a bit for a transfer before it. */
static inline uint32_t place_at(uint32_t address, uint32_t entered)
{
    return address << 3 | entered << 1;
}
static inline uint32_t address_of(uint32_t place) { return place >> 3; }
static inline uint32_t entered_of(uint32_t place) { return place >> 1 & 3; }
enum { BY_TRANSFER = 1 };

static uint32_t places[MOST_PLACES], place_count; /* in the order in which they are found */

/* A bit for each of the eight places that an address may be: for the doublewords of storage, and
 * for addresses that have no CCW, of which few pages are ever touched. */
static uint8_t in_storage[LARGEST_STORAGE / 8], elsewhere[ADDRESSES];

/* A bit for each byte of storage that is an argument or a mask. */
static uint64_t taken[LARGEST_STORAGE / 64];

static uint32_t first_ccw, last_ccw, first_taken, last_taken;

static inline uint8_t *marks_of(const struct job *job, uint32_t address)
{
    return is_in_storage(job, address) ? &in_storage[address / 8] : &elsewhere[address];
}

/* Adds a place, unless it is there; 0 if it is one too many. */
static inline int add(const struct job *job, uint32_t place)
{
    uint8_t *marks = marks_of(job, address_of(place)), mark = (uint8_t)(1 << place % 8);
    if (*marks & mark)
        return 1;
    if (place_count >= job->limit)
        return 0;
    *marks |= mark;
    places[place_count++] = place;
    return 1;
}

static inline void take(uint32_t byte)
{
    taken[byte / 64] |= (uint64_t)1 << byte % 64;
    first_taken = byte < first_taken ? byte : first_taken;
    last_taken = byte > last_taken ? byte : last_taken;
}

enum { ARGUMENT = 6 };

/* The addresses of the bytes of a seek's argument, which a data chain may gather; 0 if too few. */
static int find_argument(const struct job *job, uint32_t address, uint32_t bytes[ARGUMENT])
{
    uint32_t found = 0;
    int may_transfer = 0;
    for (;;) {
        if (!is_in_storage(job, address))
            return 0;
        uint64_t ccw = ccw_at(job, address);
        uint32_t data = data_of(ccw), len = count_of(ccw);
        if (is_transfer(ccw)) {
            if (!may_transfer)
                return 0;
            may_transfer = 0, address = data;
            continue;
        }
        if (flags_of(ccw) & ZERO_BITS || len == 0 || data + len > job->length)
            return 0;
        for (uint32_t i = 0; i < len && found < ARGUMENT; i++)
            bytes[found++] = data + i;
        if (found == ARGUMENT)
            return 1;
        if (!(flags_of(ccw) & CHAIN_DATA))
            return 0;
        may_transfer = 1, address += 8;
    }
}

static inline int has_cylinder(const struct job *job, uint32_t cylinder)
{
    return cylinder < CYLINDERS && job->cylinders[cylinder / 64] >> cylinder % 64 & 1;
}

static inline enum reason judge_seek(const struct job *job, uint32_t address)
{
    uint32_t bytes[ARGUMENT], halves[ARGUMENT / 2];
    if (!find_argument(job, address, bytes))
        return SHORT_SEEK;
    for (int i = 0; i < ARGUMENT / 2; i++)
        halves[i] = (uint32_t)job->storage[bytes[2 * i]] << 8 | job->storage[bytes[2 * i + 1]];
    if (halves[0] || !has_cylinder(job, halves[1]) || halves[2] >= job->heads)
        return SEEK_OUTSIDE;
    for (int i = 0; i < ARGUMENT; i++)
        take(bytes[i]);
    return NONE;
}

static inline enum reason judge_mask(const struct job *job, uint32_t inhibited, uint32_t data)
{
    uint8_t mask = job->storage[data];
    if (mask & OTHER_BITS || inhibited & ~inhibited_by(mask))
        return WEAKENS_MASK;
    take(data);
    return NONE;
}

/* What is wrong with a CCW in storage that is no transfer. */
static inline enum reason judge_ccw(const struct job *job, uint32_t inhibited, uint32_t address,
                                    uint64_t ccw, uint32_t entered)
{
    uint32_t kind = kind_of(ccw, entered), class = entered ? PLAIN : commands[code_of(ccw)].class;
    uint32_t data = data_of(ccw), len = count_of(ccw);
    if (!entered && (code_of(ccw) & 0x0F) == 0)
        return INVALID_CODE;
    if (flags_of(ccw) & ZERO_BITS)
        return BAD_FORMAT;
    if (len == 0)
        return ZERO_COUNT;
    if (data + len > job->length)
        return DATA_OUTSIDE;
    if (class == UNKNOWN)
        return NOT_IN_TABLE;
    if (inhibited >> class & 1)
        return INHIBITED;
    if (kind == IN && !(flags_of(ccw) & SKIP) && !covers(&job->store, data, len))
        return STORE_NOT_LENT;
    if (kind > IN && !covers(&job->fetch, data, len))
        return FETCH_NOT_LENT;
    if (class >= SEEK && class <= SEEK_HEAD)
        return judge_seek(job, address);
    if (class == RECALIBRATE)
        return has_cylinder(job, 0) ? NONE : SEEK_OUTSIDE;
    return class == SET_MASK ? judge_mask(job, inhibited, data) : NONE;
}

struct verdict {
    uint32_t address;
    enum reason reason;
};

/* The first offence is that of the least address, and there of the least reason. */
static inline void note(struct verdict *verdict, uint32_t address, enum reason reason)
{
    if (verdict->reason == NONE || address < verdict->address ||
        (address == verdict->address && reason < verdict->reason))
        *verdict = (struct verdict){address, reason};
}

/* Finds the places, and the first that is wrong by itself; 0 if there are too many. */
static int walk(const struct job *job, struct verdict *verdict)
{
    uint32_t inhibited = inhibited_by(job->mask);
    place_count = 0, first_ccw = first_taken = UINT32_MAX, last_ccw = last_taken = 0;
    int has_room = add(job, place_at(job->start, IDLE) | BY_TRANSFER);
    for (uint32_t i = 0; has_room && i < place_count; i++) {
        uint32_t place = places[i], address = address_of(place), entered = entered_of(place);
        if (!is_in_storage(job, address)) {
            note(verdict, address, address % 8 ? MISALIGNED : OUTSIDE_STORAGE);
            continue;
        }
        first_ccw = address < first_ccw ? address : first_ccw;
        last_ccw = address > last_ccw ? address : last_ccw;
        uint64_t ccw = ccw_at(job, address);
        if (is_transfer(ccw)) {
            if (place & BY_TRANSFER)
                note(verdict, address, TRANSFER_NOT_ALLOWED);
            else
                has_room = add(job, place_at(data_of(ccw), entered) | BY_TRANSFER);
            continue;
        }
        enum reason reason = judge_ccw(job, inhibited, address, ccw, entered);
        uint32_t kind = kind_of(ccw, entered);
        if (reason) {
            note(verdict, address, reason);
        } else if (flags_of(ccw) & CHAIN_DATA) {
            if (kind != IDLE)
                has_room = add(job, place_at(address + 8, kind));
        } else if (flags_of(ccw) & CHAIN_COMMAND) {
            has_room = add(job, place_at(address + 8, IDLE));
            if (has_room && kind == SEARCH)
                has_room = add(job, place_at(address + 16, IDLE));
        }
    }
    return has_room;
}

/* Whether a CCW that was found has a byte of an area. */
static inline int has_ccw(uint32_t start, uint32_t end)
{
    uint32_t at = start / 8, stop = (end + 7) / 8;
    uint64_t eight;
    for (; at + 8 <= stop; at += 8) {
        memcpy(&eight, &in_storage[at], 8);
        if (eight)
            return 1;
    }
    for (; at < stop; at++)
        if (in_storage[at])
            return 1;
    return 0;
}

/* Whether an area has a byte that was taken. */
static inline int has_taken(uint32_t start, uint32_t end)
{
    uint32_t at = start / 64, last = (end - 1) / 64;
    uint64_t bits = taken[at] & UINT64_MAX << start % 64;
    while (at < last && !bits)
        bits = taken[++at];
    return at < last || bits & UINT64_MAX >> (63 - (end - 1) % 64);
}

/* Finds the first place that stores over a CCW or an argument, where none is wrong by itself. */
static void find_changes(const struct job *job, struct verdict *verdict)
{
    for (uint32_t i = 0; i < place_count; i++) {
        uint32_t address = address_of(places[i]), entered = entered_of(places[i]);
        uint64_t ccw = ccw_at(job, address);
        uint32_t kind = kind_of(ccw, entered);
        if (is_transfer(ccw) || kind != IN || flags_of(ccw) & SKIP)
            continue;
        uint32_t start = data_of(ccw), end = start + count_of(ccw);
        if (start < last_ccw + 8 && end > first_ccw && has_ccw(start, end))
            note(verdict, address, CHANGES_CCW);
        else if (start <= last_taken && end > first_taken && has_taken(start, end))
            note(verdict, address, CHANGES_ARGUMENT);
    }
}

static enum answer judge(const struct job *job, struct verdict *verdict)
{
    *verdict = (struct verdict){0, NONE};
    if (!walk(job, verdict))
        return TOO_MANY_PLACES;
    if (!verdict->reason)
        find_changes(job, verdict);
    return verdict->reason ? NO : YES;
}

/* Zeros in the tables what a walk wrote. */
static void clean(const struct job *job)
{
    for (uint32_t i = 0; i < place_count; i++)
        *marks_of(job, address_of(places[i])) = 0;
    if (first_taken <= last_taken)
        memset(&taken[first_taken / 64], 0, (last_taken / 64 - first_taken / 64 + 1) * 8);
    place_count = 0;
}

static void hold(struct job *job, uint32_t first, uint32_t last)
{
    for (uint32_t i = first / 64; i <= last / 64; i++) {
        uint64_t from = i == first / 64 ? UINT64_MAX << first % 64 : UINT64_MAX;
        uint64_t to = i == last / 64 ? UINT64_MAX >> (63 - last % 64) : UINT64_MAX;
        job->cylinders[i] |= from & to;
    }
}

#ifdef LIBRARY

#include <chanv.h>

/* Like chanv_verify, for a job that starts at an address of 24 bits; -1 if a field is wrong. */
int limit_verify(const struct chanv_job *given, struct chanv_verdict *out)
{
    enum { FEW = 64 };
    static struct area few[2][FEW];
    struct job job = {.storage = given->storage.at, .length = (uint32_t)given->storage.len,
                      .start = given->start, .limit = given->limit, .mask = given->mask};
    job.heads = given->device == 2311 ? 10 : given->device == 2314 ? 20 : 0;
    if (given->storage.len > LARGEST_STORAGE || !job.heads || job.mask & OTHER_BITS ||
        !given->extents.len || !job.limit || job.limit > MOST_PLACES)
        return -1;
    for (size_t i = 0; i < given->extents.len; i++) {
        struct chanv_extent extent = given->extents.at[i];
        if (extent.first > extent.last || extent.last >= CYLINDERS)
            return -1;
        hold(&job, extent.first, extent.last);
    }
    const struct chanv_areas *lent[] = {&given->fetch, &given->store};
    struct areas *lists[] = {&job.fetch, &job.store};
    for (int i = 0; i < 2; i++) {
        size_t size = lent[i]->len * sizeof(struct area);
        lists[i]->len = lent[i]->len;
        lists[i]->at = lent[i]->len <= FEW ? few[i] : or_end(malloc(size));
        memcpy(lists[i]->at, lent[i]->at, size);
        merge(lists[i], job.length);
    }
    struct verdict verdict;
    enum answer answer = judge(&job, &verdict);
    clean(&job);
    for (int i = 0; i < 2; i++)
        if (lists[i]->at != few[i])
            free(lists[i]->at);
    *out = (struct chanv_verdict){.address = verdict.address, .reason = verdict.reason};
    return (int)answer;
}

#else

/* ---- decks */

static int file, is_at_end;
static uint8_t chunk[65536], *here, *stop;
static uint64_t bytes_read;

/* For two digits their byte and VALID, for all else 0; and for a byte its digits. */
static uint16_t values[65536], digits[256];
enum { VALID = 0x100 };

/* Whether so many bytes come next. */
static inline int has_next(size_t len)
{
    size_t left = (size_t)(stop - here);
    if (left >= len)
        return 1;
    memmove(chunk, here, left);
    here = chunk, stop = chunk + left;
    while (!is_at_end && (size_t)(stop - here) < len) {
        ssize_t got = read(file, stop, sizeof chunk - (size_t)(stop - here));
        if (got < 0 && errno != EINTR)
            exit(NO_MEMORY);
        if (got == 0)
            is_at_end = 1;
        if (got > 0)
            stop += got, bytes_read += (uint64_t)got;
    }
    return (size_t)(stop - here) >= len;
}

/* Goes behind a text if it comes next. */
static int skip(const char *text)
{
    size_t len = strlen(text);
    if (!has_next(len) || memcmp(here, text, len) != 0)
        return 0;
    here += len;
    return 1;
}

static inline uint32_t one_byte(const uint8_t *text, uint32_t *valid)
{
    uint16_t two;
    memcpy(&two, text, 2);
    *valid &= values[two];
    return values[two] & 0xFF;
}

static inline uint32_t three_bytes(const uint8_t *text, uint32_t *valid)
{
    return one_byte(text, valid) << 16 | one_byte(text + 2, valid) << 8 | one_byte(text + 4, valid);
}

/* Four bytes as they are in storage. */
static inline uint32_t four_bytes(const uint8_t *text, uint32_t *valid)
{
    return one_byte(text, valid) | one_byte(text + 2, valid) << 8 |
           one_byte(text + 4, valid) << 16 | one_byte(text + 6, valid) << 24;
}

static uint32_t decimal(const uint8_t *text, int len, uint32_t *valid)
{
    uint32_t value = 0;
    for (int i = 0; i < len; i++) {
        if (text[i] < '0' || text[i] > '9')
            *valid = 0;
        value = 10 * value + text[i] - '0';
    }
    return value;
}

static int read_extents(struct job *job)
{
    uint32_t begin[CYLINDERS] = {0}, end[CYLINDERS] = {0}, open = 0, valid = VALID;
    int has_some = 0;
    for (; has_next(15) && memcmp(here, "extent ", 7) == 0; here += 15) {
        uint32_t first = decimal(here + 7, 3, &valid), last = decimal(here + 11, 3, &valid);
        if (!valid || here[10] != ' ' || here[14] != '\n' || first > last || last >= CYLINDERS)
            return 0;
        begin[first]++, end[last]++, has_some = 1;
    }
    for (uint32_t cylinder = 0; cylinder < CYLINDERS; cylinder++) {
        open += begin[cylinder];
        if (open)
            hold(job, cylinder, cylinder);
        open -= end[cylinder];
    }
    return has_some;
}

static int read_areas(const char *keyword, struct areas *areas)
{
    uint32_t valid = VALID;
    size_t room = 0;
    for (; has_next(20) && memcmp(here, keyword, 6) == 0; here += 20) {
        if (areas->len == room) {
            room = 2 * room + 16;
            areas->at = or_end(realloc(areas->at, room * sizeof *areas->at));
        }
        uint32_t start = three_bytes(here + 6, &valid), len = three_bytes(here + 13, &valid);
        if (!valid || here[12] != ' ' || here[19] != '\n')
            return 0;
        areas->at[areas->len++] = (struct area){start, len};
    }
    return 1;
}

static int read_storage(struct job *job)
{
    uint32_t valid = VALID, least = 0;
    if (!skip("storage ") || !has_next(8) || (*here != '0' && *here != '1') || here[7] != '\n')
        return 0;
    job->length = (uint32_t)(*here - '0') << 24 | three_bytes(here + 1, &valid);
    here += 8;
    if (!valid || job->length % 8 != 0 || job->length > LARGEST_STORAGE)
        return 0;
    uint8_t *storage = or_end(calloc(job->length + 8, 1));
    job->storage = storage;
    for (; has_next(28) && memcmp(here, "put ", 4) == 0; here += 28) {
        uint32_t address = three_bytes(here + 4, &valid);
        uint32_t high = four_bytes(here + 11, &valid), low = four_bytes(here + 19, &valid);
        if (!valid || here[10] != ' ' || here[27] != '\n' || address % 8 != 0 ||
            address < least || address >= job->length || !(high | low))
            return 0;
        memcpy(storage + address, &high, 4), memcpy(storage + address + 4, &low, 4);
        least = address + 8;
    }
    return skip("end\n") && !has_next(1) && bytes_read <= LONGEST_DECK;
}

static int read_deck(struct job *job)
{
    uint32_t valid = VALID;
    int says_limit = skip("chanv deck 2\n");
    if (!says_limit && !skip("chanv deck 1\n"))
        return 0;
    job->heads = skip("device 2311\n") ? 10 : skip("device 2314\n") ? 20 : 0;
    if (!job->heads || !skip("mask ") || !has_next(3))
        return 0;
    job->mask = (uint8_t)one_byte(here, &valid), here += 2;
    if (!skip("\nstart ") || !has_next(7) || job->mask & OTHER_BITS)
        return 0;
    job->start = three_bytes(here, &valid), here += 6, job->limit = 4096;
    if (says_limit) {
        if (!skip("\nlimit ") || !has_next(6))
            return 0;
        job->limit = decimal(here, 5, &valid), here += 5;
        if (!job->limit || job->limit > MOST_PLACES)
            return 0;
    }
    if (!valid || !skip("\n") || !read_extents(job) || !read_areas("fetch ", &job->fetch) ||
        !read_areas("store ", &job->store) || !read_storage(job))
        return 0;
    merge(&job->fetch, job->length), merge(&job->store, job->length);
    return 1;
}

/* ---- listings */

static const char *const reasons[] = {
    "", "misaligned", "outside-storage", "transfer-not-allowed", "invalid-code", "bad-format",
    "zero-count", "data-outside", "not-in-table", "inhibited", "store-not-lent", "fetch-not-lent",
    "short-seek", "seek-outside", "changes-ccw", "changes-argument", "weakens-mask"};

static const char *const entries[] = {"fresh", "in", "out", "search"};

enum { LONGEST_ROW = 128, LONGEST_NAME = 4096 };

static char output[65536], *output_end = output;

static void flush(void)
{
    for (char *from = output; from < output_end;) {
        ssize_t len = write(1, from, (size_t)(output_end - from));
        if (len < 0)
            exit(NO_MEMORY);
        from += len;
    }
    output_end = output;
}

static void flush_unless_room(size_t len)
{
    if ((size_t)(output + sizeof output - output_end) < len)
        flush();
}

static inline char *byte_to(char *to, uint32_t byte)
{
    memcpy(to, &digits[byte & 0xFF], 2);
    return to + 2;
}

static inline char *address_to(char *to, uint32_t address)
{
    return byte_to(byte_to(byte_to(to, address >> 16), address >> 8), address);
}

static inline char *text_to(char *to, const char *text)
{
    size_t len = strlen(text);
    memcpy(to, text, len);
    return to + len;
}

static const char *group_of(uint8_t code)
{
    static const char *const groups[] = {"control ", "write ", "read ", "control "};
    switch (code & 0x0F) {
    case 0x0: return "invalid ";
    case 0x4: return "sense ";
    case 0x8: return "transfer ";
    case 0xC: return "read-backward ";
    default: return groups[code & 3];
    }
}

static char *ccw_to(char *to, uint64_t ccw, uint32_t entered)
{
    uint8_t code = code_of(ccw), flags = flags_of(ccw);
    const char *name = entered ? "chained" : commands[code].name;
    to = byte_to(to, code), *to++ = ' ';
    to = address_to(to, data_of(ccw)), *to++ = ' ';
    for (int i = 0; i < 5; i++)
        *to++ = flags << i & 0x80 ? "DCLSP"[i] : '-';
    *to++ = (char)('0' + (flags & ZERO_BITS)), *to++ = ' ';
    to = byte_to(to, (uint32_t)ccw >> 16), *to++ = ' ';
    to = byte_to(byte_to(to, count_of(ccw) >> 8), count_of(ccw)), *to++ = ' ';
    to = text_to(to, group_of(code));
    return text_to(to, is_transfer(ccw) ? "transfer-in-channel" : name ? name : "unknown");
}

static void write_row(const struct job *job, uint32_t place, int is_first)
{
    uint32_t address = address_of(place);
    flush_unless_room(LONGEST_ROW);
    char *to = output_end;
    if (address >= LARGEST_STORAGE)
        *to++ = '1';
    to = address_to(to, address), *to++ = ' ';
    to = text_to(to, entries[entered_of(place)]), *to++ = ' ';
    to = text_to(to, place & BY_TRANSFER ? "t " : "- ");
    to = text_to(to, is_first ? "* " : ". ");
    if (is_in_storage(job, address))
        to = ccw_to(to, ccw_at(job, address), entered_of(place));
    else
        to = text_to(to, "no-ccw");
    *to++ = '\n';
    output_end = to;
}

static void list(const struct job *job, const struct verdict *verdict)
{
    static struct area rows[MOST_PLACES];
    for (uint32_t i = 0; i < place_count; i++)
        rows[i].start = places[i];
    sort(rows, place_count);
    for (uint32_t i = 0; i < place_count; i++) {
        int is_first = verdict->reason && address_of(rows[i].start) == verdict->address;
        write_row(job, rows[i].start, is_first);
    }
}

/* ---- the program */

/* Counts the doublewords that may be an operation: the code of a command, and 0 in byte 5. */
static int scan(const char *name)
{
    uint8_t *image = or_end(malloc(LARGEST_STORAGE));
    size_t len = 0, likely = 0;
    ssize_t got;
    file = open(name, O_RDONLY);
    while ((got = read(file, image + len, LARGEST_STORAGE - len)) > 0)
        len += (size_t)got;
    for (size_t i = 0; i + 8 <= len; i += 8)
        likely += (commands[image[i]].class != UNKNOWN) & !image[i + 5];
    printf("%zu of %zu\n", likely, len / 8);
    return 0;
}

/* The status of one deck. */
static enum answer answer_on(const char *name, int is_listing)
{
    struct job job = {0};
    struct verdict verdict;
    file = name ? open(name, O_RDONLY) : 0;
    if (file < 0) {
        perror(name);
        return NO_MEMORY;
    }
    here = stop = chunk, is_at_end = 0, bytes_read = 0;
    enum answer answer = TOO_MANY_PLACES;
    if (!read_deck(&job))
        fprintf(stderr, "%s: not a deck\n", name ? name : "-");
    else if ((answer = judge(&job, &verdict)) == TOO_MANY_PLACES)
        fprintf(stderr, "%s: too many places\n", name ? name : "-");
    if (answer <= NO) {
        flush_unless_room(LONGEST_NAME + LONGEST_ROW);
        if (name)
            output_end += sprintf(output_end, is_listing ? "%s:\n" : "%s: ", name);
        if (is_listing)
            list(&job, &verdict);
        flush_unless_room(LONGEST_ROW);
        if (answer == YES)
            output_end = text_to(output_end, "yes\n");
        else
            output_end += sprintf(output_end, "no %06X %s\n", verdict.address,
                                  reasons[verdict.reason]);
    }
    clean(&job);
    free((void *)job.storage), free(job.fetch.at), free(job.store.at);
    if (name)
        close(file);
    return answer;
}

int main(int argc, char **argv)
{
    for (uint32_t byte = 0; byte < 256; byte++) {
        const char *hex = "0123456789ABCDEF";
        digits[byte] = (uint16_t)(hex[byte >> 4] | hex[byte & 15] << 8);
        values[digits[byte]] = (uint16_t)(VALID | byte);
    }
    if (argc == 3 && strcmp(argv[1], "scan") == 0)
        return scan(argv[2]);
    int is_listing = argc > 1 && strcmp(argv[1], "list") == 0;
    enum answer worst = argc > 2 ? YES : answer_on(NULL, is_listing);
    for (int i = 2; i < argc; i++) {
        enum answer answer = answer_on(argv[i], is_listing);
        worst = answer > worst ? answer : worst;
    }
    flush();
    return (int)worst;
}

#endif
