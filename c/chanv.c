/* The part of the library that isn't proved: words, and the call that takes a program in. That call
 * rests on a proved one, to which it lends memory for a copy of storage and for the lists, and lays
 * what is listed into one piece of the caller's memory. */
#include <chanv.h>
#include <stdlib.h>
#include <string.h>

/* ---- words */

static const char *word_of(const char *const *words, size_t count, uint32_t number)
{
    return number < count && words[number] != NULL ? words[number] : "";
}

#define WORD_OF(words, number) word_of(words, sizeof(words) / sizeof *(words), number)

const char *chanv_reason_word(uint32_t reason)
{
    static const char *const words[] = {
        [CHANV_REASON_MISALIGNED] = "misaligned",
        [CHANV_REASON_OUTSIDE_STORAGE] = "outside-storage",
        [CHANV_REASON_TRANSFER_NOT_ALLOWED] = "transfer-not-allowed",
        [CHANV_REASON_INVALID_CODE] = "invalid-code",
        [CHANV_REASON_BAD_FORMAT] = "bad-format",
        [CHANV_REASON_ZERO_COUNT] = "zero-count",
        [CHANV_REASON_DATA_OUTSIDE] = "data-outside",
        [CHANV_REASON_NOT_IN_TABLE] = "not-in-table",
        [CHANV_REASON_INHIBITED] = "inhibited",
        [CHANV_REASON_STORE_NOT_LENT] = "store-not-lent",
        [CHANV_REASON_FETCH_NOT_LENT] = "fetch-not-lent",
        [CHANV_REASON_SHORT_SEEK] = "short-seek",
        [CHANV_REASON_SEEK_OUTSIDE] = "seek-outside",
        [CHANV_REASON_CHANGES_CCW] = "changes-ccw",
        [CHANV_REASON_CHANGES_ARGUMENT] = "changes-argument",
        [CHANV_REASON_WEAKENS_MASK] = "weakens-mask",
    };
    return WORD_OF(words, reason);
}

const char *chanv_answer_word(uint32_t answer)
{
    static const char *const words[] = {
        [CHANV_YES] = "yes",
        [CHANV_NO] = "no",
        [CHANV_TOO_MANY_PLACES] = "too-many-places",
        [CHANV_MEMORY] = "out-of-memory",
        [CHANV_STORAGE_TOO_LARGE] = "storage-too-large",
        [CHANV_NOT_A_DEVICE] = "not-a-device",
        [CHANV_NOT_A_MASK] = "not-a-mask",
        [CHANV_NO_EXTENT] = "no-extent",
        [CHANV_EXTENT_BACKWARDS] = "extent-backwards",
        [CHANV_EXTENT_PAST_DEVICE] = "extent-past-device",
        [CHANV_NOT_A_LIMIT] = "not-a-limit",
        [CHANV_NO_ROOM] = "no-room",
        [CHANV_CHANGED_MEANWHILE] = "changed-meanwhile",
    };
    return WORD_OF(words, answer);
}

const char *chanv_refusal_word(uint32_t code)
{
    static const char *const words[] = {
        [CHANV_REFUSED_OTHER_START] = "other-start",
        [CHANV_REFUSED_OTHER_DEVICE] = "other-device",
        [CHANV_REFUSED_OTHER_LENGTH] = "other-length",
        [CHANV_REFUSED_CHANGED] = "changed",
        [CHANV_REFUSED_MASK] = "mask",
        [CHANV_REFUSED_NO_CYLINDER] = "no-cylinder",
        [CHANV_REFUSED_NOT_FETCHABLE] = "not-fetchable",
        [CHANV_REFUSED_NOT_STORABLE] = "not-storable",
        [CHANV_REFUSED_STORES_OVER_KEPT] = "stores-over-kept",
        [CHANV_REFUSED_KEEPS_STORED_OVER] = "keeps-stored-over",
        [CHANV_REFUSED_WRITES_OVER_KEPT] = "writes-over-kept",
        [CHANV_REFUSED_KEEPS_OUTSIDE] = "keeps-outside",
        [CHANV_REFUSED_MAY_HANG] = "may-hang",
        [CHANV_REFUSED_INTERRUPTS] = "interrupts",
        [CHANV_REFUSED_ENDS_CHAINING] = "ends-chaining",
    };
    return WORD_OF(words, code);
}

const char *chanv_entered_word(uint32_t entered)
{
    static const char *const words[] = {
        [CHANV_ENTERED_FRESH] = "fresh",
        [CHANV_ENTERED_CHAIN_IN] = "in",
        [CHANV_ENTERED_CHAIN_OUT] = "out",
        [CHANV_ENTERED_CHAIN_SEARCH] = "search",
    };
    return WORD_OF(words, entered);
}

/* ---- taking a program in */

/* What the proved call says: what is told, and how long each list is. */
struct needed {
    struct chanv_intake intake;
    size_t extent_count, fetch_count, store_count, keep_count, kept_len;
    uint32_t storage_len;
    uint8_t mask;
};

/* The proved call: it writes to the copy only what the program keeps, and judges the copy. What the
 * job grants doesn't matter. */
enum chanv_answer needs_by_copy(const struct chanv_job *job, const struct chanv_area *own,
                                size_t own_count, uint32_t allowed, uint8_t *copy,
                                size_t copy_len, struct needed *out,
                                struct chanv_extent *extents, size_t extents_room,
                                struct chanv_area *fetch, size_t fetch_room,
                                struct chanv_area *store, size_t store_room,
                                struct chanv_area *keep, size_t keep_room, uint8_t *kept,
                                size_t kept_room);

enum { LARGEST_STORAGE = 16777216 };

/* Where each list begins, in bytes from the front of the memory: areas, which are aligned most,
 * then extents, then the kept bytes. */
struct layout {
    size_t fetch, store, keep, extents, kept, end;
};

static struct layout layout_of(size_t front, const struct needed *counts)
{
    struct layout at;
    at.fetch = front;
    at.store = at.fetch + counts->fetch_count * sizeof(struct chanv_area);
    at.keep = at.store + counts->store_count * sizeof(struct chanv_area);
    at.extents = at.keep + counts->keep_count * sizeof(struct chanv_area);
    at.kept = at.extents + counts->extent_count * sizeof(struct chanv_extent);
    at.end = at.kept + counts->kept_len;
    return at;
}

/* Room that most programs need no more than: a place fetches or stores one area, keeps its CCW and
 * at most six bytes of an argument, and seeks one cylinder. */
enum { FEW_PLACES = 256 };
static const struct needed usual_rooms = {
    .extent_count = 102,
    .fetch_count = FEW_PLACES,
    .store_count = FEW_PLACES,
    .keep_count = 2 * FEW_PLACES,
    .kept_len = 14 * FEW_PLACES,
};

/* Fills a program of zeros field by field, so that the bytes between its fields stay 0. */
static void remember(struct chanv_program *program, const uint8_t *memory, const struct layout *at,
                     const struct chanv_source *source, const struct needed *needed)
{
    struct chanv_rows *rows = &program->rows;
    rows->extents.at = (const void *)(memory + at->extents);
    rows->extents.len = needed->extent_count;
    rows->fetch.at = (const void *)(memory + at->fetch);
    rows->fetch.len = needed->fetch_count;
    rows->store.at = (const void *)(memory + at->store);
    rows->store.len = needed->store_count;
    rows->keep.at = (const void *)(memory + at->keep);
    rows->keep.len = needed->keep_count;
    rows->storage_len = needed->storage_len;
    rows->mask = needed->mask;
    program->kept.at = memory + at->kept;
    program->kept.len = needed->kept_len;
    program->start = source->start;
    program->device = source->device;
}

/* Moves the lists from the room in which they were made to the caller's memory, without gaps. */
static void move_lists(uint8_t *to, const struct layout *at, const uint8_t *from,
                       const struct layout *made)
{
    memcpy(to + at->fetch, from + made->fetch, at->store - at->fetch);
    memcpy(to + at->store, from + made->store, at->keep - at->store);
    memcpy(to + at->keep, from + made->keep, at->extents - at->keep);
    memcpy(to + at->extents, from + made->extents, at->kept - at->extents);
    memcpy(to + at->kept, from + made->kept, at->end - at->kept);
}

/* The copy is as long as storage, unless storage is so long that nobody copies it. */
static size_t copy_len_of(const struct chanv_source *source)
{
    return source->storage.len <= LARGEST_STORAGE ? source->storage.len : 0;
}

/* Memory for lists with these rooms and then for the copy, or NULL. What it holds doesn't matter, so
 * it isn't zeroed, and only the few pages that are written cost anything. */
static uint8_t *lend(const struct needed *rooms, const struct chanv_source *source)
{
    return malloc(layout_of(0, rooms).end + copy_len_of(source));
}

/* Asks the proved call, in lent memory. If there is none, the copy has no bytes, and the call
 * returns CHANV_MEMORY, unless the source has a fault that comes first. */
static enum chanv_answer ask_into(uint8_t *lent, const struct needed *rooms,
                                  const struct chanv_source *source, const struct chanv_areas *own,
                                  uint32_t allowed, struct needed *needed)
{
    static const struct chanv_extent all = CHANV_ALL_CYLINDERS;
    static const struct needed no_rooms;
    static uint32_t none;
    struct chanv_job job = {
        .storage = source->storage,
        .extents = {&all, 1},
        .start = source->start,
        .limit = source->limit,
        .device = source->device,
    };
    if (lent == NULL)
        rooms = &no_rooms;
    size_t copy_len = lent != NULL ? copy_len_of(source) : 0;
    uint8_t *to = lent != NULL ? lent : (uint8_t *)&none;
    struct layout at = layout_of(0, rooms);
    return needs_by_copy(&job, own->at, own->len, allowed, to + at.end, copy_len, needed,
                         (void *)(to + at.extents), rooms->extent_count, (void *)(to + at.fetch),
                         rooms->fetch_count, (void *)(to + at.store), rooms->store_count,
                         (void *)(to + at.keep), rooms->keep_count, to + at.kept,
                         rooms->kept_len);
}

/* How many bytes may be left free at the front of the caller's memory, to align areas. */
enum { MOST_PADDING = sizeof(uint32_t) - 1 };

/* Hands the lists over in the caller's memory. A program takes as many bytes at each address: all
 * padding is counted, though less may be used. */
static enum chanv_answer hand_over(const struct chanv_source *source, const struct needed *needed,
                                   const uint8_t *lent, const struct needed *rooms, uint8_t *memory,
                                   size_t room, size_t *len, struct chanv_program *program)
{
    size_t front = -(uintptr_t)memory % sizeof(uint32_t);
    struct layout at = layout_of(front, needed), made = layout_of(0, rooms);
    *len = at.end - front + MOST_PADDING;
    if (*len > room)
        return CHANV_NO_ROOM;
    move_lists(memory, &at, lent, &made);
    remember(program, memory, &at, source, needed);
    return CHANV_OK;
}

/* A program with longer lists than usual is asked about again, with the room that they need; if it
 * then needs more, storage changed between. */
enum chanv_answer (chanv_take_in)(const struct chanv_source *source, const struct chanv_areas *own,
                                  uint32_t allowed, void *memory, size_t room, size_t *len,
                                  struct chanv_program *program, struct chanv_intake *out)
{
    struct needed needed, rooms = usual_rooms;
    size_t count = 0;
    uint8_t *lent = lend(&rooms, source);
    enum chanv_answer answer = ask_into(lent, &rooms, source, own, allowed, &needed);
    if (answer == CHANV_NO_ROOM) {
        free(lent);
        rooms = needed;
        lent = lend(&rooms, source);
        answer = ask_into(lent, &rooms, source, own, allowed, &needed);
    }
    memset(program, 0, sizeof *program);
    if (answer == CHANV_NO_ROOM) {
        needed.intake = (struct chanv_intake){.refusal.row = CHANV_NOBODY};
        answer = CHANV_CHANGED_MEANWHILE;
    }
    if (answer == CHANV_OK)
        answer = hand_over(source, &needed, lent, &rooms, memory, room, &count, program);
    free(lent);
    if (len != NULL)
        *len = count;
    if (out != NULL)
        *out = needed.intake;
    return answer;
}
