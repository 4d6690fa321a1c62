/* chanv.h: may a System/360 channel program run, why not, which CCWs can it reach, and what must a
 * job grant it?
 *
 * Link with -lchanv. docs/EMBEDDING.md shows an example, and says what is proved, what is trusted,
 * and what isn't covered. docs/SUPERVISOR.md lists the duties of a supervisor with several programs
 * in flight.
 *
 * Rules for the caller:
 *
 * - Each pointer is valid, and aligned for its type, for as many elements as its length says. If
 *   the length is 0, the pointer may be NULL. A pointer without a length may be NULL only where a
 *   call says so. The memory for `chanv_take_in` may have any alignment.
 * - The memory that a call writes lies apart from the job or source, from the table and the programs,
 *   and from everything that these point to. No two lists that a call writes share a byte.
 * - From the call to its return, nothing else writes the job or source, the table, or the lists and
 *   the kept bytes that these point to, and nothing else touches the memory that the call writes.
 * - Storage is another matter, because channels in flight store into it at any time:
 *   - During `chanv_take_in` anything may write storage. CHANV_OK is about a private copy of the
 *     kept bytes: what the call judges is what the copy holds. If storage changed too much for
 *     that, the call returns CHANV_CHANGED_MEANWHILE: ask again, but not without end, and then
 *     refuse the program. Only CHANV_OK allows anything.
 *   - From the beginning of `chanv_check_start` until the program has left, only programs that are
 *     in the table throughout write its kept bytes, and others only after CHANV_YES from
 *     `chanv_check_write`, asked with the program in the table. All other bytes may change at any
 *     time.
 *   - `chanv_check_write` and `chanv_make_prefix` don't read storage.
 *   - During `chanv_verify`, `chanv_why`, `chanv_list`, `chanv_find` and the calls for texts
 *     nothing may write storage: ask about quiet storage, or about a copy. Otherwise the answer
 *     means nothing. The call still returns with one of its codes and writes nothing else; this is
 *     tested, not proved.
 * - No call is made from a signal handler, nor, in the child of a process with threads, between
 *   fork and exec.
 * - malloc, realloc and free are those of one allocator, and aligned as C asks.
 *
 * A program that runs alone needs one call, `chanv_verify`. A supervisor with several programs in
 * flight takes each program in by `chanv_take_in`, which says what the program's user owns and what
 * the program may do, and asks `chanv_check_start` before each start, and `chanv_check_write` before
 * others write that storage, each time about the whole table:
 *
 *     if (chanv_check_start(&job, table, ROWS, &program, &refusal) == CHANV_YES)
 *         table[unit] = (struct chanv_row){.program = program}; // and then start it
 *
 * Then all programs in flight are safe at every moment. This is proved under premises that no call
 * checks (docs/THEOREM.md; docs/SUPERVISOR.md says how to meet them):
 *
 * 1. The job is true: its bytes are main storage from address 0 on, its device is the device used,
 *    and the program starts at the job's start. Channel and device make only the steps of the
 *    machine. After a machine check or a channel control check nothing is promised.
 * 2. When the channel comes to the job's start, the arm is inside the job's extents, and the job's
 *    file mask is in force. A mask lasts for one chain, and each chain begins with mask 00.
 * 3. Each program in flight has a unit of its own, that is, an arm that nobody else moves. It
 *    leaves the table of programs in flight only after the channel's last store for it is visible.
 * 4. Each program in the table, and the program about to start, is what `chanv_take_in` gave with
 *    `CHANV_OK`, and neither its lists nor its kept bytes have changed. A row with a program has no
 *    areas of its own.
 * 5. From a question to the start, or to the end of the write, no other program starts, and nothing
 *    else writes a byte that a program in the table or the program about to start keeps.
 * 6. Others write only after a yes of `chanv_check_write`, and the machine's own stores (of PSWs,
 *    the CSW and the timer) spare every byte that a program in flight keeps.
 *
 * For 5 hold one lock over the question, the table, and the start or the write. A write that lasts,
 * such as a tape's input into a buffer, has a row in the table, whose `stores` is the area. Enter it
 * after CHANV_YES from `chanv_check_write`, and take it out after the last byte is written.
 * Meanwhile no program that keeps a byte of the area gets CHANV_YES, so others may write into the
 * area all the time. A row's `keeps` guards bytes that are no program's, such as a prefix of the
 * supervisor's own: while it is in the table, no program that may store over them gets CHANV_YES.
 *
 * A call writes only the memory that it was handed for that. It keeps nothing after it returns, so
 * several threads may call at once, even about one job.
 */
#ifndef CHANV_H
#define CHANV_H

#include <stddef.h>
#include <stdint.h>

#ifdef __cplusplus
extern "C" {
#endif

/* The version of this header: as text, number by number, and as one number, 65,536 times the first
 * number plus 256 times the second plus the third. `chanv_version` gives the library's number, to
 * which the library that plain rustc builds adds CHANV_NOT_PROVED. */
#define CHANV_VERSION "1.0.0"
#define CHANV_VERSION_MAJOR 1
#define CHANV_VERSION_MINOR 0
#define CHANV_VERSION_PATCH 0
#define CHANV_VERSION_NUMBER \
    (65536 * CHANV_VERSION_MAJOR + 256 * CHANV_VERSION_MINOR + CHANV_VERSION_PATCH)
#define CHANV_NOT_PROVED 0x80000000u

/* A compiler that knows the attributes warns if the caller ignores an answer, or passes NULL for
 * one of the pointers with these numbers, counted from 1; and if it sees that fewer items are at a
 * pointer than a call reads or has room to write, by the numbers of the pointer and of the count. */
#ifdef __GNUC__
#define CHANV_MUST_USE __attribute__((warn_unused_result))
#define CHANV_NOT_NULL(...) __attribute__((nonnull(__VA_ARGS__)))
#else
#define CHANV_MUST_USE
#define CHANV_NOT_NULL(...)
#endif
#if defined __GNUC__ && !defined __clang__ && __GNUC__ >= 11
#define CHANV_READS(items, count) __attribute__((access(read_only, items, count)))
#define CHANV_WRITES(items, count) __attribute__((access(write_only, items, count)))
#else
#define CHANV_READS(items, count)
#define CHANV_WRITES(items, count)
#endif

/* An area of storage. It may be empty, and it may reach past storage. */
struct chanv_area {
    uint32_t start; /* the address of its first byte */
    uint32_t len;   /* how many bytes it has */
};

/* Cylinders of the file, from `first` to `last`. */
struct chanv_extent {
    uint16_t first;
    uint16_t last;
};

struct chanv_bytes {
    const uint8_t *at;
    size_t len;
};

struct chanv_extents {
    const struct chanv_extent *at;
    size_t len;
};

struct chanv_areas {
    const struct chanv_area *at;
    size_t len;
};

/* A channel program, as a user hands it in. */
struct chanv_source {
    struct chanv_bytes storage; /* main storage from address 0 on */
    uint32_t start;             /* the address of the first CCW */
    uint32_t limit;             /* how many places may be reachable, 1 to 65,536 */
    uint16_t device;            /* the type of the device, 2311 or 2314 */
};

/* A channel program before its start, and everything that it may use. */
struct chanv_job {
    struct chanv_bytes storage;   /* main storage from address 0 on, as it is now */
    struct chanv_extents extents; /* the cylinders of the file; one extent or more */
    struct chanv_areas fetch;     /* lent for fetching, from storage to the device */
    struct chanv_areas store;     /* lent for storing, from the device into storage */
    uint32_t start;               /* the address of the first CCW */
    uint32_t limit;               /* how many places may be reachable, 1 to 65,536 */
    uint16_t device;              /* the type of the device, 2311 or 2314 */
    uint8_t mask;                 /* the file mask that is in force at the start */
};

/* What the open job of a program grants: everything. The first two are for initializers. */
#define CHANV_ALL_CYLINDERS {0, 202}
#define CHANV_ALL_STORAGE {0, 16777216}
#define CHANV_OPEN_MASK 0xC0

/* The usual limit; and the largest, for who would rather wait than refuse a program. */
enum chanv_limit { CHANV_USUAL_LIMIT = 4096, CHANV_LARGEST_LIMIT = 65536 };

/* What a program may be allowed: a sum of these. Bits that aren't named here allow nothing. */
enum chanv_allowed {
    CHANV_ALLOW_NOTHING = 0,
    CHANV_ALLOW_HANGING = 1,      /* it may go on until it is halted */
    CHANV_ALLOW_INTERRUPTING = 2, /* it may ask for program-controlled interruptions */
    CHANV_ALLOW_ENDING_CHAINS = 4 /* it may end at a No Operation or Recalibrate with chain data on,
                                     where an emulator may go on */
};

/* What a call returns. 4 to 10 are faults of the job or source itself: with a fault there is no
 * answer, and of several faults the call returns the least. CHANV_MEMORY may come in place of any
 * other code except 4 to 7, because a call looks for these faults before it takes memory. Keep an
 * answer in a variable of this type: then GCC warns (-Wenum-compare) if you compare it with a
 * reason or a refusal. */
enum chanv_answer {
    CHANV_YES = 0,                /* every run is safe; it may start; others may write */
    CHANV_OK = CHANV_YES,         /* all that you asked for is written */
    CHANV_NO = 1,                 /* `out` says why not */
    CHANV_TOO_MANY_PLACES = 2,    /* more places are reachable than the limit */
    CHANV_MEMORY = 3,             /* memory ran out */
    CHANV_STORAGE_TOO_LARGE = 4,  /* storage has more than 16,777,216 bytes */
    CHANV_NOT_A_DEVICE = 5,       /* the type of device is neither 2311 nor 2314 */
    CHANV_NOT_A_MASK = 6,         /* a bit of the mask outside C0 and 18 is on */
    CHANV_NO_EXTENT = 7,          /* there is no extent */
    CHANV_EXTENT_BACKWARDS = 8,   /* the first wrong extent has its first cylinder above its last */
    CHANV_EXTENT_PAST_DEVICE = 9, /* the first wrong extent has its last cylinder above 202 */
    CHANV_NOT_A_LIMIT = 10,       /* the limit is 0, or above 65,536 */
    CHANV_NO_ROOM = 11,           /* there is more to write than room; from `chanv_why`: a no too */
    CHANV_CHANGED_MEANWHILE = 12  /* storage changed during the call: ask again */
};

/* The reasons of a no. */
enum chanv_reason {
    CHANV_REASON_MISALIGNED = 1,
    CHANV_REASON_OUTSIDE_STORAGE = 2,
    CHANV_REASON_TRANSFER_NOT_ALLOWED = 3,
    CHANV_REASON_INVALID_CODE = 4,
    CHANV_REASON_BAD_FORMAT = 5,
    CHANV_REASON_ZERO_COUNT = 6,
    CHANV_REASON_DATA_OUTSIDE = 7,
    CHANV_REASON_NOT_IN_TABLE = 8,
    CHANV_REASON_INHIBITED = 9,
    CHANV_REASON_STORE_NOT_LENT = 10,
    CHANV_REASON_FETCH_NOT_LENT = 11,
    CHANV_REASON_SHORT_SEEK = 12,
    CHANV_REASON_SEEK_OUTSIDE = 13,
    CHANV_REASON_CHANGES_CCW = 14,
    CHANV_REASON_CHANGES_ARGUMENT = 15,
    CHANV_REASON_WEAKENS_MASK = 16
};

/* The verdict, written by `chanv_verify` and as a part of other answers; unused fields are 0. */
struct chanv_verdict {
    size_t extent;    /* the index of the first wrong extent, counted from 0 */
    uint32_t address; /* the address of the first offending CCW */
    uint32_t reason;  /* the number of its reason, an `enum chanv_reason` */
};

/* How the program enters a CCW: a new operation begins, or a data chain continues an operation that
 * stores, fetches or searches. */
enum chanv_entered {
    CHANV_ENTERED_FRESH = 0,
    CHANV_ENTERED_CHAIN_IN = 1,
    CHANV_ENTERED_CHAIN_OUT = 2,
    CHANV_ENTERED_CHAIN_SEARCH = 3
};

/* A place that the program can reach: a CCW, and how the program enters it. */
struct chanv_place {
    uint32_t address;       /* the address of the CCW */
    uint8_t entered;        /* how the program enters it, an `enum chanv_entered` */
    uint8_t after_transfer; /* 1 if it counts as reached by a transfer in channel, else 0 */
    uint16_t unused;        /* 0, so that places with the same fields are the same bytes */
};

/* The first part of a seek's argument that the job doesn't allow. */
enum chanv_part { CHANV_PART_BIN = 1, CHANV_PART_CYLINDER = 2, CHANV_PART_HEAD = 3 };

/* The values of the cause of a no, at the last place of the path. The reason decides which fields
 * are set; all others are 0.
 *
 *     1  misaligned            address
 *     2  outside-storage       range, storage_len
 *     3  transfer-not-allowed
 *     4  invalid-code          code
 *     5  bad-format            bits
 *     6  zero-count
 *     7  data-outside          range, storage_len
 *     8  not-in-table          code
 *     9  inhibited             code, mask
 *    10  store-not-lent        range, gap
 *    11  fetch-not-lent        range, gap
 *    12  short-seek            given, addresses, bytes
 *    13  seek-outside          outside, value; below for a head; and given, addresses and bytes
 *                              for a seek
 *    14  changes-ccw           range, address
 *    15  changes-argument      range, address, taker; sets_mask for a Set File Mask, and given,
 *                              addresses and bytes for a seek
 *    16  weakens-mask          mask, value
 */
struct chanv_evidence {
    uint32_t reason;         /* the number of the reason, an `enum chanv_reason` */
    struct chanv_area range; /* the data range of the CCW; for 2 the CCW's own eight bytes */
    struct chanv_area gap;   /* the first run of bytes of the range that no area lends */
    uint32_t address;        /* for 1 the CCW's address; for 14 the least address of a reachable CCW
                                that has a byte in the range; for 15 the least address in the range
                                of a byte of a seek's argument or of a mask byte */
    uint32_t taker;          /* the address of the CCW that takes the byte at `address` */
    uint32_t storage_len;    /* how many bytes storage has */
    uint32_t code;           /* the command code */
    uint32_t bits;           /* the three low flag bits of the CCW */
    uint32_t given;          /* how many of the argument's six bytes the seek's data chain gives;
                                for 15 of the seek at `taker` */
    uint32_t outside;        /* the first wrong part, an `enum chanv_part` */
    uint32_t value;          /* for 13 that bin, cylinder or head; for 16 the byte that is set */
    uint32_t below;          /* how many heads the device has */
    uint32_t sets_mask;      /* 1 if the taker is a Set File Mask, 0 if it is a seek */
    uint32_t addresses[6];   /* the addresses of the bytes that are given, in order, then zeros */
    uint8_t bytes[6];        /* the bytes at these addresses, then zeros */
    uint8_t mask;            /* the job's file mask */
    uint8_t unused;          /* 0, so that causes with the same fields are the same bytes */
};

/* The answer of `chanv_why`; unused fields are 0. */
struct chanv_explanation {
    struct chanv_verdict verdict;
    size_t path_count;        /* how many places the path has */
    size_t second_path_count; /* how many places the second path has; often 0 */
    struct chanv_evidence evidence;
    uint32_t unused; /* 0, for the same reason */
};

/* What a program needs of each job, and what it keeps. Each list rises, no row is empty, and
 * between two rows there is a gap. A job of the program gets CHANV_YES exactly if it grants all
 * this, unless more places are reachable than its limit. */
struct chanv_rows {
    struct chanv_extents extents; /* the cylinders that seeks go to */
    struct chanv_areas fetch;     /* the bytes that are fetched */
    struct chanv_areas store;     /* the bytes that are stored into */
    struct chanv_areas keep;      /* the bytes of CCWs, seek arguments and masks that are set */
    uint32_t storage_len;         /* how many bytes storage has */
    uint8_t mask;                 /* the strictest file mask that serves: it inhibits no command
                                     that may begin, and no byte that is set as a mask is weaker */
};

/* All that a supervisor remembers of a program; `chanv_take_in` fills it. A struct of zeros is no
 * program, and may not start. If you fill the struct with anything else, each call still returns,
 * and reads and writes only within its lists; but a CHANV_YES means only what the call compares. */
struct chanv_program {
    struct chanv_rows rows;  /* what it needs and keeps */
    struct chanv_bytes kept; /* the kept bytes as they were, area after area of `rows.keep`; bytes
                                after them don't matter */
    uint32_t start;          /* the address of the first CCW */
    uint16_t device;         /* the type of the device, 2311 or 2314 */
};

/* A row of the table of what is in flight: a program, with empty areas; or areas, with a program of
 * zeros. It points at nothing but the memory of a program that was taken in. A row of zeros stops
 * nothing, so a table with a row for each unit may have gaps. */
struct chanv_row {
    struct chanv_program program; /* the program in flight */
    struct chanv_area stores;     /* others store into this area at any time */
    struct chanv_area keeps;      /* nothing may store into this area */
};

/* Why a program may not start, others may not write, or a program isn't taken in though some job
 * will do. `chanv_check_start` looks for 1 to 10 in order; for 9 and 10 it goes through the table,
 * and looks for 9 and then for 10 at each row. `chanv_take_in` looks for 12 to 15 in order. */
enum chanv_refused {
    CHANV_REFUSED_OTHER_START = 1,        /* the job starts at another address */
    CHANV_REFUSED_OTHER_DEVICE = 2,       /* the job is for another type of device */
    CHANV_REFUSED_OTHER_LENGTH = 3,       /* the job's storage has another length */
    CHANV_REFUSED_CHANGED = 4,            /* `value`: the first kept byte that has changed, lies
                                             past storage or is missing from `kept` */
    CHANV_REFUSED_MASK = 5,               /* the job's mask is too strict, or the program's is
                                             invalid */
    CHANV_REFUSED_NO_CYLINDER = 6,        /* `value`: the least needed cylinder not granted */
    CHANV_REFUSED_NOT_FETCHABLE = 7,      /* `value`: the least byte needed for fetching that isn't
                                             lent or lies past storage */
    CHANV_REFUSED_NOT_STORABLE = 8,       /* `value`: the least byte needed for storing that isn't
                                             lent or lies past storage */
    CHANV_REFUSED_STORES_OVER_KEPT = 9,   /* it may store over the byte at `value`, which the row
                                             keeps */
    CHANV_REFUSED_KEEPS_STORED_OVER = 10, /* it keeps the byte at `value`, which the row may store
                                             over */
    CHANV_REFUSED_WRITES_OVER_KEPT = 11,  /* the row keeps the byte at `value` */
    CHANV_REFUSED_KEEPS_OUTSIDE = 12,     /* `value`: the least byte that it keeps and that its user
                                             doesn't own */
    CHANV_REFUSED_MAY_HANG = 13,          /* from the CCW at `value` on only an error, an end of
                                             file, an incorrect length or a halt ends it */
    CHANV_REFUSED_INTERRUPTS = 14,        /* the CCW at `value` asks for an interruption */
    CHANV_REFUSED_ENDS_CHAINING = 15      /* it ends at the No Operation or Recalibrate at `value`,
                                             which has chain data on */
};

/* The index of no row: a row of the table that has it would lie past all memory. */
#define CHANV_NOBODY SIZE_MAX

/* A refusal of `chanv_check_start` or `chanv_check_write`, or a part of an intake; unused fields are
 * 0, but `row` is then CHANV_NOBODY. */
struct chanv_refusal {
    size_t extent;  /* the index of the job's first wrong extent */
    size_t row;     /* the index of the first row of the table that is in the way */
    uint32_t code;  /* the refusal, an `enum chanv_refused` */
    uint32_t value; /* the address or the cylinder */
};

/* What `chanv_take_in` says of a program; unused fields are 0, but `refusal.row` is then
 * CHANV_NOBODY. */
struct chanv_intake {
    struct chanv_verdict verdict; /* the no if no job will do */
    struct chanv_refusal refusal; /* what isn't allowed, if some job will do */
    uint32_t hangs_at;         /* the least address of a CCW from which on only an error, an end of
                                  file, an incorrect length or a halt ends the program */
    uint32_t interrupts_at;    /* the least address of a CCW that asks for a program-controlled
                                  interruption */
    uint32_t ends_chaining_at; /* the least address of a No Operation or Recalibrate with chain data
                                  on: the program ends there, but an emulator may go on */
    uint8_t may_hang;          /* 1 if there is a CCW for `hangs_at`, else 0 */
    uint8_t interrupts;        /* 1 if there is a CCW for `interrupts_at`, else 0 */
    uint8_t ends_chaining;     /* 1 if there is a CCW for `ends_chaining_at`, else 0 */
    uint8_t hangs_entered;     /* how the program enters the CCW at `hangs_at`, an
                                  `enum chanv_entered`; entered otherwise, it may lead to an end */
};

/* May the program run? CHANV_YES, CHANV_NO, or why there is no answer. A yes has premises 1 and 2
 * above, and holds as long as storage has this length and the kept bytes don't change. */
CHANV_MUST_USE CHANV_NOT_NULL(1, 2)
enum chanv_answer chanv_verify(const struct chanv_job *job, struct chanv_verdict *out);

/* Which places can the program reach? Each is listed once, by address, then by `entered`, then by
 * `after_transfer`. There are never more places than the job's limit.
 *
 * CHANV_OK: the first `*count` rows are written; the other rows keep their values.
 * CHANV_NO_ROOM: `*count` is how many rows there would be.
 * Otherwise the call returns why there is no answer, and `*count` is 0. `*extent` is the index of
 * the first wrong extent, or 0. A row is written only for CHANV_OK. */
CHANV_MUST_USE CHANV_NOT_NULL(1, 4, 5) CHANV_WRITES(2, 3)
enum chanv_answer chanv_list(const struct chanv_job *job, struct chanv_place *rows, size_t room,
                             size_t *count, size_t *extent);

/* Why may the program not run? Pass room 0 to skip a path.
 *
 * CHANV_NO: `out` has the verdict, the values of the cause and the lengths of both paths. The paths
 * are the first rows of `path` and of `second_path`; the other rows keep their values.
 * CHANV_NO_ROOM: the answer is no, and `out` has all of that, but a path that you didn't skip has
 * more places than rows.
 * CHANV_YES: there is nothing to explain.
 * Otherwise the call returns why there is no answer, like `chanv_verify`, with the first wrong
 * extent if there is one. A row is written only for CHANV_NO.
 *
 * The path leads from the first place to a place with the verdict's address that offends by the
 * verdict's reason. It is the shortest path; of several it is the path that goes on to the next
 * CCW, not to the CCW after a skip. The second path, chosen in the same way, leads to the bytes
 * that are changed: for 14 to the CCW at `out->evidence.address`, for 15 to the CCW at
 * `out->evidence.taker`. For any other reason it has no places. */
CHANV_MUST_USE CHANV_NOT_NULL(1, 6) CHANV_WRITES(2, 3) CHANV_WRITES(4, 5)
enum chanv_answer chanv_why(const struct chanv_job *job, struct chanv_place *path, size_t room,
                            struct chanv_place *second_path, size_t second_room,
                            struct chanv_explanation *out);

/* Writes the text that explains the verdict on the job, as `chanv why` prints it. It is not
 * NUL-terminated.
 *
 * CHANV_YES, CHANV_NO: the first `*len` bytes of `buffer` are the text; the other bytes keep their
 * values.
 * CHANV_NO_ROOM: the text has `*len` bytes, more than `room`.
 * Otherwise the call returns why there is no answer, like `chanv_verify`, and `*len` is 0. A byte
 * of `buffer` is written only for CHANV_YES and CHANV_NO.
 *
 * If no job will do for a program, ask about a job with the extents CHANV_ALL_CYLINDERS, the areas
 * CHANV_ALL_STORAGE and the mask CHANV_OPEN_MASK: its text says why. */
CHANV_MUST_USE CHANV_NOT_NULL(1, 4) CHANV_WRITES(2, 3)
enum chanv_answer chanv_text(const struct chanv_job *job, char *buffer, size_t room, size_t *len);

/* Takes a program in: finds what every job has to grant it and which bytes it keeps, puts the lists
 * and the kept bytes into `memory`, and fills `program`, which refers to them. Keep `memory` where it
 * is, as long as the program or a copy of it is used.
 *
 * `own` is what the program's user owns: only the bytes of these areas may be kept, since what is
 * written elsewhere needs no question. The areas may overlap, adjoin, lie in any order and reach
 * past storage. No areas mean that the user owns nothing. `allowed` is what the program may do, a sum
 * of `enum chanv_allowed`.
 *
 * CHANV_OK: some job will do, the program keeps only bytes of `own`, and whatever it may do is
 * allowed. It is remembered, in the first `*len` bytes of `memory`; no other byte of it is written.
 * CHANV_NO: no job will do, and `out->verdict` is the verdict if everything is granted; or some job
 * will do, and `out->refusal` is the first of what isn't allowed.
 * CHANV_NO_ROOM: the program takes `*len` bytes, at each address, and that is more than `room`.
 * CHANV_CHANGED_MEANWHILE: storage was written during the call, so ask again; over quiet storage
 * this answer never comes.
 * Otherwise the call returns why there is no answer, like `chanv_verify`; its limit counts the
 * places that are reachable if everything is granted. Unless the answer is CHANV_OK or
 * CHANV_NO_ROOM, `*len` is 0. Unless it is CHANV_OK, `program` is zeroed, and no byte of `memory` is
 * written.
 *
 * CHANV_OK holds, before a start and during the run, over each storage of this length with the same
 * kept bytes; all other bytes may change, also during the call. If storage is written during the
 * call, every other answer may be about a mixture of old and new bytes. The call takes memory as
 * long as storage, of which it writes what the program keeps, and 12 KB for the lists, or as much as
 * they take. `len` and `out` may be NULL. */
CHANV_MUST_USE CHANV_NOT_NULL(1, 2, 7) CHANV_WRITES(4, 5)
enum chanv_answer chanv_take_in(const struct chanv_source *source, const struct chanv_areas *own,
                                uint32_t allowed, void *memory, size_t room, size_t *len,
                                struct chanv_program *program, struct chanv_intake *out);

/* May a remembered program start under the job, together with the `count` rows of the table?
 *
 * CHANV_YES: four conditions hold. The job has the program's start, device and length of storage;
 * each kept byte is as it was; the job grants all needs; and neither this program nor any row of the
 * table may store into a byte that the other keeps. If what is remembered of all of them is true,
 * the program may start: its verdict is CHANV_YES, and it is safe together with all in flight.
 * CHANV_NO: `out` has the first refusal.
 * Otherwise the call returns why there is no answer, like `chanv_verify`, with the first wrong
 * extent if there is one. It counts no places: the job's limit doesn't matter.
 *
 * It says nothing about data: a program may read in over bytes that another program writes out. It
 * goes once over lists that come from `chanv_take_in`. For lists from elsewhere that are out of
 * order the cost is the product of their lengths: sort them first. */
CHANV_MUST_USE CHANV_NOT_NULL(1, 4, 5) CHANV_READS(2, 3)
enum chanv_answer chanv_check_start(const struct chanv_job *job,
                                    const struct chanv_row *in_flight, size_t count,
                                    const struct chanv_program *program,
                                    struct chanv_refusal *out);

/* May others, such as the processor, write to an area of storage now? The call takes no memory and
 * has no other answer.
 *
 * CHANV_YES: no row keeps a byte of the area.
 * CHANV_NO: `out` has CHANV_REFUSED_WRITES_OVER_KEPT, the first row that keeps a byte of the area,
 * and the least such byte. */
CHANV_MUST_USE CHANV_NOT_NULL(3, 4) CHANV_READS(1, 2)
enum chanv_answer chanv_check_write(const struct chanv_row *in_flight, size_t count,
                                    const struct chanv_area *area, struct chanv_refusal *out);

/* Makes the prefix through which the job's program starts, for the address at which it will stand:
 * a Seek to the first cylinder of the first extent, a Set File Mask with the job's mask, a transfer
 * to the job's start, and what the first two take. It has 32 bytes. Under mask 00, with which each
 * chain begins, it has 24 bytes and no Set File Mask.
 *
 * CHANV_OK: the first `*len` bytes of `bytes` are the prefix; the other bytes keep their values.
 * CHANV_NO: it can't stand there: the address isn't a multiple of 8, or the prefix or the job's
 * start reaches past storage.
 * CHANV_NO_ROOM: the prefix has `*len` bytes, more than `room`.
 * Otherwise the call returns why there is no answer, like `chanv_verify`, but it counts no places,
 * so that the job's limit doesn't matter. `*len` is 0 unless the answer is CHANV_OK or
 * CHANV_NO_ROOM. A byte of `bytes` is written only for CHANV_OK. Copy the bytes into storage once
 * the program may start; `bytes` itself lies apart. */
CHANV_MUST_USE CHANV_NOT_NULL(1, 5) CHANV_WRITES(3, 4)
enum chanv_answer chanv_make_prefix(const struct chanv_job *job, uint32_t address, uint8_t *bytes,
                                    size_t room, size_t *len);

/* Which channel programs for this type of device are in storage? Their starts are listed once each,
 * in order; docs/OLD-PROGRAMS.md says which starts these are.
 *
 * CHANV_OK: the first `*count` of `starts` are written; the others keep their values.
 * CHANV_NO_ROOM: `*count` is how many there would be.
 * Otherwise `*count` is 0, and the call returns CHANV_STORAGE_TOO_LARGE, or else
 * CHANV_NOT_A_DEVICE, or else CHANV_MEMORY. A start is written only for CHANV_OK. */
CHANV_MUST_USE CHANV_NOT_NULL(1, 5) CHANV_WRITES(3, 4)
enum chanv_answer chanv_find(const struct chanv_bytes *storage, uint16_t device, uint32_t *starts,
                             size_t room, size_t *count);

/* The library's version, as CHANV_VERSION_NUMBER is the header's, plus CHANV_NOT_PROVED if nothing
 * of the library is proved. */
uint32_t chanv_version(void);

/* The word for a reason; for what a call returned; for the code of a refusal; and for how a program
 * enters a CCW, as in a listing. For any other number the word is "". */
const char *chanv_reason_word(uint32_t reason);
const char *chanv_answer_word(uint32_t answer);
const char *chanv_refusal_word(uint32_t code);
const char *chanv_entered_word(uint32_t entered);

/* Yes is 0, so `if (chanv_verify(..))` would go on after a no. GCC warns about a product in such a
 * place (-Wint-in-bool-context, part of -Wall), so in C each answer is one. Without the parentheses
 * of its arguments, or in parentheses itself, a name is that of the function.
 *
 * GCC doesn't warn about what the macros of a system header expand to, and a header in /usr/include
 * is one. A line marker ends that; -pedantic lets it pass in a system header alone, which only a
 * file that another includes can be. */
#if defined __GNUC__ && !defined __clang__ && !defined __cplusplus && __INCLUDE_LEVEL__
#pragma GCC system_header
# 549 "chanv.h"
#define CHANV_YES_IS_ZERO(answer) ((enum chanv_answer)(1 * (int)(answer)))
#define chanv_verify(...) CHANV_YES_IS_ZERO(chanv_verify(__VA_ARGS__))
#define chanv_list(...) CHANV_YES_IS_ZERO(chanv_list(__VA_ARGS__))
#define chanv_why(...) CHANV_YES_IS_ZERO(chanv_why(__VA_ARGS__))
#define chanv_text(...) CHANV_YES_IS_ZERO(chanv_text(__VA_ARGS__))
#define chanv_take_in(...) CHANV_YES_IS_ZERO(chanv_take_in(__VA_ARGS__))
#define chanv_check_start(...) CHANV_YES_IS_ZERO(chanv_check_start(__VA_ARGS__))
#define chanv_check_write(...) CHANV_YES_IS_ZERO(chanv_check_write(__VA_ARGS__))
#define chanv_make_prefix(...) CHANV_YES_IS_ZERO(chanv_make_prefix(__VA_ARGS__))
#define chanv_find(...) CHANV_YES_IS_ZERO(chanv_find(__VA_ARGS__))
#endif

#ifdef __cplusplus
}
#endif

#endif
