/* A supervisor without a C library. All that chanv asks for from outside is here: memory from one
 * allocator, and three functions that move bytes. It judges a program, and ends with the answer as
 * its status. Link it with -nostdlib and libchanv.a. */
#include <chanv.h>

/* ---- bytes: compile this with -O1, so that no loop becomes a call of itself */

void *memcpy(void *to, const void *from, size_t n)
{
    for (size_t i = 0; i < n; i++)
        ((uint8_t *)to)[i] = ((const uint8_t *)from)[i];
    return to;
}

void *memmove(void *to, const void *from, size_t n)
{
    if ((uintptr_t)to <= (uintptr_t)from)
        return memcpy(to, from, n);
    for (size_t i = n; i > 0; i--)
        ((uint8_t *)to)[i - 1] = ((const uint8_t *)from)[i - 1];
    return to;
}

void *memset(void *to, int byte, size_t n)
{
    for (size_t i = 0; i < n; i++)
        ((uint8_t *)to)[i] = (uint8_t)byte;
    return to;
}

/* ---- memory: blocks one after another, which are free again after the last question */

/* A block: its length, then its bytes, aligned for any type. */
struct block {
    _Alignas(max_align_t) size_t len;
    _Alignas(max_align_t) uint8_t bytes[];
};

enum { HEAP = 1 << 20 };
static _Alignas(max_align_t) uint8_t heap[HEAP];
static size_t used, blocks;

void *malloc(size_t n)
{
    size_t len = (n + sizeof(struct block) - 1) / sizeof(struct block) * sizeof(struct block);
    if (len < n || len > HEAP - used || HEAP - used - len < sizeof(struct block))
        return NULL;
    struct block *made = (struct block *)(heap + used);
    used += sizeof *made + len;
    blocks++;
    made->len = n;
    return made->bytes;
}

void free(void *block)
{
    if (block != NULL && --blocks == 0)
        used = 0;
}

void *realloc(void *block, size_t n)
{
    void *made = malloc(n);
    if (block == NULL || made == NULL)
        return made;
    size_t len = ((struct block *)((uint8_t *)block - sizeof(struct block)))->len;
    memcpy(made, block, len < n ? len : n);
    free(block);
    return made;
}

/* ---- the question */

/* At 000800 a search for the record that 000900 names, back to it until the record is found, and a
 * read of its 80 bytes to 000A00. */
static uint8_t storage[0x1000] = {
    [0x800] = 0x31, 0, 0x09, 0x00, 0x40, 0, 0, 5, /* search */
    0x08, 0, 0x08, 0x00, 0, 0, 0, 0,              /* not found: back */
    0x06, 0, 0x0A, 0x00, 0, 0, 0, 0x50,           /* found: read */
};

static int judge(void)
{
    static const struct chanv_extent extent = {10, 19};
    static const struct chanv_area argument = {0x900, 0x10}, record = {0xA00, 0x100};
    struct chanv_job job = {
        .storage = {storage, sizeof storage},
        .extents = {&extent, 1},
        .fetch = {&argument, 1},
        .store = {&record, 1},
        .start = 0x800,
        .limit = CHANV_USUAL_LIMIT,
        .device = 2314,
    };
    struct chanv_verdict verdict;
    if (chanv_verify(&job, &verdict) != CHANV_YES)
        return 2;
    job.store.len = 0;
    return chanv_verify(&job, &verdict) == CHANV_NO && verdict.address == 0x810 ? 0 : 3;
}

/* Where Linux on x86-64 starts a program; a supervisor has an entry of its own. */
__attribute__((force_align_arg_pointer, noreturn)) void _start(void)
{
    long status = judge(), call = 60; /* exit */
    for (;;)
        __asm__ volatile("syscall" : : "a"(call), "D"(status) : "rcx", "r11", "memory");
}
