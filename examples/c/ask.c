/* Asks about the usual search loop before it is started, lists the CCWs that it can reach, and asks
 * why a program that reads past its area may not run. */
#include <chanv.h>
#include <stdio.h>

/* Puts a CCW where it belongs: the high byte comes first. */
static void put(uint8_t *storage, uint32_t address, uint64_t ccw)
{
    for (uint32_t i = 0; i < 8; i++)
        storage[address + i] = (uint8_t)(ccw >> (56 - 8 * i));
}

int main(void)
{
    static uint8_t storage[0x1000];
    put(storage, 0x800, 0x3100090040000005); /* search for the record named at 000900 */
    put(storage, 0x808, 0x0800080000000000); /* not this one: go back and try the next */
    put(storage, 0x810, 0x06000A0020000050); /* found: read its 80 bytes to 000A00 */

    struct chanv_extent cylinders[] = {{10, 19}};
    struct chanv_area fetch[] = {{0x900, 0x10}};
    struct chanv_area store[] = {{0xA00, 0x100}};
    struct chanv_job job = {
        .storage = {storage, sizeof storage},
        .extents = {cylinders, 1},
        .fetch = {fetch, 1},
        .store = {store, 1},
        .start = 0x800,
        .limit = CHANV_USUAL_LIMIT,
        .device = 2314,
        .mask = 0x00,
    };

    struct chanv_verdict verdict;
    enum chanv_answer answer = chanv_verify(&job, &verdict);
    if (answer == CHANV_NO) {
        printf("no %06X %s\n", verdict.address, chanv_reason_word(verdict.reason));
        return 1;
    }
    if (answer != CHANV_YES) {
        printf("no answer: %u\n", answer);
        return 2;
    }
    printf("yes\n");

    struct chanv_place places[16];
    size_t count, extent;
    if (chanv_list(&job, places, 16, &count, &extent) != CHANV_OK)
        return 2;
    for (size_t i = 0; i < count; i++)
        printf("%06X entered %u\n", places[i].address, places[i].entered);

    put(storage, 0x810, 0x06000AC020000050); /* read them to 000AC0 instead, past the area */
    struct chanv_explanation why;
    if (chanv_why(&job, places, 16, NULL, 0, &why) != CHANV_NO)
        return 2;
    printf("no %06X %s\n", why.verdict.address, chanv_reason_word(why.verdict.reason));
    for (size_t i = 0; i < why.path_count; i++)
        printf("%06X entered %u\n", places[i].address, places[i].entered);
    printf("%u bytes from %06X on aren't lent\n", why.evidence.gap.len, why.evidence.gap.start);
    return 0;
}
