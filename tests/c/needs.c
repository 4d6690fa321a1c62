/* Asks what programs need, and then about starts, writes and what is kept, at the edges: exact room
 * and one byte less, NULL for empty lists, no job that will do, a limit that only the open job
 * passes, each fault of a job, each refusal, rows from anywhere. Each line is the name of a case,
 * the call's code, and what it told. */
#include "asking.h"

enum { BYTES = 512 };

static struct chanv_extent one_cylinder[] = {{100, 100}};

/* A job that grants next to nothing. */
static const struct chanv_job poor = {
    .storage = {storage, SMALL},
    .extents = {one_cylinder, 1},
    .start = 0x800,
    .limit = CHANV_USUAL_LIMIT,
    .device = 2314,
    .mask = 0x58,
};

/* Reads into one place again and again. */
static const struct word endless[] = {
    {0x800, 0x06000A0040000050},
    {0x808, 0x0800080000000000},
    {0, 0},
};

/* Seeks to cylinders 10, 11 and 202, of which two arguments adjoin, and a Recalibrate. */
static const struct word seeks[] = {
    {0x800, 0x0700090040000006},
    {0x808, 0x0B00090640000006},
    {0x810, 0x1300000040000001},
    {0x818, 0x0700091040000006},
    {0x820, 0x06000A0000000001},
    {0x900, 0x0000000A00000000},
    {0x908, 0x000B000100000000},
    {0x910, 0x000000CA00000000},
    {0, 0},
};

/* A CCW at 0007F0 that ends the program if it is entered fresh, as after a search, and that the
 * data chain of a read, a write or a search leads to again and again. */
static const struct word two_ways[] = {
    {0x7F0, 0x03000A1080000010},
    {0x7F8, 0x080007F000000000},
    {0x800, 0x3100090040000005},
    {0x808, 0x080007F000000000},
    {0x810, 0x06000A0080000008},
    {0x818, 0x080007F000000000},
    {0, 0},
};

/* Sets the mask to the byte 01, which is none. */
static const struct word sets_no_mask[] = {
    {0x800, 0x1F00090000000001},
    {0x900, 0x0100000000000000},
    {0, 0},
};

/* Asks for an interruption where it reads, and in a transfer, whose flags mean nothing. */
static const struct word interrupting[] = {
    {0x800, 0x3100090040000005},
    {0x808, 0x0800080008000000},
    {0x810, 0x06000A0008000050},
    {0, 0},
};

/* A Recalibrate and a No Operation with chain data on: the program ends at the first. */
static const struct word chaining[] = {
    {0x800, 0x13000000C0000001},
    {0x808, 0x0300000080000001},
    {0, 0},
};

static void print_areas(const char *name, struct chanv_areas areas)
{
    for (size_t i = 0; i < areas.len; i++)
        printf(", %s %06" PRIX32 " %" PRIX32, name, areas.at[i].start, areas.at[i].len);
}

static void print_program(const struct chanv_program *program)
{
    const struct chanv_rows *rows = &program->rows;
    const uint8_t *byte = program->kept.at;
    for (size_t i = 0; i < rows->extents.len; i++)
        printf(", extent %u %u", rows->extents.at[i].first, rows->extents.at[i].last);
    print_areas("fetch", rows->fetch);
    print_areas("store", rows->store);
    print_areas("keep", rows->keep);
    for (size_t i = 0; i < rows->keep.len; byte += rows->keep.at[i++].len)
        if (memcmp(byte, storage + rows->keep.at[i].start, rows->keep.at[i].len) != 0)
            printf(", wrong bytes");
}

static void print_remarks(const struct chanv_intake *told)
{
    if (told->may_hang != 0 || told->hangs_at != 0 || told->hangs_entered != 0)
        printf(", may hang %u at %06" PRIX32 " %s", told->may_hang, told->hangs_at,
               chanv_entered_word(told->hangs_entered));
    if (told->interrupts != 0 || told->interrupts_at != 0)
        printf(", interrupts %u at %06" PRIX32, told->interrupts, told->interrupts_at);
    if (told->ends_chaining != 0 || told->ends_chaining_at != 0)
        printf(", ends chaining %u at %06" PRIX32, told->ends_chaining, told->ends_chaining_at);
}

static void print_told(enum chanv_answer answer, const struct chanv_program *program,
                       const struct chanv_intake *told)
{
    const struct chanv_rows *rows = &program->rows;
    printf("needs %u, mask %02" PRIX8 ", storage %" PRIX32 ", %zu %zu %zu %zu, %zu", answer,
           rows->mask, rows->storage_len, rows->extents.len, rows->fetch.len, rows->store.len,
           rows->keep.len, program->kept.len);
    print_remarks(told);
    if (told->verdict.reason != 0)
        printf(", no %06" PRIX32 " %s", told->verdict.address,
               chanv_reason_word(told->verdict.reason));
    if (told->refusal.code != 0)
        printf(", refused %s %06" PRIX32, chanv_refusal_word(told->refusal.code),
               told->refusal.value);
    if (told->verdict.extent != 0 || told->refusal.extent != 0 || told->refusal.row != CHANV_NOBODY)
        printf(", an extent or a row");
    if (answer == CHANV_OK)
        print_program(program);
    printf("\n");
}

static uint8_t memory_of_asked[BYTES];

/* Takes a program in, and prints what is told of it. The next call may overwrite its lists. */
static struct chanv_program ask(const char *name, struct chanv_job job)
{
    struct chanv_program program;
    struct chanv_intake told;
    memset(&told, 0x77, sizeof told);
    enum chanv_answer answer =
        take_in_freely(&job, memory_of_asked, BYTES, NULL, &program, &told);
    printf("%s: ", name);
    print_told(answer, &program, &told);
    return program;
}

/* Takes a program in whose user owns these areas, and that may do so much. */
static void ask_for(const char *name, struct chanv_areas own, uint32_t allowed)
{
    struct chanv_source source = source_of(&poor);
    struct chanv_program program;
    struct chanv_intake told;
    memset(&told, 0x77, sizeof told);
    enum chanv_answer answer =
        chanv_take_in(&source, &own, allowed, memory_of_asked, BYTES, NULL, &program, &told);
    printf("%s", name);
    print_areas("owned", own);
    printf(", allowed %" PRIX32 ": ", allowed);
    print_told(answer, &program, &told);
}

/* What the job grants plays no part; its storage, start, limit and faults do. */
static void ask_about_other_jobs(void)
{
    struct chanv_job job = poor;
    fill(search_loop);
    job.limit = 2;
    ask("three places where two are allowed", job);
    job.limit = 3;
    ask("three places where three are allowed", job);
    job = poor, job.start = 0x804;
    ask("misaligned start", job);
    job = poor, job.storage = (struct chanv_bytes){NULL, 0};
    ask("no storage, NULL", job);
    job = poor, job.storage.len = 0xA4F;
    ask("a byte of the record outside storage", job);
    job.storage.len = 0xA50;
    ask("storage that ends with the record", job);
    fill(sets_no_mask);
    ask("no job will do", poor);
}

/* What a program may do that a supervisor may refuse it for. */
static void ask_for_remarks(void)
{
    fill(endless);
    ask("a read without end", poor);
    static const struct {
        const char *name;
        uint8_t code;
    } chains[] = {{"a read", 0x06}, {"a write", 0x05}, {"a search", 0x31}};
    for (size_t i = 0; i < sizeof chains / sizeof *chains; i++) {
        fill(two_ways), storage[0x810] = chains[i].code;
        printf("the data chain of ");
        ask(chains[i].name, poor);
    }
    fill(interrupting);
    ask("an interruption after a transfer", poor);
    storage[0x804] |= 0x08;
    ask("two interruptions", poor);
    fill(chaining);
    ask("chain data where nothing moves", poor);
    storage[0x804] = 0x40;
    ask("the same at the second CCW", poor);
}

/* The program of a job with these rows, and with the kept bytes as storage has them now. */
static struct chanv_program program_of(const struct chanv_job *job, const struct chanv_rows *rows)
{
    static uint8_t bytes[BYTES];
    size_t len = 0;
    for (size_t i = 0; i < rows->keep.len; len += rows->keep.at[i++].len)
        memcpy(bytes + len, storage + rows->keep.at[i].start, rows->keep.at[i].len);
    return (struct chanv_program){
        .rows = *rows, .kept = {bytes, len}, .start = job->start, .device = job->device};
}

static void try_beside(const struct chanv_job *job, const struct chanv_row *in_flight,
                       size_t count, const struct chanv_program *program)
{
    struct chanv_refusal refusal;
    memset(&refusal, 0x77, sizeof refusal);
    uint32_t answer = chanv_check_start(job, in_flight, count, program, &refusal);
    print_refusal(answer, &refusal);
}

static void try_start(const char *name, const struct chanv_job *job, const struct chanv_rows *rows)
{
    struct chanv_program program = program_of(job, rows);
    printf("%s: start ", name);
    try_beside(job, NULL, 0, &program);
    printf("\n");
}

/* A start under a job with a fault, and what its program needs. */
static void ask_with_faults(void)
{
    static const struct chanv_program nothing = {.rows = {.mask = 0x58}};
    struct chanv_job job;
    const char *name;
    fill(search_loop);
    for (int step = 0; (name = take_fault_away(step, &job)) != NULL; step++) {
        printf("%s: start ", name);
        try_beside(&job, NULL, 0, &nothing);
        printf("; ");
        ask("its program", job);
    }
}

static void try_changed(const char *name, const struct chanv_job *job,
                        const struct chanv_program *program)
{
    printf("%s: start ", name);
    try_beside(job, NULL, 0, program);
    printf("\n");
}

static void try_the_search_loop(void)
{
    struct chanv_area two[] = {{0x903, 9}, {0x8FF, 4}}, exact[] = {{0x900, 5}};
    struct chanv_area record[] = {{0xA00, 0x50}};
    fill(search_loop);
    struct chanv_rows rows = ask("the search loop", poor).rows;
    struct chanv_job job = poor;
    try_start("nothing lent, NULL", &job, &rows);
    job.fetch = (struct chanv_areas){exact, 1}, job.store = (struct chanv_areas){record, 1};
    try_start("no more than is needed", &job, &rows);
    job.storage = (struct chanv_bytes){NULL, 0};
    try_start("without storage, NULL", &job, &rows);
    job.storage = poor.storage;
    job.fetch = (struct chanv_areas){two, 2};
    try_start("two areas that adjoin", &job, &rows);
    exact[0].len--, job.fetch = (struct chanv_areas){exact, 1};
    try_start("a byte short for fetching", &job, &rows);
    exact[0].len++, record[0] = (struct chanv_area){0xA01, 0xFFFFFFFF};
    try_start("a byte short for storing", &job, &rows);
    job.store = (struct chanv_areas){all, 1}, job.fetch = job.store, job.mask = 0x00;
    try_start("more than is needed", &job, &rows);
    rows.mask = 0x01;
    try_start("rows with a byte that is no mask", &job, &rows);
    rows.mask = 0x58;
    struct chanv_program program = program_of(&job, &rows);
    program.device = 2313, program.rows.mask = 0x01;
    try_changed("a device that isn't one, and a mask that isn't one", &job, &program);
    program.device = 2314, storage[0x817] ^= 1;
    try_changed("a changed byte, and a mask that isn't one", &job, &program);
    program.kept.len = 0, storage[0x817] ^= 1;
    try_changed("no kept bytes", &job, &program);
    program = (struct chanv_program){.start = 0};
    try_changed("a program of zeros", &job, &program);
}

static void try_the_seeks(void)
{
    struct chanv_extent two[] = {{10, 202}, {0, 0}};
    fill(seeks);
    struct chanv_rows rows = ask("the seeks", poor).rows;
    struct chanv_job job = poor;
    job.fetch = job.store = (struct chanv_areas){all, 1};
    job.extents = (struct chanv_extents){all_cylinders, 1}, job.mask = 0x40;
    try_start("all cylinders", &job, &rows);
    job.mask = 0x48;
    try_start("a mask that inhibits a seek", &job, &rows);
    job.mask = 0x40, job.extents = (struct chanv_extents){two, 2};
    try_start("two extents", &job, &rows);
    two[0].last = 201;
    try_start("without cylinder 202", &job, &rows);
    two[0] = (struct chanv_extent){1, 202}, job.extents.len = 1;
    try_start("without cylinder 0", &job, &rows);
}

/* Whether a read of eight bytes at 000C00 may run beside the search loop, which is the second of
 * two in flight: the first is no program. */
static void ask_beside(void)
{
    static const uint64_t reads[] = {0x060007F800000008, 0x060007F900000008, 0x0600081700000008,
                                     0x0600081800000008, 0x0600090000000008, 0x06000A0000000008};
    static uint8_t memory[256];
    struct chanv_job job = poor;
    struct chanv_program program;
    job.fetch = job.store = (struct chanv_areas){all, 1};
    fill(search_loop);
    if (take_in_freely(&job, memory, sizeof memory, NULL, &program, NULL) != CHANV_OK)
        printf("not taken in\n");
    const struct chanv_row two[2] = {[1] = row_of(&program)};
    printf("the search loop beside itself: ");
    try_beside(&job, two, 2, &program);
    printf("\n");
    for (size_t i = 0; i < sizeof reads / sizeof *reads; i++) {
        const struct word one_read[] = {{0xC00, reads[i]}, {0, 0}};
        fill(one_read), job.start = 0xC00;
        struct chanv_program read = ask("a read", job);
        const struct chanv_row in_flight[2] = {[1] = row_of(&read)};
        printf("it beside the search loop: ");
        try_beside(&job, two, 2, &read);
        fill(search_loop), job.start = 0x800;
        printf("; the search loop beside it: ");
        try_beside(&job, in_flight, 2, &program);
        printf("\n");
    }
}

/* Whether others may write an area, with the search loop in flight after no program. */
static void ask_who_writes(void)
{
    static const struct chanv_area areas[] = {{0x7F8, 8}, {0x7F8, 9},           {0x817, 1},
                                              {0x818, 8}, {0x810, 0},           {0, 0xFFFFFFFF},
                                              {0, 0},     {0xFFFFFFFF, 0xFFFFFFFF}};
    fill(search_loop);
    struct chanv_rows rows = ask("the search loop", poor).rows;
    struct chanv_program program = program_of(&poor, &rows);
    const struct chanv_row in_flight[2] = {[1] = row_of(&program)};
    for (size_t i = 0; i < sizeof areas / sizeof *areas; i++) {
        struct chanv_refusal refusal;
        memset(&refusal, 0x77, sizeof refusal);
        uint32_t answer = chanv_check_write(in_flight, 2, &areas[i], &refusal);
        printf("others write %" PRIX32 " from %" PRIX32 ": ", areas[i].len, areas[i].start);
        print_refusal(answer, &refusal);
        printf("\n");
    }
}

/* Whether an area is one of the memory. */
static int is_in(const void *at, size_t size, const uint8_t *memory, size_t len)
{
    const uint8_t *from = at;
    return from >= memory && from + size <= memory + len && (uintptr_t)from % 4 == 0;
}

/* Takes a program in, into so much memory at an address with so much left over by 4. No other byte
 * is written than those of the program. */
static void take_in(const char *name, struct chanv_job job, size_t over, size_t room)
{
    static _Alignas(8) uint8_t memory[512];
    static const struct chanv_program none;
    struct chanv_program program;
    struct chanv_intake intake;
    size_t len = 77, first = 8 + over;
    memset(memory, 0x77, sizeof memory);
    memset(&program, 0x77, sizeof program);
    void *at = room == 0 ? NULL : memory + first;
    uint32_t answer = take_in_freely(&job, at, room, &len, &program, &intake);
    printf("%s, %zu bytes: take in %" PRIu32 ", %zu", name, room, answer, len);
    for (size_t i = 0; i < sizeof memory; i++)
        if ((i < first || i >= first + (answer == CHANV_OK ? len : 0)) && memory[i] != 0x77)
            printf(", written beside the program");
    if (answer == CHANV_OK) {
        const struct chanv_rows *rows = &program.rows;
        int are_in = is_in(rows->fetch.at, 8 * rows->fetch.len, at, len)
                     && is_in(rows->store.at, 8 * rows->store.len, at, len)
                     && is_in(rows->keep.at, 8 * rows->keep.len, at, len);
        printf(", %zu %zu %zu %zu, %zu%s", rows->extents.len, rows->fetch.len, rows->store.len,
               rows->keep.len, program.kept.len, are_in ? "" : ", outside");
        struct chanv_refusal refusal;
        struct chanv_extent cylinders = {0, 202};
        job.extents = (struct chanv_extents){&cylinders, 1}, job.mask = 0x40;
        job.fetch = rows->fetch, job.store = rows->store;
        printf(", start %" PRIu32, chanv_check_start(&job, NULL, 0, &program, &refusal));
    } else if (memcmp(&program, &none, sizeof none) != 0) {
        printf(", a program");
    }
    if (intake.verdict.reason != 0)
        printf(", no %s", chanv_reason_word(intake.verdict.reason));
    printf("\n");
}

static void take_programs_in(void)
{
    struct chanv_job job = poor;
    fill(seeks);
    take_in("the seeks", job, 0, 0);
    take_in("the seeks", job, 0, 120);
    take_in("the seeks", job, 0, 121);
    take_in("the seeks", job, 1, 120);
    take_in("the seeks", job, 1, 121);
    take_in("the seeks", job, 3, 480);
    job.device = 2311;
    take_in("the seeks on a 2311", job, 2, 121);
    job.device = 2314;
    job.limit = 0;
    take_in("no limit", job, 0, 480);
    fill(sets_no_mask);
    take_in("no job will do", poor, 0, 480);
}

/* Rows that are no program, beside the search loop: its record is another's to store into, and its
 * second CCW is for another to rely on. */
static void ask_with_other_rows(void)
{
    static const struct chanv_area areas[] = {{0x7F8, 8},  {0x7F8, 9},     {0x817, 1},
                                              {0x900, 16}, {0x9FF, 1},     {0xA4F, 1},
                                              {0xA50, 8},  {0x800, 0},     {0, 0xFFFFFFFF},
                                              {0x818, 0},  {0xFFFFFFFF, 9}};
    struct chanv_job job = generous();
    struct chanv_refusal refusal;
    fill(search_loop);
    struct chanv_program program = ask("the search loop", job);
    for (size_t i = 0; i < sizeof areas / sizeof *areas; i++) {
        const struct chanv_row stores = {.stores = areas[i]}, keeps = {.keeps = areas[i]};
        printf("%" PRIX32 " from %" PRIX32 ": beside who stores ", areas[i].len, areas[i].start);
        try_beside(&job, &stores, 1, &program);
        printf(", beside who keeps ");
        try_beside(&job, &keeps, 1, &program);
        printf(", others write what is kept ");
        print_refusal(chanv_check_write(&keeps, 1, &areas[2], &refusal), &refusal);
        printf("\n");
    }
}

/* A row with a program that also has areas: the program's lists count as well as these. */
static void ask_with_a_full_row(void)
{
    static const struct chanv_area writes[] = {{0x7F8, 8}, {0x800, 1}, {0x810, 1}, {0xC00, 1},
                                               {0xB00, 1}};
    struct chanv_refusal refusal;
    fill(search_loop);
    struct chanv_program program = ask("the search loop", poor);
    const struct chanv_row row = {
        .program = program, .stores = {0xB00, 8}, .keeps = {0xC00, 8}};
    for (size_t i = 0; i < sizeof writes / sizeof *writes; i++) {
        printf("a full row, others write at %" PRIX32 ": ", writes[i].start);
        print_refusal(chanv_check_write(&row, 1, &writes[i], &refusal), &refusal);
        printf("\n");
    }
}

/* Whether the seeks are taken in: they keep 28 from 800, C from 900 and 6 from 910. */
static void ask_what_is_owned(void)
{
    static const struct chanv_area exact[] = {{0x910, 6}, {0x900, 0xC}, {0x800, 0x28}};
    static const struct chanv_area pieces[] = {{0x900, 0x17}, {0x810, 0x18}, {0, 0x810}};
    static const struct chanv_area short_by_one[] = {{0x800, 0x27}, {0x900, 0x10}, {0x910, 6}};
    static const struct chanv_area late[] = {{0x801, 0x27}, {0x900, 0xC}, {0x910, 6}};
    static const struct chanv_area without[] = {{0x800, 0x28}, {0x910, 6}, {0x90C, 0}};
    static const struct chanv_area most[] = {{0x800, 0x28}, {0x900, 0x15}};
    static const struct chanv_area whole[] = {{0, 0xFFFFFFFF}};
    fill(seeks);
    ask_for("the seeks", (struct chanv_areas){exact, 3}, CHANV_ALLOW_NOTHING);
    ask_for("the seeks", (struct chanv_areas){pieces, 3}, CHANV_ALLOW_NOTHING);
    ask_for("the seeks", (struct chanv_areas){short_by_one, 3}, CHANV_ALLOW_NOTHING);
    ask_for("the seeks", (struct chanv_areas){late, 3}, CHANV_ALLOW_NOTHING);
    ask_for("the seeks", (struct chanv_areas){without, 3}, CHANV_ALLOW_NOTHING);
    ask_for("the seeks", (struct chanv_areas){most, 2}, CHANV_ALLOW_NOTHING);
    ask_for("the seeks", (struct chanv_areas){whole, 1}, CHANV_ALLOW_NOTHING);
    ask_for("the seeks", (struct chanv_areas){NULL, 0}, ALLOW_ALL);
}

/* Programs that do one thing, under each sum of what may be allowed and with bits that mean
 * nothing; and one that does all three. */
static void ask_what_is_allowed(void)
{
    static const struct chanv_area whole[] = {CHANV_ALL_STORAGE};
    static const struct word all_three[] = {
        {0x800, 0x3100090048000005}, /* a search that asks for an interruption */
        {0x808, 0x0800081800000000}, /* another record: a read without end */
        {0x810, 0x0300000080000001}, /* this record: a No Operation with chain data */
        {0x818, 0x06000A0040000050},
        {0x820, 0x0800081800000000},
        {0, 0},
    };
    static const struct {
        const char *name;
        const struct word *words;
    } programs[] = {{"a read without end", endless},
                    {"an interruption", interrupting},
                    {"an end of chaining", chaining},
                    {"all three", all_three}};
    const struct chanv_areas own = {whole, 1};
    for (size_t i = 0; i < sizeof programs / sizeof *programs; i++) {
        fill(programs[i].words);
        for (uint32_t allowed = 0; allowed < 8; allowed++)
            ask_for(programs[i].name, own, allowed);
        ask_for(programs[i].name, own, 0xFFFFFFF8);
    }
}

/* Rows that `chanv_take_in` didn't give do no harm, whatever is answered. */
static void ask_with_rows_that_nobody_gave(void)
{
    static struct chanv_extent runs[] = {{9, 3}, {0, 65535}, {65535, 0}};
    static struct chanv_area areas[] = {{0xFFFFFFFF, 0xFFFFFFFF}, {5, 0}, {0, 0xFFFFFFFF}, {7, 9}};
    struct chanv_rows rows = {
        .extents = {runs, 3},
        .fetch = {areas, 4},
        .store = {areas, 4},
        .keep = {areas, 4},
        .storage_len = 0xFFFFFFFF,
        .mask = 0xFF,
    };
    struct chanv_refusal refusal;
    int answers = 0;
    for (int mask = 0; mask < 256; mask++) {
        rows.mask = (uint8_t)mask;
        struct chanv_program program = {rows, {storage, SMALL}, poor.start, 2314};
        rows.storage_len = mask % 2 ? SMALL : 0xFFFFFFFF;
        struct chanv_row row = {program, areas[0], areas[2]};
        answers += chanv_check_start(&poor, &row, 1, &program, &refusal) == CHANV_NO
                   && chanv_check_write(&row, 1, &areas[0], &refusal) == CHANV_NO;
    }
    printf("rows that nobody gave: %d answers\n", answers);
}

int main(void)
{
    ask_about_other_jobs();
    ask_for_remarks();
    ask_with_faults();
    try_the_search_loop();
    try_the_seeks();
    ask_beside();
    ask_who_writes();
    take_programs_in();
    ask_with_other_rows();
    ask_with_a_full_row();
    ask_what_is_owned();
    ask_what_is_allowed();
    ask_with_rows_that_nobody_gave();
    return 0;
}
