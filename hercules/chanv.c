/* chanv.c: a module of Hercules that asks chanv before a channel program starts on a 2311 or 2314.
 *
 * It registers both types anew: a module's types come before those of Hercules, whose handlers it
 * calls. The channel calls `start` before it fetches a CCW, and `end` after its last step.
 */
#include "hstdinc.h"

#include "hercules.h"

#include "devtype.h"

#include "chanvask.h"

/* A 2311 or 2314 that was attached since the module was loaded. It lasts as long as its DEVBLK. */
struct disk {
    struct CHANVASK ask;
    DEVHND *real, ours; /* the handlers of Hercules, and a copy of them with ours */
    BYTE is_closed;
    struct disk *next;
};

#define BEHIND 0xFF000000 /* storage ends before, unless it has 4,080 MiB */

static struct disk *disks;
static DEVHND unopened; /* the handlers of a disk that is yet to be opened */

extern void ATTR_REGPARM(2) s370_start_io(BYTE *instruction, REGS *regs);
static void our_start(DEVBLK *dev);

static struct disk *disk_of(const DEVHND *ours)
{
    return (struct disk *)((char *)ours - offsetof(struct disk, ours));
}

/* Whether handlers are ours. A device that is being attached has none yet. */
static int is_ours(const DEVHND *hnd)
{
    return hnd != NULL && hnd->start == our_start;
}

static struct disk *make_disk(DEVBLK *dev)
{
    struct disk *disk = disks;

    while (disk != NULL && disk->ask.dev != dev)
        disk = disk->next;
    if (disk == NULL && flight.rows < CHANVASK_ROWS && (disk = calloc(1, sizeof *disk)) != NULL) {
        disk->ask.dev = dev;
        disk->ask.row = flight.rows++;
        disk->next = disks;
        disks = disk;
    }
    if (disk != NULL)
        flight.devices[disk->ask.row] = dev->devnum;
    return disk;
}

/* Whether another system uses the disk through this one. */
static int is_lent(const DEVBLK *dev)
{
    return dev->ioactive != DEV_SYS_LOCAL && dev->ioactive != DEV_SYS_NONE;
}

/* Enters where the processors store of themselves. Returns whether one of them makes an IPL. */
static int look_at_processors(void)
{
    const REGS *regs;
    int i, loads = 0;

    for (i = 0; i < MAX_CPU_ENGINES && i < CHANVASK_LOWS; i++)
        if ((regs = sysblk.regs[i]) != NULL) {
            loads |= regs->loadstate;
            flight.table[i].stores = (struct chanv_area){regs->PX_L, CHANVASK_LOW};
        }
    return loads;
}

/* A device on which a program without a yes is in flight, or NULL. */
static const DEVBLK *unjudged(void)
{
    const DEVBLK *dev;

    for (dev = sysblk.firstdev; dev != NULL; dev = dev->nextdev) {
        const DEVHND *hnd = *(DEVHND *const volatile *)&dev->hnd; /* others may attach it */
        if (is_ours(hnd) ? disk_of(hnd)->ask.is_unjudged
                         : dev->allocated && (dev->startpending || (dev->busy && !is_lent(dev))))
            break;
    }
    return dev;
}

static void begin_unjudged(const DEVBLK *dev)
{
    flight.unjudged++;
    flight.unjudged_device = dev->devnum;
}

/* Asks about a start. Returns the program after a yes; after a no, which is told, NULL. */
static const struct chanv_program *asked(struct CHANVASK *ask, U32 start)
{
    const char *why = sysblk.arch_mode != ARCH_370 ? "outside S/370 mode" : "beside another on it";

    if (sysblk.arch_mode == ARCH_370 && ask->running == 0)
        return chanvask_ask(ask, start);
    chanvask_refuse(ask, start);
    chanvask_tell(ask, "HHCCV010W %4.4X: chanv judges no program %s, start %6.6X%s\n",
                  ask->dev->devnum, why, start, ask->outcome);
    return NULL;
}

/* Asks about a start, and logs a yes. Beside an unjudged program it may count as a no. */
static const struct chanv_program *judged(struct CHANVASK *ask, U32 start)
{
    struct timespec began, ended;
    const struct chanv_program *program;
    const DEVBLK *other = NULL;
    char beside[64] = "";
    long long took;

    clock_gettime(CLOCK_MONOTONIC, &began);
    program = asked(ask, start);
    if (program != NULL && (other = unjudged()) != NULL)
        sprintf(beside, ", beside the unjudged program on %4.4X", other->devnum);
    clock_gettime(CLOCK_MONOTONIC, &ended);
    took = (ended.tv_sec - began.tv_sec) * 1000000000LL + ended.tv_nsec - began.tv_nsec;
    ask->nanoseconds += took;
    ask->starts++;
    ask->noes += program == NULL;
    ask->beside += other != NULL;
    if (other != NULL && ask->refuse_beside) {
        chanvask_refuse(ask, start);
        chanvask_tell(ask, "HHCCV008W %4.4X: chanv yes%s, start %6.6X%s\n", ask->dev->devnum,
                      beside, start, ask->outcome);
        return NULL;
    }
    if (program != NULL && !ask->quiet)
        logmsg("HHCCV001I %4.4X: chanv yes%s, start %6.6X, %lld ns\n", ask->dev->devnum, beside,
               start, took);
    return program;
}

/* Decides about a start, and enters what starts. Returns whether it does. No instruction starts the
 * Read IPL, so nobody is asked about it. */
static int begins(struct CHANVASK *ask, U32 start)
{
    int loads = look_at_processors() && start == 0;
    const struct chanv_program *program = NULL;

    if (ask->extent_count > 0 && !loads)
        program = judged(ask, start);
    if (program != NULL) {
        flight.table[ask->row].program = *program;
        ask->seen = flight.unjudged;
    } else if (ask->refuse && !loads) {
        ask->refused++;
        return 0;
    } else {
        ask->is_unjudged = 1;
        begin_unjudged(ask->dev);
    }
    return 1;
}

/* If the program isn't started, the channel gets an address behind all storage. Its first fetch is
 * then a program check, and the CSW has the low 24 bits of the address, plus 8. An odd address is a
 * program check too, where storage is too large for one behind it. */
static void our_start(DEVBLK *dev)
{
    struct disk *disk = disk_of(dev->hnd);

    pthread_mutex_lock(&flight.lock);
    if (is_lent(dev))
        logmsg("HHCCV010W %4.4X: chanv judges no program of another system\n", dev->devnum);
    else {
        if (!begins(&disk->ask, fetch_fw(dev->orb.ccwaddr)))
            STORE_FW(dev->orb.ccwaddr, BEHIND | disk->ask.address | (dev->mainlim >= BEHIND));
        disk->ask.running++;
    }
    pthread_mutex_unlock(&flight.lock);
    if (disk->real->start != NULL)
        disk->real->start(dev);
}

/* The channel has made its last step on this disk: says what came between. */
static void leave(struct CHANVASK *ask)
{
    struct chanv_program *program = &flight.table[ask->row].program;
    U16 devnum = flight.devices[ask->row];
    U32 address;

    if (chanvask_has_changed(program, ask->dev->mainstor, &address)) {
        ask->changed++;
        logmsg("HHCCV009W %4.4X: chanv kept byte %6.6X changed while in flight\n", devnum, address);
    }
    if (program->device != 0 && ask->seen != flight.unjudged) {
        ask->beside++;
        if (!ask->quiet)
            logmsg("HHCCV008W %4.4X: chanv yes, but the unjudged program on %4.4X started "
                   "meanwhile\n", devnum, flight.unjudged_device);
    }
    memset(program, 0, sizeof *program);
    ask->is_unjudged = 0;
}

/* Forgets a closed disk, unless a thread runs on in its program. Then the disk is still ours. */
static void forget(struct disk *disk)
{
    disk->ask.dev->hnd = &disk->ours; /* cckddasd puts its own there */
    if (disk->ask.running > 0)
        return;
    chanvask_end(&disk->ask);
    disk->is_closed = 0;
    disk->ask.dev->hnd = &unopened; /* so `devinit` comes to our_init */
}

static void our_end(DEVBLK *dev)
{
    struct disk *disk = disk_of(dev->hnd);

    if (disk->real->end != NULL)
        disk->real->end(dev);
    pthread_mutex_lock(&flight.lock);
    if (!is_lent(dev) && disk->ask.running > 0 && --disk->ask.running == 0)
        leave(&disk->ask);
    if (disk->is_closed)
        forget(disk);
    pthread_mutex_unlock(&flight.lock);
}

static int our_close(DEVBLK *dev)
{
    struct disk *disk = disk_of(dev->hnd);
    int answer = disk->real->close(dev);

    pthread_mutex_lock(&flight.lock);
    disk->is_closed = 1;
    forget(disk);
    pthread_mutex_unlock(&flight.lock);
    return answer;
}

static int our_init(DEVBLK *dev, int argc, char *argv[])
{
    struct disk *disk;
    char *left[argc + 1];
    int i, count = 0, answer;

    pthread_mutex_lock(&flight.lock);
    disk = make_disk(dev);
    if (disk != NULL && disk->ask.running == 0)
        chanvask_end(&disk->ask); /* nothing of an earlier statement is left */
    pthread_mutex_unlock(&flight.lock);
    if (disk == NULL || disk->ask.running > 0) {
        logmsg("HHCCV011E %4.4X: chanv has %s\n", dev->devnum,
               disk == NULL ? "no memory for this disk" : "a program in flight from before");
        dev->hnd = disk == NULL ? &unopened : &disk->ours; /* where the program ends */
        return -1;
    }
    for (i = 0; i < argc; i++)
        if (i == 0 || !chanvask_arg(&disk->ask, argv[i]))
            left[count++] = argv[i];
    dev->hnd = &ckddasd_device_hndinfo;
    answer = dev->hnd->init(dev, count, left);
    disk->real = dev->hnd; /* cckddasd puts its own there */
    disk->ours = *dev->hnd;
    disk->ours.init = our_init;
    disk->ours.start = our_start;
    disk->ours.end = our_end;
    disk->ours.close = our_close;
    dev->hnd = &disk->ours;
    pthread_mutex_lock(&flight.lock);
    if (answer < 0)
        forget(disk);
    pthread_mutex_unlock(&flight.lock);
    return answer;
}

static void note_start(const DEVBLK *dev)
{
    if (dev == NULL || is_ours(dev->hnd))
        return;
    pthread_mutex_lock(&flight.lock);
    begin_unjudged(dev);
    pthread_mutex_unlock(&flight.lock);
}

/* A Start I/O to a device that isn't ours may start a program that nobody judges. It is noted
 * before and after: between the two a program may get a yes, and the device isn't busy yet. */
static void ATTR_REGPARM(2) start_io(BYTE *instruction, REGS *regs)
{
    U32 base = instruction[2] >> 4, at = (instruction[2] << 8 | instruction[3]) & 0xFFF;
    const DEVBLK *dev;

    at += base == 0 ? 0 : regs->GR_L(base);
    dev = find_device_by_devnum(regs->chanset, at & 0xFFFF);
    note_start(dev);
    s370_start_io(instruction, regs);
    note_start(dev);
}

static void show_version(void)
{
    U32 version = chanv_version();

    logmsg("HHCCV000I chanv %u.%u.%u%s\n", version >> 16 & 0x7FFF, version >> 8 & 0xFF,
           version & 0xFF, version & CHANV_NOT_PROVED ? ", not proved" : "");
}

static void show_disk(const struct CHANVASK *ask)
{
    int is_judged = flight.table[ask->row].program.device != 0;

    logmsg("HHCCV012I %4.4X: %s in flight; %llu starts, %llu questions, %llu noes, %llu refused, "
           "%llu beside unjudged, %llu changed\n%s", ask->dev->devnum,
           ask->is_unjudged ? "unjudged" : is_judged ? "judged" : "nothing", ask->starts,
           ask->questions, ask->noes, ask->refused, ask->beside, ask->changed, ask->told);
}

/* The panel command chanv. Other commands are for others. */
static int command(int argc, char *argv[], char *line)
{
    int (*next)(int, char **, char *) = HDL_FINDNXT(command);
    const struct disk *disk;

    if (argc < 1 || strcasecmp(argv[0], "chanv") != 0)
        return next != NULL ? next(argc, argv, line) : 0;
    pthread_mutex_lock(&flight.lock);
    show_version();
    for (disk = disks; disk != NULL; disk = disk->next)
        if (disk->ask.extent_count > 0)
            show_disk(&disk->ask);
    pthread_mutex_unlock(&flight.lock);
    return 1;
}

/* When Hercules loads the module, it compares version and size of what its headers lay out. */
HDL_DEPENDENCY_SECTION;
    HDL_DEPENDENCY(HERCULES);
    HDL_DEPENDENCY(REGS);
    HDL_DEPENDENCY(DEVBLK);
    HDL_DEPENDENCY(SYSBLK);
END_DEPENDENCY_SECTION

HDL_REGISTER_SECTION;
    HDL_REGISTER(system_command, command);
    show_version();
END_REGISTER_SECTION

HDL_DEVICE_SECTION;
    unopened = ckddasd_device_hndinfo;
    unopened.init = our_init;
    HDL_DEVICE(2311, unopened);
    HDL_DEVICE(2314, unopened);
END_DEVICE_SECTION

HDL_INSTRUCTION_SECTION;
    hdl_init_dins(HDL_INSTARCH_370, 0x9C00, "start_io", start_io);
END_INSTRUCTION_SECTION

static void free_disks(void)
{
    struct disk *next;

    for (; disks != NULL; disks = next) {
        next = disks->next;
        free(disks);
    }
    flight.rows = CHANVASK_LOWS;
}

/* A disk that is attached, or a program in flight, uses the module. */
HDL_FINAL_SECTION;
    const struct disk *disk;

    for (disk = disks; disk != NULL; disk = disk->next)
        if (disk->ask.running > 0 || disk->ask.dev->hnd == &disk->ours)
            return -1;
    free_disks();
END_FINAL_SECTION
