# Starts search loops that find nothing on the disks from 191 on, one on each, and then, beside
# them, a program on the disk at 190. It stops in a disabled wait, whose low byte is the channel
# status with which the last program on 190 ended.
#
#   loops     how many loops there are, 1 if left out
#   apart     with it, what a loop would read goes beside the program on 190, and not over it
#   rounds    how often the program on 190 is started, once if left out; 0: never
#   still     with it, the loops do nothing to the disks, so that Hercules's cache of tracks rests
#   spoil     with it, the processor changes a CCW of the loops, and
#   release   with it, what they look for, so that they end
#   halts     with it, a Halt I/O is issued to 191 meanwhile
#   prints    with it, a program is started on the printer at 00E meanwhile

        .macro  ccw code, address, flags, count
        .long   (\code << 24) + \address, ((\flags) << 24) + \count
        .endm
        .ifndef loops
        .equ    loops, 1
        .endif
        .ifndef rounds
        .equ    rounds, 1
        .endif

        .text
        .globl  _start
_start: .long   0, main                 # the PSW for a restart
        .org    0x68
        .long   0x00020000, 0xDEAD      # for a program check: a disabled wait
        .org    0x78
        .long   0, ended                # for an input/output interruption

        .org    0x200
main:   la      %r1,0x80                # the 2,048 bytes from 800 on have key 8, all others key 0
        la      %r3,0x800
        .short  0x0813                  # SSK 1,3
        la      %r6,0
        la      %r2,0x191
        la      %r8,loops
        l       %r4,caws
        st      %r4,0x48
begin:  .long   0x9C002000              # SIO 0(2)
        la      %r2,1(%r2)
        bct     %r8,begin
        l       %r9,delay               # until they are on their way
wait:   bct     %r9,wait
        .ifdef  halts
        la      %r2,0x191
        .long   0x9E002000              # HIO 0(2)
        .endif
        .ifdef  prints
        l       %r4,caws+8
        st      %r4,0x48
        la      %r2,0xE
        .long   0x9C002000
        .endif
        .ifdef  spoil
        xi      loop + 5,1              # the spare byte of its first CCW
        .endif
        .ifdef  release
        mvc     key(5),ten + 2
        .endif
        la      %r2,0x190
        l       %r9,times
        ltr     %r9,%r9
        bc      8,idle                  # it only waits for the loops
again:  l       %r4,caws+4
        st      %r4,0x48
        .long   0x9C002000
idle:   lpsw    busy
ended:  lh      %r5,0x3A                # the device that interrupts
        n       %r5,low
        cr      %r5,%r2
        bc      7,idle
        ic      %r6,0x45                # the channel status
        bct     %r9,again
        st      %r6,halt+4
        lpsw    halt

        .balign 8
busy:   .long   0xFE020000, 0           # waits for an interruption
halt:   .long   0x00020000, 0
caws:   .long   0x80000000 + loop, 0x80000000 + good, 0x80000000 + print
delay:  .long   5000000
low:    .long   0xFFF
times:  .long   rounds

        .org    0x800                   # seek to cylinder 10, head 0, and read record zero
good:   ccw     0x07, ten, 0x40, 6
        ccw     0x39, ten + 2, 0x60, 4
        ccw     0x08, good + 8, 0, 0
        ccw     0x16, record, 0x20, 16

        .org    0x840                   # looks for a record, and reads it over the CCWs at 800
loop:
        .ifdef  still
        ccw     0x03, 0, 0x60, 1
        ccw     0x08, loop, 0, 0
        .endif
        ccw     0x07, ten, 0x40, 6
        ccw     0x31, key, 0x60, 5
        ccw     0x08, loop, 0, 0
        .ifdef  apart
        ccw     0x06, record, 0x20, 16
        .else
        ccw     0x06, good, 0x20, 16
        .endif
print:  ccw     0x03, 0, 0x20, 1        # does nothing

        .org    0x900
ten:    .short  0, 10, 0                # bin, cylinder, head
record: .skip   16
key:    .byte   0, 99, 0, 9, 9          # no record has it
        .org    0x1000
