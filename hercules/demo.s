# Starts three channel programs on the disk at 190, one after the other, and stops in a disabled
# wait. The three low bytes of its PSW are the channel statuses with which they ended. With `rounds`
# defined it starts the first of them alone, so many times, under the key that `key` says, and with
# `changing` defined it changes a byte of it after each of them. With `around` defined it starts a
# fourth alone; then the last byte but one is the cylinder whose home address was read. With
# `masked` defined it sets the mask 18, by which a seek is inhibited, in a start of its own, then
# starts a seek, and then the same seek through a prefix that sets the mask; the bytes are unit
# statuses. With `low` defined it starts a program alone that is in low storage.

        .macro  ccw code, address, flags, count
        .long   (\code << 24) + \address, ((\flags) << 24) + \count
        .endm

        .equ    chain, 0x40             # chain command
        .equ    chain_data, 0x80
        .equ    any_length, 0x20        # suppress length indication
        .ifndef key
        .equ    key, 8
        .endif
        .ifdef  around
        .equ    alone, 1
        .endif
        .ifdef  masked
        .equ    alone, 1
        .endif

        .ifdef  low
        .equ    alone, 1
        .endif

        .text
        .globl  _start
_start: .long   0, main                 # the PSW for a restart
        .org    0x68
        .long   0x00020000, 0xDEAD      # for a program check: a disabled wait
        .org    0x78
        .long   0, ended                # for an input/output interruption

        .org    0x180
in_low: ccw     0x03, 0, any_length, 1

        .org    0x200
main:   la      %r1,0x80                # the 2,048 bytes from 800 on have key 8, all others key 0
        la      %r3,0x800
        .short  0x0813                  # SSK 1,3
        la      %r2,0x190
        la      %r5,0
        la      %r7,0
next:   l       %r4,caws(%r5)
        st      %r4,0x48
        l       %r9,times
again:  .long   0x9C002000              # SIO 0(2)
        lpsw    busy
ended:
        .ifdef  changing
        xi      good + 5,1              # the spare byte of its first CCW
        .endif
        bct     %r9,again
        la      %r6,0
        .ifdef  masked
        ic      %r6,0x44                # the unit status
        .else
        ic      %r6,0x45                # the channel status
        .endif
        sll     %r7,8
        or      %r7,%r6
        la      %r5,4(%r5)
        l       %r8,caws(%r5)
        ltr     %r8,%r8
        bc      6,next
        .ifdef  around
        la      %r6,0
        ic      %r6,home+2
        sll     %r6,8
        or      %r7,%r6
        .endif
        st      %r7,halt+4
        lpsw    halt

        .balign 8
busy:   .long   0xFE020000, 0           # waits for the interruption
halt:   .long   0x00020000, 0
caws:
        .ifdef  around
        .long   (key << 28) + goes_on
        .endif
        .ifdef  masked
        .long   (key << 28) + sets_mask, (key << 28) + seeks, (key << 28) + prefix
        .endif
        .ifdef  low
        .long   (key << 28) + in_low
        .endif
        .ifndef alone
        .long   (key << 28) + good
        .ifndef rounds
        .long   (key << 28) + outside, (key << 28) + past
        .endif
        .endif
        .ifndef rounds
        .equ    rounds, 1
        .endif
        .long   0
times:  .long   rounds

        .org    0x800                   # seek to cylinder 10, head 0, and read record zero
good:   ccw     0x07, ten, chain, 6
        ccw     0x39, ten + 2, chain+any_length, 4
        ccw     0x08, good + 8, 0, 0
        ccw     0x16, record, any_length, 16

        .org    0x840                   # the same on cylinder 20
outside:
        ccw     0x07, twenty, chain, 6
        ccw     0x39, twenty + 2, chain+any_length, 4
        ccw     0x08, outside + 8, 0, 0
        ccw     0x16, record, any_length, 16

        .org    0x880                   # as the first, but it reads past the bytes that have key 8
past:   ccw     0x07, ten, chain, 6
        ccw     0x39, ten + 2, chain+any_length, 4
        ccw     0x08, past + 8, 0, 0
        ccw     0x16, 0xFF8, any_length, 16

        .org    0x8C0                   # ends here on a channel, but Hercules goes on to cylinder 5
goes_on:
        ccw     0x03, 0, chain_data+chain, 1
        ccw     0x07, five, chain, 6
        ccw     0x1A, home, any_length, 5

        .org    0x900
ten:    .short  0, 10, 0                # bin, cylinder, head
twenty: .short  0, 20, 0
record: .skip   16
five:   .short  0, 5, 0
home:   .skip   5
mask:   .byte   0x18

        .org    0x940
sets_mask:
        ccw     0x1F, mask, 0, 1
seeks:  ccw     0x07, ten, 0, 6
prefix: ccw     0x07, ten, chain, 6
        ccw     0x1F, mask, chain, 1
        ccw     0x08, seeks, 0, 0
        .org    0x1000
