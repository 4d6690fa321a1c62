# Reads one record of a disk: a seek, the usual search loop, and a read into a buffer.

        .macro  ccw code, address, flags, count
        .long   (\code << 24) + \address, ((\flags) << 24) + \count
        .endm

        .equ    chain, 0x40             # chain command: another operation follows
        .equ    any_length, 0x20        # suppress length indication

        .ifndef length
        .equ    length, 80              # how many bytes are read
        .endif

        .data
        .globl  _start
buffer: .skip   80

        .balign 8
_start: ccw     0x07, track, chain, 6           # Seek
search: ccw     0x31, record, chain+any_length, 5       # Search Identifier Equal
        ccw     0x08, search, 0, 0              # not this record: try the next
        ccw     0x06, buffer, any_length, length        # Read Data

track:  .short  0, 12, 3                # bin, cylinder, head
record: .short  12, 3                   # cylinder, head
        .byte   2                       # and number of the record
