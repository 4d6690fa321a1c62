"""The channel and the disk by docs/DEVICE.md: CCWs, commands, file masks, extents."""

from typing import NamedTuple

CHAIN_DATA, CHAIN_COMMAND, SKIP, LOW_BITS = 0x80, 0x40, 0x10, 0x07
GROUPS = {0b0000: "invalid", 0b0100: "sense", 0b1000: "transfer", 0b1100: "read-backward"}
LOW_GROUPS = {0b01: "write", 0b10: "read", 0b11: "control"}
HEADS = {2311: 10, 2314: 20}
LAST_CYLINDER = 202

# the code, that of the multi-track form, the name, the kind, the mask class
TABLE = """
03 -- no-operation idle Plain
07 -- seek outward Seek
0B -- seek-cylinder outward SeekCylinder
1B -- seek-head outward SeekHead
13 -- recalibrate idle Recalibrate
1F -- set-file-mask outward SetMask
04 -- sense inward Plain
39 B9 search-home-address-equal search Plain
31 B1 search-id-equal search Plain
51 D1 search-id-high search Plain
71 F1 search-id-equal-or-high search Plain
29 A9 search-key-equal search Plain
49 C9 search-key-high search Plain
69 E9 search-key-equal-or-high search Plain
1A 9A read-home-address inward Plain
12 92 read-count inward Plain
16 96 read-record-zero inward Plain
06 86 read-data inward Plain
0E 8E read-key-data inward Plain
1E 9E read-count-key-data inward Plain
19 -- write-home-address outward WriteHome
15 -- write-record-zero outward WriteHome
1D -- write-count-key-data outward WriteFormat
01 -- write-special-count-key-data outward WriteFormat
11 -- erase outward WriteFormat
05 -- write-data outward WriteUpdate
0D -- write-key-data outward WriteUpdate
"""

INHIBITED = {
    0xC0: {
        0x00: {"WriteHome"},
        0x40: {"WriteHome", "WriteFormat", "WriteUpdate"},
        0x80: {"WriteHome", "WriteFormat"},
        0xC0: set(),
    },
    0x18: {
        0x00: set(),
        0x08: {"Seek", "Recalibrate"},
        0x10: {"Seek", "Recalibrate", "SeekCylinder"},
        0x18: {"Seek", "Recalibrate", "SeekCylinder", "SeekHead"},
    },
}
MASKS = [writes | seeks for writes in INHIBITED[0xC0] for seeks in INHIBITED[0x18]]


class Command(NamedTuple):
    name: str
    kind: str
    mask_class: str

    def is_seek(self):
        return self.mask_class in ("Seek", "SeekCylinder", "SeekHead")


def commands():
    for line in TABLE.split("\n")[1:-1]:
        code, multi_track, name, kind, mask_class = line.split(" ")
        yield int(code, 16), Command(name, kind, mask_class)
        if multi_track != "--":
            yield int(multi_track, 16), Command(f"{name}-mt", kind, mask_class)


COMMANDS = dict(commands())


class Ccw(NamedTuple):
    code: int
    address: int
    flags: int
    spare: int
    count: int

    def is_transfer(self):
        return self.code & 0x0F == 0x08

    def text(self):
        letters = (c if self.flags & 0x80 >> at else "-" for at, c in enumerate("DCLSP"))
        flags = f"{''.join(letters)}{self.flags & LOW_BITS}"
        group = GROUPS.get(self.code & 0x0F) or LOW_GROUPS[self.code & 0b11]
        return (
            f"{self.code:02X} {self.address:06X} {flags} {self.spare:02X} {self.count:04X} {group}"
        )


def ccw_at(storage, address):
    """The CCW at an address that is a multiple of 8, if its eight bytes are in storage."""
    if address % 8 or address + 8 > len(storage):
        return None
    word = storage[address : address + 8]
    return Ccw(word[0], int.from_bytes(word[1:4]), word[4], word[5], int.from_bytes(word[6:8]))


def inhibited(mask):
    return INHIBITED[0xC0][mask & 0xC0] | INHIBITED[0x18][mask & 0x18]


def is_at_least(byte, mask):
    """Whether a byte is a file mask, and at least as strict as this one."""
    return byte in MASKS and inhibited(byte) >= inhibited(mask)


def covers(areas, start, length):
    at, end = start, start + length
    while at < end:
        ends = (first + size for first, size in areas if first <= at < first + size)
        reached = max(ends, default=at)
        if reached == at:
            return False
        at = reached
    return True


def has_cylinder(extents, cylinder):
    return any(first <= cylinder <= last for first, last in extents)


def fields_of(argument):
    """Bin, cylinder and head."""
    return [int.from_bytes(argument[at : at + 2]) for at in (0, 2, 4)]


def is_allowed(device, extents, argument):
    bin_number, cylinder, head = fields_of(argument)
    return bin_number == 0 and has_cylinder(extents, cylinder) and head < HEADS[device]
