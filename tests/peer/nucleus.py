"""A supervisor for System/370 that carries out one channel program after another, assembled here.

It runs with a prefix, so that its own low storage isn't the first 4,096 bytes that a channel sees:
from address 0 on all storage is the program's. A tape brings the jobs, and another takes the
results, so that one start of the emulator is enough for thousands of runs. A job has these words:

    0    device, the word for CAW, the time limit in units of 16 microseconds
    12   how many runs of storage keys there are; at 64 each one's address, blocks of 2K, and key
    16   how many puts there are; at 128 each one's address, and its eight bytes

A result has its job's number, the condition code of SIO, the CSW, flags, and the home address
where the arm stands. Storage as the run left it comes after each result.
"""

import re
import struct

CODE, DATA, PREFIX, JOB = 0xE00000, 0xE01000, 0xE10000, 0xE20000
COPY = 0xC00000  # where storage is copied to, as a run leaves it
PROGRAM = 0xD00000  # the channel program that leads to the job's
SIZE = 0x8000  # as much storage as a job may have
HOME = DATA + 0x114  # where a home address comes
FINAL, LATE, STUCK, HAS_HOME = 0x80, 0x20, 0x10, 0x04

# R11 leads to the data, R12 to the code, R13 to the job
DATA_AT = """now 0 began 8 siocc 10 flags 18 csw 20 limit 28 rdccw 40 wrccw 50 dmpccw 58 haccw 60
saved 70 one 80 block 84 first 88 rest 8C prefix 90 aprefix 94 long 98 acopy 9C waitpsw C0 errpsw C8
result 100""".split()
SYMBOLS = {name: (int(at, 16), 11) for name, at in zip(DATA_AT[::2], DATA_AT[1::2])}

SOURCE = """
        BALR  12,0
        L     11,adata
        L     13,ajob
        SPX   prefix
next    LA    1,rdccw  ; read a job
        LA    2,1152(0)
        MVC   limit(4),long
        BAL   14,doio
        TM    csw+4,1  ; unit exception: the end of the tape
        BC    1,done
        TM    csw+4,2
        BC    1,error
        XC    result+4(60),result+4
        L     0,result
        A     0,one
        ST    0,result
        BAL   10,clear
        L     7,12(13)
        LA    6,64(13)
keys    LM    3,5,0(6)
key     SSK   5,3
        A     3,block
        BCT   4,key
        LA    6,12(6)
        BCT   7,keys
        L     7,16(13)
        LA    6,128(13)
puts    L     3,0(6)
        MVC   0(8,3),4(6)
        LA    6,12(6)
        BCT   7,puts
        L     1,4(13)  ; the run itself
        L     2,0(13)
        MVC   limit(4),8(13)
        BAL   14,doio
        MVC   result+4(4),siocc
        MVC   result+8(8),csw
        MVC   result+16(1),flags
        TM    flags,32
        BC    1,copied  ; after its time the copy is made already
        BAL   10,copy
copied  LA    1,haccw
        L     2,0(13)
        MVC   limit(4),long
        BAL   14,doio
        TM    csw+4,2
        BC    1,told
        OI    result+16,4
told    LA    1,wrccw
        LA    2,1153(0)
        BAL   14,doio
        LA    1,dmpccw
        LA    2,1153(0)
        BAL   14,doio
        BC    15,next
done    LPSW  waitpsw
error   LPSW  errpsw
doio    ST    1,72(0)  ; R1 is for CAW, R2 is the device
        MVI   flags,0
        XC    csw(8),csw
        STCK  began
        SIO   0(2)
        BALR  0,0
        ST    0,siocc
        BC    4,stored
        BC    1,return
poll    TCH   0(2)
        BC    4,tio
        TM    flags,128
        BC    1,return
        LA    0,400(0)
spin    BCT   0,spin
        BC    15,clock
tio     TIO   0(2)
        BC    4,stored
        BC    9,return
clock   STCK  now
        LM    4,5,began
        SRDL  4,16(0)
        ST    5,saved
        LM    4,5,now
        SRDL  4,16(0)
        SL    5,saved
        CL    5,limit
        BC    4,poll
        TM    flags,32
        BC    1,stuck
        OI    flags,32  ; the time is over: a zero count ends each loop
        BAL   10,copy
        HIO   0(2)
        BAL   10,clear
        STCK  began
        MVC   limit(4),long
        BC    15,poll
stuck   OI    flags,16
return  BCR   15,14
stored  CLI   68(0),0  ; a program-controlled interruption alone goes on
        BC    7,final
        CLI   69(0),128
        BC    8,poll
final   MVC   csw(8),64(0)
        OI    flags,128
        BC    15,poll
clear   L     4,aprefix  ; absolute 0 is at the prefix, and the rest at its own address
        L     5,first
        SR    8,8
        SR    9,9
        MVCL  4,8
        L     4,first
        L     5,rest
        SR    9,9
        MVCL  4,8
        BCR   15,10
copy    L     8,acopy
        L     4,aprefix
        L     9,first
        LR    5,9
        MVCL  8,4
        L     4,first
        L     9,rest
        LR    5,9
        MVCL  8,4
        BCR   15,10
"""

RR = {"BALR": 0x05, "SSK": 0x08, "MVCL": 0x0E, "LR": 0x18, "SR": 0x1B, "BCR": 0x07}
RX = {"L": 0x58, "LA": 0x41, "ST": 0x50, "A": 0x5A, "SL": 0x5F, "CL": 0x55, "BC": 0x47}
RX |= {"BAL": 0x45, "BCT": 0x46}
RS = {"LM": 0x98, "SRDL": 0x8C}
SI = {"TM": 0x91, "MVI": 0x92, "CLI": 0x95, "OI": 0x96}
S = {"SPX": 0xB210, "STCK": 0xB205, "SIO": 0x9C00, "TIO": 0x9D00, "HIO": 0x9E00, "TCH": 0x9F00}
S |= {"LPSW": 0x8200}
SS = {"MVC": 0xD2, "XC": 0xD7}


def size_of(name):
    return 2 if name in RR else 6 if name in SS else 4


# a name or a number, with what is added to it, and a length, a base or both
OPERAND = re.compile(r"(\w+)(?:\+(\d+))?(?:\((\d+)(?:,(\d+))?\))?,?")


def operands_of(text, labels):
    """Numbers as they are, and each address as its displacement, base and length."""
    for name, more, first, second in OPERAND.findall(text):
        if name in labels:
            yield labels[name], 12, None
        elif name in SYMBOLS:
            at, base = SYMBOLS[name]
            yield at + int(more or 0), base, int(first or 0)
        elif first:
            yield int(name), int(second or first), int(first)
        else:
            yield int(name)


def encoded(name, operands):
    match operands:
        case [first, second] if name in RR:
            return bytes([RR[name], first << 4 | second])
        case [register, (at, base, _)] if name in RX:
            return struct.pack(">BBH", RX[name], register << 4, base << 12 | at)
        case [*registers, (at, base, _)] if name in RS:
            first, third = (registers + [0])[:2]
            return struct.pack(">BBH", RS[name], first << 4 | third, base << 12 | at)
        case [(at, base, _), immediate] if name in SI:
            return struct.pack(">BBH", SI[name], immediate, base << 12 | at)
        case [(at, base, _)] if name in S:
            return struct.pack(">HH", S[name], base << 12 | at)
        case [(to, base, count), (at, other, _)] if name in SS:
            return struct.pack(">BBHH", SS[name], count - 1, base << 12 | to, other << 12 | at)


def assembled():
    """The code; R12 has the address of what comes after its first instruction."""
    lines = [line.partition(";")[0].split() for line in SOURCE.splitlines() if line]
    labels, at = {}, -2
    for line in lines:
        if len(line) == 3:
            labels[line[0]] = at
        at += size_of(line[-2])
    labels |= {"adata": at, "ajob": at + 4}
    code = b"".join(encoded(line[-2], [*operands_of(line[-1], labels)]) for line in lines)
    return code + struct.pack(">II", DATA, JOB)


def ccw(code, address, flags, count):
    return struct.pack(">IBBH", code << 24 | address, flags, 0, count)


def pieces():
    """Each piece of storage at the start: its address and its bytes."""
    data = bytearray(0x200)
    for name, held in {
        "rdccw": ccw(0x02, JOB, 0x20, 0xFFFF),
        "wrccw": ccw(0x01, DATA + 0x100, 0x20, 64),
        "dmpccw": ccw(0x01, COPY, 0x20, SIZE),
        "haccw": ccw(0x1A, HOME, 0x20, 5),
        "one": struct.pack(">I", 1),
        "block": struct.pack(">I", 2048),
        "prefix": struct.pack(">I", PREFIX),
        "first": struct.pack(">I", 0x1000),
        "rest": struct.pack(">I", SIZE - 0x1000),
        "aprefix": struct.pack(">I", PREFIX),
        "acopy": struct.pack(">I", COPY),
        "long": struct.pack(">I", 3_000_000 // 16),
        "waitpsw": bytes.fromhex("0002000000000D0E"),
        "errpsw": bytes.fromhex("0002000000000BAD"),
        "result": struct.pack(">i", -1),
    }.items():
        at, _ = SYMBOLS[name]
        data[at : at + len(held)] = held
    low = bytearray(0x80)  # new PSWs: any interruption stops the machine
    for number, at in enumerate(range(0x58, 0x80, 8)):
        low[at : at + 8] = struct.pack(">II", 0x00020000, 0xE1 + number)
    restart = struct.pack(">II", 0, CODE)
    return [(0, restart), (CODE, assembled()), (DATA, bytes(data)), (PREFIX, bytes(low))]
