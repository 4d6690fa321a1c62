"""NULL with a length of 0, for each list of each call by itself and for all of a call at once.

A call has to answer and write the same as with another pointer in NULL's place, also where it may
be NULL without a length. The codes come from
the rules: over the search loop, of which 24 bytes are kept, 5 are fetched and 80 stored.
"""

from ctypes import Array, Structure, byref, c_char, c_size_t, c_uint8, c_uint16, c_uint32, c_void_p
from ctypes import cast

from package import package

STORAGE, START, ROOM = 0x1000, 0x800, 4
LOOP = "3100090040000005 0800080000000000 06000A0020000050"
OF_JOB, OF_ROWS = "storage extents fetch store".split(), "extents fetch store keep kept".split()

SOME, EACH, ALL = [(10, 19)], [(0, 202)], [(0, STORAGE)]
FETCH, STORE = [(0x900, 0x10)], [(0xA00, 0x100)]
ARGUMENT, RECORD, CCWS = [(0x900, 5)], [(0xA00, 0x50)], [(START, 24)]

# each call with its lists, and its code if the first is empty, the second and so on, and all
CALLS = [
    ("verify", OF_JOB, "1 7 1 1 7"),
    ("list", OF_JOB, "0 7 0 0 7"),
    ("why", OF_JOB, "1 7 1 1 7"),
    ("text", OF_JOB, "1 7 1 1 7"),
    ("take_in", ["storage", "own"], "1 1 1"),
    ("take_in_untold", ["len", "out"], "0 0 0"),
    ("start", OF_JOB, "1 7 1 1 7"),
    ("list_into", ["rows"], "11 11"),
    ("why_into", ["path", "second path"], "1 1 1"),
    ("text_into", ["buffer"], "11 11"),
    ("take_in_into", ["memory"], "11 11"),
    ("start_with_rows", OF_ROWS, "0 0 0 0 1 0"),
    ("start_beside_all", OF_ROWS, "1 1 1 1 1 0"),
    ("start_all_beside", OF_ROWS, "1 1 1 1 1 0"),
    ("start_alike", OF_ROWS, "1 1 0 0 1 0"),
    ("write_over", OF_ROWS, "1 1 1 0 1 0"),
    ("write_with_none", ["in flight"], "0 0"),
    ("find", ["storage", "starts"], "0 11 0"),
    ("prefix", OF_JOB, "1 7 0 0 7"),
    ("prefix_into", ["bytes"], "11 11"),
]


def value_of(it):
    """All that a struct or an array holds, without the bytes between fields, which mean nothing."""
    if isinstance(it, Structure):
        return [value_of(getattr(it, name)) for name, *_ in it._fields_]
    return [value_of(element) for element in it] if isinstance(it, Array) else it


class Asking:
    """The calls, with some lists empty, by NULL or by another pointer. Each gives its code and all
    that it may write."""

    def __init__(self, c, empty, by_null):
        self.c, self.library, self.empty, self.by_null = c, c.library, empty, by_null
        self.held = []
        image = bytes(START) + bytes.fromhex(LOOP)
        self.image = (c_uint8 * STORAGE)(*image)

    def list_at(self, number, made):
        """A list's pointer and length, if the list with this number is empty or not."""
        self.held.append(made)
        is_empty = number in self.empty
        return None if is_empty and self.by_null else made, 0 if is_empty else len(made)

    def bytes_at(self, number):
        at, count = self.list_at(number, self.image)
        return self.c.Bytes(cast(at, c_void_p), count)

    def areas(self, number, rows):
        return self.c.Areas(*self.list_at(number, (self.c.Area * len(rows))(*rows)))

    def extents(self, number, rows):
        return self.c.Extents(*self.list_at(number, (self.c.Extent * len(rows))(*rows)))

    def job(self, first=0, extents=SOME, fetch=FETCH, store=STORE):
        """The job of the search loop; its lists have the numbers from the first on."""
        lists = self.extents(first + 1, extents), self.areas(first + 2, fetch)
        return self.c.Job(
            self.bytes_at(first), *lists, self.areas(first + 3, store), START, 4096, 2314, 0
        )

    def full(self, **lists):
        """The same, with no list empty."""
        return self.job(first=100, **lists)

    def program(self, first=0):
        """A program that needs and keeps all there is, but for the lists that are empty."""
        areas = [self.areas(first + number, ALL) for number in (1, 2, 3)]
        rows = self.c.Rows(self.extents(first, EACH), *areas, STORAGE, 0x58)
        return self.c.Program(rows, self.bytes_at(first + 4), START, 2314)

    def written(self, call, *given):
        """Calls, and gives the code with what was written; a class stands for a struct of it."""
        made = [it() if isinstance(it, type) else it for it in given]
        code = call(*(byref(it) if hasattr(it, "_fields_") else it for it in made))
        outputs = [it for it, kind in zip(made, given) if isinstance(kind, type)]
        return code, [value_of(it) for it in (*outputs, *self.held)]

    def rows(self, number, kind, room=ROOM):
        at, count = self.list_at(number, (kind * room)())
        return at, c_size_t(count)

    def verify(self):
        return self.written(self.library.chanv_verify, self.job(), self.c.Verdict)

    def list(self, first=0, list_number=100):
        count, extent = c_size_t(77), c_size_t(77)
        given = *self.rows(list_number, self.c.Place), byref(count), byref(extent)
        code, seen = self.written(self.library.chanv_list, self.job(first), *given)
        return code, [*seen, count.value, extent.value]

    def list_into(self):
        return self.list(100, 0)

    def counted(self, call, *given):
        count = c_size_t(77)
        code, seen = self.written(call, *given, byref(count))
        return code, [*seen, count.value]

    def why(self):
        return self.why_of(self.job(), 100)

    def why_into(self):
        """Nothing is lent for storing, so that there is a path, and no second one."""
        return self.why_of(self.full(store=[]), 0)

    def why_of(self, job, first):
        paths = *self.rows(first, self.c.Place), *self.rows(first + 1, self.c.Place)
        return self.written(self.library.chanv_why, job, *paths, self.c.Explanation)

    def text(self):
        return self.text_of(self.library.chanv_text, self.job(), 100)

    def text_into(self):
        return self.text_of(self.library.chanv_text, self.full(), 0)

    def text_of(self, call, job, number):
        return self.counted(call, job, *self.rows(number, c_char, 1024))

    def source(self, first):
        """The search loop, what its user owns, and that it may do nothing."""
        source = self.c.Source(self.bytes_at(first), START, 4096, 2314)
        return source, self.areas(first + 1, ALL), c_uint32(0)

    def take_in(self):
        return self.take_in_of(self.source(0), 100)

    def take_in_into(self):
        return self.take_in_of(self.source(100), 0)

    def take_in_of(self, asked, first):
        """The program's addresses are others each time, and its lists are in the memory."""
        memory, program = self.rows(first, c_char, 1024), self.c.Program()
        count, out = c_size_t(77), self.c.Intake()
        given = *asked, *memory, byref(count), byref(program), byref(out)
        code, seen = self.written(self.library.chanv_take_in, *given)
        return code, [*seen, count.value, value_of(out), program.rows.keep.len]

    def take_in_untold(self):
        """Without the length, without what it says of the program, or without both."""
        length, out = (
            None if at in self.empty and self.by_null else byref(kind())
            for at, kind in enumerate((c_size_t, self.c.Intake))
        )
        memory, program = self.rows(100, c_char, 1024), self.c.Program()
        asked = *self.source(100), *memory, length, byref(program), out
        code, seen = self.written(self.library.chanv_take_in, *asked)
        return code, [*seen, program.start, program.rows.keep.len, program.kept.len]

    def start(self):
        """Whether the search loop may start under the job."""
        job = self.job()
        lists = [self.areas(100, rows) for rows in (ARGUMENT, RECORD, CCWS)]
        rows = self.c.Rows(self.extents(100, []), *lists, job.storage.len, 0x58)
        kept = self.c.Bytes(cast(self.image, c_void_p).value + START, 24)
        return self.start_of(job, self.c.Program(rows, kept, START, 2314))

    def start_of(self, job, program, *in_flight):
        flying = (self.c.Row * len(in_flight))(*(self.c.Row(it) for it in in_flight))
        given = job, flying, c_size_t(len(in_flight)), program, self.c.Refusal
        return self.written(self.library.chanv_check_start, *given)

    def start_with_rows(self):
        """The job grants all that the other lists need, and nothing of what the empty one would."""
        lent = [usual if at in self.empty else all_of for at, usual, all_of in LENT]
        job = self.full(extents=lent[0], fetch=lent[1], store=lent[2])
        return self.start_of(job, self.program())

    def beside(self, program, other):
        """Under a job that grants everything, so that only the two programs count."""
        return self.start_of(self.full(extents=EACH, fetch=ALL, store=ALL), program, other)

    def start_beside_all(self):
        return self.beside(self.program(), self.program(100))

    def start_all_beside(self):
        return self.beside(self.program(100), self.program())

    def start_alike(self):
        return self.beside(self.program(), self.program())

    def write_of(self, at, count):
        given = at, c_size_t(count), byref(self.c.Area(*ALL[0])), self.c.Refusal
        return self.written(self.library.chanv_check_write, *given)

    def write_over(self):
        return self.write_of(byref(self.c.Row(self.program())), 1)

    def write_with_none(self):
        given = self.list_at(0, (self.c.Row * 1)(self.c.Row(self.program(100))))
        self.held.pop()  # its addresses are others each time
        return self.write_of(*given)

    def prefix(self):
        return self.prefix_of(self.job(), 100)

    def prefix_into(self):
        return self.prefix_of(self.full(), 0)

    def prefix_of(self, job, number):
        given = job, c_uint32(0x700), *self.rows(number, c_uint8, 64)
        return self.counted(self.library.chanv_make_prefix, *given)

    def find(self):
        image, rows = self.bytes_at(0), self.rows(1, c_uint32)
        return self.counted(self.library.chanv_find, byref(image), c_uint16(2314), *rows)


# the lists of rows with what a job lends if they are empty, and if they aren't
LENT = [(0, SOME, EACH), (1, FETCH, ALL), (2, STORE, ALL)]


def check(checks, built):
    c = package(built, "chanv._c")
    for name, lists, codes in CALLS:
        each = [*((it, {at}) for at, it in enumerate(lists)), ("all", {*range(len(lists))})]
        for (which, empty), code in zip(each, codes.split(), strict=True):
            told = [getattr(Asking(c, empty, by_null), name)() for by_null in (True, False)]
            checks.expect(f"{name}, {which}", int(code), told[0][0])
            checks.expect(f"{name}, {which}, with another pointer", told[1], told[0])
