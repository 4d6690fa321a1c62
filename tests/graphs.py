"""The pictures that `chanv graph` draws, read back and compared with the model.

    tests/run graphs

Of each example and of 500 other jobs: the rows are exactly the places that the model reaches, apart
from transfers without a fault; each arrow is a successor, through such a transfer or not; each
successor has its arrow, is the next row of its box, or is a search that a transfer repeats; and the
pink boxes are exactly the places that offend, with their reasons. An arrow within a box begins and
ends at its rows, one that leads back ends at the row that it leads to, and one that says `stores
over` leads from the row that stores to the row of the CCW or of a CCW that takes the argument, and
says `for the next run` exactly if no arrows lead from that row to this address. The title has the
verdict, the grants and the notes, a row says what its CCW does with its data, what it sets and what
stores over it, the arrow from `start` leads to the first row of a box, the boxes of one address,
and no others, are in its frame, and the boxes from which the program never ends, and no others, say
so.
"""

import re
import sys
import tempfile
from collections import Counter
from itertools import product
from pathlib import Path
from random import Random
from typing import NamedTuple

sys.dont_write_bytecode = True

from building import HERE  # noqa: E402
from examples import EXAMPLES, FOLDERS, decks_of  # noqa: E402
from running import run, text_of  # noqa: E402

sys.path.insert(0, str(HERE / "model"))

from channel import ccw_at  # noqa: E402
from judging import (  # noqa: E402
    FRESH,
    NUMBER,
    REASONS,
    Job,
    Place,
    command_at,
    does_fetch,
    does_store,
    endless,
    first_place,
    guarded,
    offences,
    path_to,
    reachable,
    stored_over,
    successors,
)
from making import changed, random_job  # noqa: E402
from writing import (  # noqa: E402
    amount_of,
    compared_by,
    deck_of,
    job_of,
    known_setting,
    reported_of,
    setting_text,
    verdict_of,
)

SEED, JOBS = 55, 500
# a longer listing takes the model long, and above so many boxes arrows have no labels
MOST_PLACES, MOST_LABELLED = 1000, 200
# of a longer box the first and the last half of so many rows are drawn; extents that a title names
MOST_ROWS, MOST_EXTENTS, MOST_NOTES = 40, 4, 8
WAYS = {"fresh": FRESH, "in": "inward", "out": "outward", "search": "search"}

TITLE = re.compile(r'digraph program \{\n  graph \[label="((?:[^"\\]|\\.)*)"')
BOX = re.compile(r'  "(\w+) (\w+) ([t-])" \[label=<<table border="(\d)" ([^>]*)>(.*)</table>>\];')
LINE = re.compile(r'<tr><td align="left"(?: port="(\w+)")?>([^<]*)</td></tr>')
FRAME = re.compile(r'  subgraph "cluster_(\w+)" \{.*')
ARROW = re.compile(r'  "([^"]*)"(?::(\w+):e)? -> "([^"]*)"(?::(\w+):e)?(?: \[(.*)\])?;')
CHAINED = re.compile(r"chained, (\w+)")
UNTIL = re.compile(r"until found \(TIC at (\w+)\)")
MOVES = re.compile(
    r"  (stores |fetches|skips  ) (\w+(?:-\w+)?, \d+ bytes?(?: \([^)]*\)+)?(?:, SLI)?(?:, PCI)?)"
)
SETTING = re.compile(r"  (\((?:cylinder|mask) [^)]*\))")
STORED = re.compile(r"  stored over by (\w+)$")
STORES = re.compile(r'label=" stores over( for the next run)? "')
REPORTED = re.compile(r"(, SLI)?(, PCI)?(?:  until found .*)?(?:  stored over .*)?$")
PINK, YELLOW, ENDLESS = "#FFE9E9", "#FFF6D5", "never ends by itself"


class Row(NamedTuple):
    """Places that differ in whether a transfer led there are one row, but for transfers."""

    address: int
    entered: str
    by_transfer: bool


def cell_of(row):
    return f"row{row.address:06X}"


class Wanted:
    """What the model wants drawn of a job: rows, arrows between them, and offences."""

    def __init__(self, job):
        self.job, self.storage, self.faults = job, job.storage, reachable(job)
        self.first = self.row(first_place(job))
        self.stored = self.stored_by(offences(job, self.faults))
        places = [place for place in self.faults if not self.is_passage(place)]
        self.rows = sorted({self.row(place) for place in places}, key=self.order)
        self.passages = {place.address for place in self.faults if self.is_passage(place)}
        self.reasons = {row: set() for row in self.rows}
        for place, reason in offences(job, self.faults):
            self.reasons[self.row(place)].add(reason)
        self.arrows = {row: self.arrows_of(row) for row in self.rows}
        self.moves = {row: self.move_of(row) for row in self.rows}
        self.settings = {row: self.setting_of(row) for row in self.rows}
        never = () if offences(job, self.faults) else endless(job, self.faults)
        self.endless = {self.row(place) for place in never}

    @staticmethod
    def order(row):
        return row.address, [*WAYS.values()].index(row.entered), row.by_transfer

    def is_transfer(self, place):
        ccw = ccw_at(self.storage, place.address)
        return ccw is not None and ccw.is_transfer()

    def is_passage(self, place):
        is_stored = place.address in self.stored
        return self.is_transfer(place) and not self.faults[place] and not is_stored

    def stored_by(self, found):
        """For each address of a CCW that is stored over what stores there: the first of the places
        that so offend or, where the verdict's place has no command, one of the path to it."""
        stored = {}
        for place in [place for place, reason in found if reason == "changes-ccw"]:
            ccw = ccw_at(self.storage, place.address)
            data = range(ccw.address, ccw.address + ccw.count)
            for address in {place.address for place in self.faults}:
                if data.start < address + 8 and address < data.stop:
                    stored.setdefault(address, place.address)
        if found and NUMBER[found[0][1]] <= 8:
            address, reason = found[0][0].address, found[0][1]
            ends = {place for place, word in found if (place.address, word) == (address, reason)}
            over = stored_over(self.job, path_to(self.job, self.faults, ends.__contains__))
            stored.update({address: over.address} if over else {})
        return stored

    def row(self, place):
        return Row(place.address, place.entered, self.is_transfer(place) and place.by_transfer)

    def arrows_of(self, row):
        """Of each successor its row, the transfer through which it is reached, and whether it is
        the one after a skip."""
        place = next(place for place in self.faults if self.row(place) == row)
        if self.faults[place]:
            return []
        found = []
        for number, target in enumerate(successors(place, ccw_at(self.storage, row.address))):
            through = None
            if self.is_passage(target):
                through = target.address
                [target] = successors(target, ccw_at(self.storage, target.address))
            found.append((self.row(target), through, number == 1))
        return found

    def move_of(self, row):
        """What the row's CCW does with its data, and the range, if it has data."""
        place, ccw = Place(*row), ccw_at(self.storage, row.address)
        if ccw is None or ccw.is_transfer() or ccw.count == 0:
            return None
        command = command_at(place, ccw)
        is_inward = place.entered == "inward" or command is not None and command.kind == "inward"
        if does_store(place, ccw):
            verb = "stores "
        elif does_fetch(place, ccw):
            verb = "fetches"
        elif is_inward:
            verb = "skips  "
        else:
            return None
        last = f"-{ccw.address + ccw.count - 1:06X}" if ccw.count > 1 else ""
        amount = f"{amount_of(ccw)}{compared_by(self.job, self.faults, place)}{reported_of(ccw)}"
        return verb, f"{ccw.address:06X}{last},{amount}"

    def setting_of(self, row):
        place = next(place for place in self.faults if self.row(place) == row)
        is_known = known_setting(self.job, self.faults, place) is not None
        return setting_text(self.job, place) if is_known else None

    def stored_over(self, row):
        """For each kind of guarded byte that a row stores over the addresses of which one is that
        of the CCW or of one that takes the argument."""
        place = next(place for place in self.faults if self.row(place) == row)
        ccw = ccw_at(self.storage, row.address)
        data = range(ccw.address, ccw.address + ccw.count) if ccw else ()
        found = []
        if "changes-ccw" in self.reasons[row]:
            over = {place.address for place in self.faults if over_ccw(data, place.address)}
            found.append({min(over)})
        if "changes-argument" in self.reasons[row]:
            byte = min(guarded(self.job, self.faults)[1].intersection(data))
            found.append({place.address for place in self.faults if self.takes(place, byte)})
        return found

    def takes(self, place, byte):
        """Whether the CCW at a place takes a byte as part of a seek argument or as a file mask."""
        ccw = ccw_at(self.storage, place.address)
        alone = {place: self.faults[place]} if ccw else {}
        return byte in guarded(self.job, alone)[1]

    def first_at(self, address):
        """The first row at an address, if it has one."""
        return next((row for row in self.rows if row.address == address), None)

    def after(self, row, count):
        """The row that comes so many rows later in a box."""
        for _ in range(count):
            [(row, _, _)] = self.arrows[row]
        return row

    def behind(self, row):
        """The rows to which a row leads by one arrow or more."""
        found, left = set(), [row]
        while left:
            targets = {target for target, *_ in self.arrows[left.pop()]} - found
            found |= targets
            left += targets
        return found

    def fault(self, row):
        """The own fault of its places, which is the same for all."""
        return next(fault for place, fault in self.faults.items() if self.row(place) == row)

    def until(self, row):
        """The transfer that repeats a search."""
        arrows = self.arrows[row]
        is_loop = len(arrows) == 2 and arrows[0][0] == row
        return arrows[0][1] if is_loop else None


def over_ccw(data, address):
    return any(address <= byte < address + 8 for byte in (*data,))


class Drawn:
    """What a picture has: a title, boxes of rows, the frame of each, arrows and ends."""

    def __init__(self, text, wanted=None):
        self.wanted = wanted
        self.title = TITLE.match(text)[1]
        self.boxes, self.pink, self.left_out, self.until, self.moves = {}, {}, {}, {}, {}
        self.named, self.cells, self.settings, self.stored = set(), {}, {}, {}
        self.endless, self.reported = {}, {}
        self.frames, frame = {}, None
        for line in text.splitlines():
            box, opened = BOX.fullmatch(line), FRAME.fullmatch(line)
            if box:
                address, way, transfer, border, style, lines = box.groups()
                name = f"{address} {way} {transfer}"
                if LINE.sub("", lines):
                    raise ValueError(f"a box has more than lines: {lines}")
                self.read_box(name, LINE.findall(lines.replace("&#160;", " ")), style)
                if border == "2":
                    self.named.add(name)
                self.frames[name] = frame
            elif opened:
                # a frame in a frame is none that any box wants
                frame = opened[1] if frame is None else f"{frame} {opened[1]}"
            elif line == "  }":
                frame = None
        self.arrows, self.ends, self.stores, self.found = Counter(), [], [], Counter()
        for source, source_cell, target, target_cell, style in ARROW.findall(text):
            ends = (source, source_cell), (target, target_cell)
            if target.startswith("end "):
                self.ends.append(source)
            elif label := STORES.search(style):
                self.stores.append((*ends, "dotted" in style, bool(label[1])))
            else:
                through = re.search(r"TIC at (\w+)", style)
                through = int(through[1], 16) if through else None
                self.arrows[*ends, through, "dashed" in style] += 1
                self.found["dashed" in style, '" if found' in style] += 1
        self.start = re.findall(r'  start -> "([^"]*)";', text)

    def read_box(self, name, lines, style):
        address, way, transfer = name.split(" ")
        rows, reasons, cells, is_endless = [], set(), [], False
        for cell, line in lines:
            cells += [cell] if cell else []
            more = re.fullmatch(r"\.\.\. +(\d+) more", line)
            if more:
                self.left_out[name] = int(more[1])
                rows.append(None)
            elif line.endswith(":") and line[:-1] in REASONS:
                reasons.add(line[:-1])
            elif line == ENDLESS:
                is_endless = True
            elif re.match(r"[0-9A-F]{6,} ", line):
                chained = CHAINED.search(line)
                entered = WAYS[chained[1]] if chained else WAYS[way] if not rows else FRESH
                row = Row(int(line.split(" ")[0], 16), entered, False)
                if "transfer-in-channel" in line:
                    row = self.transfer_in(rows, row, transfer == "t")
                rows.append(row)
                moves = MOVES.search(line)
                self.moves[row] = (moves[1], moves[2]) if moves else None
                self.reported[row] = "".join(REPORTED.search(line).groups(""))
                setting, over = SETTING.search(line), STORED.search(line)
                self.settings[row] = setting[1] if setting else None
                if over:
                    self.stored[row] = int(over[1], 16)
                if UNTIL.search(line):
                    self.until[row] = int(UNTIL.search(line)[1], 16)
        self.boxes[name], self.cells[name] = rows, cells
        if PINK in style:
            self.pink[name] = reasons
        if YELLOW in style or is_endless:
            self.endless[name] = YELLOW in style, is_endless


    def transfer_in(self, rows, row, by_transfer):
        """The row of a transfer, whose line doesn't say how it is entered: as its box says if it's
        the first, and else as the row before leads there."""
        if not rows:
            return row._replace(by_transfer=by_transfer)
        led = [target for target, *_ in self.wanted.arrows.get(rows[-1], [])]
        return next((target for target in led if target.address == row.address), row)


def check_rows(checks, name, wanted, drawn):
    rows = [row for box in drawn.boxes.values() for row in box if row]
    if drawn.left_out:
        count = len(rows) + sum(drawn.left_out.values())
        checks.expect(f"how many rows {name} has", len(wanted.rows), count)
        checks.expect_that(f"the rows of {name}", {*rows} <= {*wanted.rows}, rows)
        for box, more in drawn.left_out.items():
            check_long_box(checks, f"{box} of {name}", wanted, drawn.boxes[box], more)
    else:
        checks.expect(f"the rows of {name}", wanted.rows, sorted(rows, key=wanted.order))
    moves = {row: wanted.moves[row] for row in rows}
    checks.expect(f"what the rows of {name} do with data", moves, drawn.moves)
    settings = {row: wanted.settings[row] for row in rows}
    checks.expect(f"what the rows of {name} set", settings, drawn.settings)
    ccws = {row: ccw_at(wanted.storage, row.address) for row in rows}
    reported = {row: reported_of(ccw) if ccw else "" for row, ccw in ccws.items()}
    checks.expect(f"the flags of the rows of {name}", reported, drawn.reported)
    stored = {row: wanted.stored[row.address] for row in rows if row.address in wanted.stored}
    checks.expect(f"what stores over the rows of {name}", stored, drawn.stored)
    never = {box: (True, True) for box, rows in drawn.boxes.items() if rows[0] in wanted.endless}
    checks.expect(f"the boxes of {name} that never end", never, drawn.endless)
    until = {row: wanted.until(row) for row in rows if wanted.until(row)}
    checks.expect(f"the searches of {name} that a transfer repeats", until, drawn.until)
    pink = {drawn.boxes[box][0]: reasons for box, reasons in drawn.pink.items()}
    offending = {row: reasons for row, reasons in wanted.reasons.items() if reasons}
    checks.expect(f"the pink boxes of {name}", offending, pink)
    lengths = {len(drawn.boxes[box]) for box in drawn.pink}
    checks.expect_that(f"a pink box of {name} has one row", lengths <= {1}, lengths)
    for box, drawn_rows in drawn.boxes.items():
        cells = [cell_of(row) if row else "more" for row in drawn_rows]
        checks.expect(f"the cells of {box} of {name}", cells, drawn.cells[box])


def check_long_box(checks, name, wanted, rows, more):
    """The first and the last rows are drawn, and as many are left out between them as it says."""
    half = MOST_ROWS // 2
    checks.expect(f"where rows of {name} are left out", [None], rows[half:-half])
    after = wanted.after(rows[0], half + more)
    checks.expect(f"the row after those left out of {name}", after, rows[half + 1])


def shown_of(count, most):
    """How many of some are shown: one more than most, where a line would say so of one alone."""
    return most if count > most + 1 else count


def check_title(checks, name, deck, job, found, drawn, notes):
    shown = shown_of(len(job.extents), MOST_EXTENTS)
    cylinders = ", ".join(f"{first}-{last}" for first, last in job.extents[:shown])
    more = len(job.extents) - shown
    grants = [
        f"{job.device}",
        f"mask {job.mask:02X}",
        f"cylinders {cylinders}" + (f" and {more} more" if more > 0 else ""),
        f"storage {len(job.storage):07X}",
    ]
    shown = shown_of(len(notes), MOST_NOTES)
    more = len(notes) - shown
    notes = [*notes[:shown], *([f"{more} more notes"] if more > 0 else [])]
    title = "\\n".join([f"{deck}: {verdict_of(found)}", ", ".join(grants), *notes])
    checks.expect(f"the title of {name}", title, drawn.title)


def check_frames(checks, name, drawn):
    """Boxes of one address are in a frame of that address, and each other box is in none."""
    many = Counter(box.split(" ")[0] for box in drawn.boxes)
    frames = {box: box.split(" ")[0] for box in drawn.boxes}
    frames = {box: address if many[address] > 1 else None for box, address in frames.items()}
    checks.expect(f"the frames of {name}", frames, drawn.frames)


def boxes_and_cells(wanted, drawn):
    """The box and the cell of each row, also of those left out."""
    found = {}
    for box, rows in drawn.boxes.items():
        for row, after in zip(rows, [*rows[1:], None]):
            if row:
                found[row] = box, cell_of(row)
            if row and after is None:
                # rows are left out behind this one, unless it's the last
                more = drawn.left_out.get(box, 0) if row != rows[-1] else 0
                left_out = {wanted.after(row, count): (box, "more") for count in range(1, more + 1)}
                found.update(left_out)
    return found


def check_stores(checks, name, wanted, drawn):
    """An arrow leads from a row that stores over a CCW or an argument to a row of its address, and
    one is enough for two that lead to the same row."""
    cells = boxes_and_cells(wanted, drawn)
    for row in wanted.rows:
        rows = [{wanted.first_at(one) for one in over} for over in wanted.stored_over(row)]
        ways = {tuple(dict.fromkeys(filter(None, way))) for way in product(*rows)}
        stores = [target for source, target, *_ in drawn.stores if source == cells[row]]
        which = [tuple(cells[one] for one in way) for way in ways]
        checks.expect_that(f"what {row} of {name} stores over", tuple(stores) in which, stores)
    checks.expect_that(
        f"arrows of {name} for what is stored over are dotted",
        all(is_dotted for *_, is_dotted, _ in drawn.stores),
        drawn.stores,
    )
    sources = {source for source, *_ in drawn.stores}
    checks.expect_that(f"rows of {name} store", sources <= {*cells.values()}, sources)


def check_past(checks, name, wanted, drawn):
    """An arrow says that what is stored is for the next run, if none leads to that address."""
    rows = {cell: row for row, cell in boxes_and_cells(wanted, drawn).items()}
    for source, target, _, is_past in drawn.stores:
        if target[1] != "more":
            led = {row.address for row in wanted.behind(rows[source])}
            is_told = len(drawn.boxes) <= MOST_LABELLED
            wanted_past = is_told and rows[target].address not in led
            checks.expect(f"whether {source} of {name} is past {target}", wanted_past, is_past)


def check_arrows(checks, name, wanted, drawn):
    """Within a box each row leads to the next alone, so its arrows are those of its last row. One
    that leads back into the box does so from row to row."""
    box_of = {row: box for box, rows in drawn.boxes.items() for row in rows if row}
    is_labelled = len(drawn.boxes) <= MOST_LABELLED
    arrows, ends = Counter(), []
    for box, rows in drawn.boxes.items():
        for row, after in zip(rows, [*rows[1:], "none"]):
            if row is None or after is None:
                continue
            until = wanted.until(row)
            led = wanted.arrows[row][1:] if until else wanted.arrows[row]
            if after != "none":
                targets = [target for target, *_ in led]
                checks.expect(f"what follows {row} in a box of {name}", [after], targets)
                continue
            for target, through, is_skip in led:
                through = through if is_labelled else None
                is_back = wanted.order(target) < wanted.order(row)
                both = (box, ""), (box_of[target], cell_of(target) if is_back else "")
                if box == box_of[target]:
                    both = (box, cell_of(row)), (box, cell_of(target))
                arrows[*both, through, is_skip and not until] += 1
            if not led and not until and not wanted.fault(row):
                ends.append(box)
    checks.expect(f"the arrows of {name}", arrows, drawn.arrows)
    checks.expect(f"the ends of {name}", sorted(ends), sorted(drawn.ends))
    checks.expect(f"the start of {name}", [box_of[wanted.first]], drawn.start)
    first = drawn.boxes[box_of[wanted.first]][0]
    checks.expect(f"the row to which the start of {name} leads", wanted.first, first)
    found = Counter(is_found for *_, is_found in drawn.arrows.elements())
    labels = {(is_found, is_found and is_labelled): found[is_found] for is_found in found}
    checks.expect(f"the labels of {name} on what was found", labels, drawn.found)


def pair_of(offence):
    return offence[0].address, offence[1]


def check_picture(checks, deck, job, text, notes):
    name, wanted = deck.stem, Wanted(job)
    drawn = Drawn(text, wanted)
    found = offences(job, wanted.faults)
    check_title(checks, name, deck, job, found, drawn, notes)
    named = {wanted.row(it) for it, reason in found if (it.address, reason) == pair_of(found[0])}
    boxes = {box for box, rows in drawn.boxes.items() if rows[0] in named}
    checks.expect(f"the boxes of {name} that its verdict names", boxes, drawn.named)
    check_rows(checks, name, wanted, drawn)
    check_frames(checks, name, drawn)
    check_arrows(checks, name, wanted, drawn)
    check_stores(checks, name, wanted, drawn)
    check_past(checks, name, wanted, drawn)
    return drawn


def check_names(checks, program, room):
    """A quote and a backslash in the name of a FILE don't end the title."""
    for name, title in [('a"b', 'a\\"b'), ("a\\b", "a\\\\x5Cb"), ('"', '\\"')]:
        deck = room / name
        deck.write_text(text_of(EXAMPLES / "search-loop.deck"))
        drawn = Drawn(run(program, "graph", name, cwd=room).output)
        checks.expect(f"the title of {name}", f"{title}: yes", drawn.title.partition("\\n")[0])


GOES_ON, LAST = "0300000060000001", "0300000020000001"
# rows are left out of a box of more than 40, and labels of arrows between more than 200 boxes
LARGE = [
    *([GOES_ON] * count + [LAST] for count in (39, 40, 41, 59)),
    *(["3100000060000005"] * count + [LAST] * 2 for count in (198, 199, 250)),
]
# a data chain whose second and third CCW also begin operations: two frames side by side
TWICE = """06000080A0000004 06000084A0000004 0600008860000004 3100008060000005
0800000800000000 0800001000000000""".split()
# a ring that begins at its second CCW, and data of no bytes
RING, NO_DATA = [GOES_ON, GOES_ON, "0800000000000000"], ["0600008000000000"]
# a read over a CCW that is drawn, and over one of those that are left out of a long box
OVER_DRAWN = [*[GOES_ON] * 45, "0600001020000008"]
OVER_LEFT_OUT = [*[GOES_ON] * 45, "060000B020000008"]
# a read whose data chain leads through two transfers, of which the second isn't allowed
TWO_TRANSFERS = ["0600008080000004", "0800001800000000", LAST, "0800001000000001"]
# a read over the transfer of a search loop, and one over the whole program
SEARCH_AGAIN = ["3100004040000005", "0800000000000000"]
OVER_TRANSFER = [*SEARCH_AGAIN, "0600000F60000002", LAST]
OVER_ALL = [*SEARCH_AGAIN, "0600000160000020", LAST]
# two reads over the same CCW
OVER_TWICE = ["0600001060000008", "0600001060000004", LAST]


def job_over(ccws, start=0, extents=((0, 202),)):
    storage = bytes.fromhex("".join(ccws)).ljust(0x100, b"\0")
    everything = [(0, len(storage))]
    return Job(storage, start, 2314, 0xC0, [*extents], everything, everything)


def made_jobs():
    """Jobs that are rare among random ones."""
    rare = [*LARGE, TWICE, NO_DATA, RING, OVER_DRAWN, OVER_LEFT_OUT, OVER_TRANSFER, OVER_ALL]
    yield from map(job_over, [*rare, OVER_TWICE, TWO_TRANSFERS])
    yield job_over(RING, 8)
    # a note for each area
    for count in (MOST_NOTES, MOST_NOTES + 1, MOST_NOTES + 2):
        areas = [(16 * at, 8) for at in range(count)]
        yield job_over([LAST])._replace(fetch=areas, store=[])
    for count in (3, 4, 5, 7):
        yield job_over([LAST], extents=[(10 * at, 10 * at + 5) for at in range(count)])


def jobs_of(room):
    """The decks, each with its job: examples, changed examples and random ones."""
    random = Random(SEED)
    examples = {deck: job_of(text_of(deck)) for folder in FOLDERS for deck in decks_of(folder)}
    small = [job for job in examples.values() if len(job.storage) <= 0x2000]
    for deck, job in examples.items():
        yield deck, job
    others = [*made_jobs()]
    for number in range(JOBS):
        is_changed = number % 3 == 0
        others.append(changed(random.choice(small), random) if is_changed else random_job(random))
    for number, job in enumerate(others):
        deck = Path(room) / f"seed-{SEED}-job-{number}"
        deck.write_text("".join(f"{line}\n" for line in deck_of(job)))
        yield deck, job


def check(checks, built):
    # how many arrows lead to each kind of cell, each of which some picture has
    within, over, past, told = Counter(), Counter(), Counter(), Counter()
    with tempfile.TemporaryDirectory() as room:
        for deck, job in jobs_of(room):
            faults = reachable(job)
            if len(faults) > min(job.limit, MOST_PLACES):
                continue
            ran = run(built.chanv(), "graph", deck)
            status = 1 if offences(job, faults) else 0
            checks.expect(f"the status of {deck.stem}", status, ran.status)
            said = run(built.chanv(), "why", deck).error.splitlines()
            notes = [line for line in said if line.startswith("note: ")]
            drawn = check_picture(checks, deck, job, ran.output, notes)
            within.update(cell != "" for (_, cell), *_ in drawn.arrows)
            over.update(cell == "more" for _, (_, cell), *_ in drawn.stores)
            past.update(is_past for *_, is_past in drawn.stores)
            told["notes"] += bool(notes)
            told["endless"] += bool(drawn.endless)
            told["settings"] += any(drawn.settings.values())
            told["stored over"] += bool(drawn.stored)
            told["transfers"] += any(
                (ccw := ccw_at(job.storage, row.address)) and ccw.is_transfer()
                for row in drawn.stored
            )
        check_names(checks, built.chanv(), Path(room))
    checks.expect_that("arrows within boxes, and between them", len(within) == 2, within)
    checks.expect_that("rows stored over, drawn and left out", len(over) == 2, over)
    checks.expect_that("rows that a run is past, and others", len(past) == 2, past)
    checks.expect_that("each thing that a picture tells comes", all(told.values()), told)
