"""Refuses the growths of memory in a run of a program, one by one."""

from pathlib import Path
from typing import NamedTuple

from building import HERE, compile_c
from running import Ran, run

OUT_OF_MEMORY = 3


class Case(NamedTuple):
    """A run with what it comes to, and what else may be said where a growth is refused."""

    name: str
    words: list
    expected: Ran
    given: bytes = b""
    # one of these goes with a failed allocation
    complaints: tuple = ("",)
    # what may have been written by then is a front of this
    begun: str = ""
    # whether the answer may stand, with its status, beside a complaint
    may_answer: bool = False
    # whether the answer may stand without any, where the text comes from a library that tries again
    may_stand: bool = False
    # a run of all that comes before; the case has to ask for more memory than that does
    before: list | tuple = ()
    # the status that goes with a complaint
    refused: int = OUT_OF_MEMORY

    def allows(self, ran):
        if self.may_stand and ran == self.expected:
            return True
        if ran.error not in self.complaints:
            return False
        if self.may_answer and ran._replace(error="") == self.expected._replace(error=""):
            return True
        return ran.status == self.refused and self.begun.startswith(ran.output)


class Growths:
    """Runs programs under the library of c/refuse_growth.c, which it builds in a folder."""

    def __init__(self, folder):
        self.library = Path(folder) / "refuse_growth.so"
        self.count = Path(folder) / "count"
        self.given = Path(folder) / "given"
        flags = ("-O2", "-Wall", "-shared", "-fPIC", "-ldl")
        compile_c(HERE / "c/refuse_growth.c", self.library, *flags)

    def run(self, words, given=b"", refused=0, and_after=False):
        """What the run came to, and how many growths were asked for. The input comes from a file: a
        pipe would give it in other pieces each time, and these ask for other growths."""
        environment = {
            "LD_PRELOAD": str(self.library),
            "GROWTH_REFUSED": str(refused),
            "GROWTH_COUNT": str(self.count),
        }
        if and_after:
            environment["GROWTH_AFTER"] = "1"
        self.given.write_bytes(given)
        ran = run(*words, given=self.given, env=environment)
        return ran, int(self.count.read_text())

    def refuse_each(self, checks, case):
        """Refuses none, and then each growth, alone and with all that come after."""
        ran, growths = self.run(case.words, case.given)
        checks.expect(f"{case.name}, all granted", case.expected, ran)
        for refused in range(1, growths + 1):
            for and_after in (False, True):
                ran, _ = self.run(case.words, case.given, refused, and_after)
                which = f"growth {refused} refused" + (", and all after it" if and_after else "")
                checks.expect_that(f"{case.name}, {which}", case.allows(ran), ran)
        before = self.run(case.before)[1] if case.before else 0
        asks = growths > before
        checks.expect_that(f"{case.name} asks for memory", asks, (growths, before))
