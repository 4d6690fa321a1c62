"""Each crate's layout, proofs, unit tests and program; with --all or by its name alone.

What `rt all test` writes goes to the terminal. A crate counts once, by the line `NAME: ok` that it
gets at the end where it is proved and all of its own passed, and each unit test counts once, by the
line of its run.
"""

import re
import subprocess

from building import ROOT, crates
from expecting import CannotRun, say


def start_rt(jobs):
    more = ["--jobs", jobs] if jobs else []
    how = {"stdin": subprocess.DEVNULL, "stdout": subprocess.PIPE, "stderr": subprocess.STDOUT}
    try:
        return subprocess.Popen(
            ["rt", "all", "test", *more], cwd=ROOT, text=True, errors="replace", **how
        )
    except OSError as error:
        raise CannotRun(f"rt: {error.strerror}") from error


def check(checks, built):
    part, ends = "", {}
    with start_rt(built.jobs) as rt:
        for line in map(str.rstrip, rt.stdout):
            say(line)
            part = line.removeprefix("== ") if line.startswith("== ") else part
            test = re.fullmatch(r"test (\S+) \.\.\. (\w+)", line)
            end = re.fullmatch(r"(\w+): (ok|failed .*|not run.*)", line)
            if test:
                checks.expect(f"{part}: {test[1]}", "ok", test[2])
            elif end and part == "summary":
                ends[end[1]] = end[2]
    for name in crates():
        checks.expect(f"crate {name}", "ok", ends.get(name, "no word on it"))
    if rt.returncode and not checks.failed:
        checks.fail(f"rt all test ended with status {rt.returncode}")
