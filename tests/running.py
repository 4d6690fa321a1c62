"""Runs programs for the tests, also in bash where a stream is closed or a limit is set.

A program that is slow or endless ends after so many seconds of a processor, which on a busy machine
are many more of the clock. By the clock only a program ends that waits for ever.
"""

import resource
import signal
import subprocess
from pathlib import Path
from typing import NamedTuple

# seconds of a processor for each process, and seconds of the clock
MOST_SECONDS = 120
MOST_WAITING = 3600


class Ran(NamedTuple):
    """What a run came to; bytes that aren't UTF-8 stand in the texts as lone surrogates."""

    status: int
    output: str = ""
    error: str = ""


def text_of(given):
    """The text of bytes, or of a file, with its line ends as they are."""
    given = given.read_bytes() if isinstance(given, Path) else given or b""
    return given.decode("utf-8", "surrogateescape")


def run(*words, given=b"", **how):
    """Runs a program, whose standard input is `given`: bytes, or the file of a path."""
    if isinstance(given, Path):
        with given.open("rb") as file:
            return ended(words, stdin=file, **how)
    return ended(words, input=given, **how)


def write_script(path, text):
    """Writes a program that is to be run. Another process writes it: if a thread here wrote it while
    a second one starts a process, that process would hold it open, and nothing can run it then."""
    ran = run("sh", "-c", 'cat > "$0" && chmod 755 "$0"', path, given=text.encode())
    if ran.status != 0:
        raise OSError(ran.error)


def run_in_bash(script, *words, **how):
    """Runs a script over a program and its words, as 'exec "$@" > /dev/full'."""
    return run("bash", "-c", script, "bash", *words, **how)


def ended(words, input=None, timeout=MOST_WAITING, processor=MOST_SECONDS, **how):
    """What a run comes to. `timeout` is in seconds of the clock, and `processor` in those of a
    processor, for each process; if the timeout is None, there is no bound."""
    pipes = {"stdout": subprocess.PIPE, "stderr": subprocess.PIPE}
    if input is not None:
        pipes["stdin"] = subprocess.PIPE
    with subprocess.Popen(words, **{**pipes, **how}) as process:
        if timeout is not None:
            limit_processor(process.pid, processor)
        try:
            output, error = process.communicate(input, timeout)
        except subprocess.TimeoutExpired as late:
            # what it started may go on, and hold the pipes open
            process.kill()
            process.wait()
            return Ran(f"none in {timeout:g} s", text_of(late.stdout), text_of(late.stderr))
        except BaseException:
            process.kill()
            raise
    late = timeout is not None and process.returncode == -signal.SIGXCPU
    status = f"none in {processor:g} s of a processor" if late else process.returncode
    return Ran(status, text_of(output), text_of(error))


def limit_processor(pid, seconds):
    """Lets a process that has just begun, and each that it starts, take so many seconds."""
    try:
        _, hard = resource.prlimit(pid, resource.RLIMIT_CPU)
        least = seconds if hard == resource.RLIM_INFINITY else min(seconds, hard)
        resource.prlimit(pid, resource.RLIMIT_CPU, (least, hard))
    except (ProcessLookupError, PermissionError, ValueError):
        # it has ended, is another user's, or has set a lower limit itself meanwhile
        pass
