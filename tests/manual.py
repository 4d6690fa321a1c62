"""Help, version, manual page, OUTPUT and completions for bash: they agree with each other."""

import re
import shutil

from building import ROOT, said_version, version
from commands import commands
from examples import EXAMPLES
from running import Ran, run, run_in_bash, text_of

PAGE, OUTPUT = ROOT / "docs/chanv.1", ROOT / "docs/OUTPUT.md"
COMPLETIONS = ROOT / "docs/chanv.bash"
VERSION = f"chanv {version()}\n"
COMMANDS = list(commands())
OPTIONS = [(it.name, f"--{name}", value) for it in COMMANDS for name, value in it.options.items()]

# what help and the manual page both say of an option
SAID = [
    ("list", "wide", "for people and not for scripts"),
    ("list", "range", "reached or not"),
    ("why", "all", "cause"),
    ("why", "of", "the offence at"),
    ("needs", "deck", "grants exactly this"),
]

# completes the last of the words that stand behind the file's name
COMPLETE = """
source "$1"
shift
COMP_WORDS=(chanv "$@")
COMP_CWORD=$#
_chanv
printf '%s\\n' "${COMPREPLY[@]}"
"""


def check_help(checks, program):
    """Help says the statuses and where the grammar and the reasons are, in a screen."""
    ran = run(program, "verify", "--help")
    checks.expect("both forms of help", run(program, "help", "verify"), ran)
    is_a_screen = ran.status == 0 and len(ran.output.splitlines()) <= 24
    for said in ["man chanv", "chanv explain", *[f"\n  {status}  " for status in range(5)]]:
        checks.expect_that(f"help says {said!r}", is_a_screen and said in ran.output, ran.output)


def commands_of_help(program):
    """The commands that help lists, in order of their letters."""
    section = run(program, "--help").output.partition("\nCommands:\n")[2].partition("\n\n")[0]
    return sorted(re.findall(r"(?m)^  ([a-z]+) ", section))


def check_page(checks, program):
    """The page is of this version, and has each command that help lists and no other."""
    page, commands = text_of(PAGE), commands_of_help(program)
    checks.expect("the version", Ran(0, said_version(program)), run(program, "--version"))
    version = re.findall(r'(?m)^\.TH .*"(chanv [0-9.]*)"', page)
    checks.expect("the version of the manual page", [VERSION.strip()], version)
    section = page.partition("\n.SH COMMANDS\n")[2].partition("\n.SH OPERANDS\n")[0]
    headed = sorted(re.findall(r"(?m)^\.SS ([a-z]*)", section))
    checks.expect("the commands of the manual page", commands, headed)
    named = sorted(set(re.findall(r"(?m)^(?:\.B |\$ )chanv ([a-z]+)", page)))
    checks.expect("the commands that the manual page names", commands, named)


def check_options(checks, program):
    """The manual page names each option, and says of some what help says of them."""
    section = text_of(PAGE).partition("\n.SH COMMANDS\n")[2].partition("\n.SH ")[0]
    options = text_of(PAGE).partition("\n.SH OPTIONS\n")[2].partition("\n.SH ")[0]
    for command, option, _ in OPTIONS:
        its = section.partition(f"\n.SS {command} ")[2].partition("\n.SS ")[0]
        _, _, its = its.partition("\n")
        is_named = option.replace("-", "\\-") in its + options
        checks.expect_that(f"the manual page explains {command} {option}", is_named, its)
    for command, option, said in SAID:
        its = section.partition(f"\n.SS {command} ")[2].partition("\n.SS ")[0]
        of_page = its.partition(f"\nWith\n.B \\-\\-{option}\n")[2].partition("\nWith\n")[0]
        of_help = re.search(rf"(?m)^ +--{option}\b.*$", run(program, command, "--help").output)
        for where, text in (("help", of_help and of_help[0]), ("the manual page", of_page)):
            is_said = said in " ".join((text or "").split())
            checks.expect_that(f"{where} says of {command} --{option}: {said}", is_said, text)


def statuses_of_help(program, command):
    """The text for each exit status."""
    said = run(program, command, "--help").output.partition("exit status")[2]
    found = re.findall(r"(?m)^  (\d)  (.*(?:\n   .*)*)$", said)
    return {status: " ".join(text.split()) for status, text in found}


def statuses_of_page():
    section = text_of(PAGE).partition("\n.SH EXIT STATUS\n")[2].partition("\n.SH ")[0]
    found = re.findall(r"(?ms)^\.TP\n\.B (\d)\n(.*?)(?=^\.TP|\Z)", section)
    return {status: " ".join(text.replace("\\-", "-").split()) for status, text in found}


def check_statuses(checks, program):
    """OUTPUT's table and the manual page have each status, with the words of help."""
    section = text_of(OUTPUT).partition("\n## The exit status\n")[2].partition("\n## ")[0]
    rows = dict(re.findall(r"(?m)^\| (\d) \| (.*) \|$", section))
    pages = {"OUTPUT": rows, "the manual page": statuses_of_page()}
    for command in ("verify", "deck"):
        said = statuses_of_help(program, command)
        for name, page in pages.items():
            checks.expect(f"the statuses of {name}", sorted(said), sorted(page))
            for status, text in said.items():
                # a FILE, or the only one
                plain = text.removeprefix("a ")
                is_there = plain in page.get(status, "")
                checks.expect_that(f"{command}: status {status} of {name}", is_there, text)


def check_groff(checks):
    """The page is well formed, if groff is there to say so."""
    if not shutil.which("groff"):
        checks.skip("the format of the manual page", "no groff")
        return
    ran = run("groff", "-ww", "-man", "-Tascii", PAGE)
    checks.expect("groff's warnings", (0, ""), (ran.status, ran.error))


def check_example(checks, program):
    """The page's example, in examples/, writes what the page shows, first on standard output."""
    blocks = re.findall(r"(?ms)^\.nf$.*?^\.fi$", text_of(PAGE))
    shown = [line for block in blocks for line in block.split("\n") if line[:1] != "."]
    shown = [line.replace("\\-", "-") for line in shown]
    seen = ""
    for line in shown:
        if line.startswith("$ chanv "):
            ran = run(program, *line.split()[2:], cwd=EXAMPLES)
            seen += f"{line}\n{ran.output}{ran.error}"
    text = "".join(f"{line}\n" for line in shown)
    checks.expect("the example of the manual page", text, seen)


def completed(*words):
    """What may stand for the last of the words, in order of the letters."""
    return sorted(run_in_bash(COMPLETE, COMPLETIONS, *words).output.splitlines())


def check_completions(checks, program):
    """The completions are the commands that help lists, and the options that each help lists."""
    commands = commands_of_help(program)
    first = [word for word in completed("") if not word.startswith("-")]
    checks.expect("the commands that are completed", commands, first)
    checks.expect("the commands that help completes", commands, completed("help", ""))
    for words in ([], *[[it.name] for it in COMMANDS]):
        said = run(program, *words, "--help").output
        options = sorted(re.findall(r"(?m)^ +(?:-\w, )?(--[a-z]*)", said))
        name = f"the options that are completed: chanv {' '.join(words)}"
        checks.expect(name, options, completed(*words, "--"))
    listed = sorted(re.findall(r"(?m)^([a-z][a-z-]*): ", run(program, "explain").output))
    checks.expect("the words that are completed", listed, completed("explain", ""))
    for words in (["--device", ""], ["--device", "="], ["--device", "=", "23"]):
        devices = completed("deck", *words)
        checks.expect(f"the devices that are completed: {words}", ["2311", "2314"], devices)
    page = str(PAGE)
    for command, option, value in OPTIONS:
        words = [command, option, *filter(None, [value])]
        is_there = page in completed(*words, page[:-2])
        checks.expect(f"a file after {words}", command != "show", is_there)
        if value and option != "--device":
            checks.expect(f"no file as {words}", [""], completed(command, option, page[:-2]))
    for words in (["show"], ["explain"], ["help"]):
        checks.expect(f"no file after {words[-1]}", [""], completed(*words, page[:-2]))
    checks.expect_that("a file after verify", page in completed("verify", page[:-2]), page)
    ran = run_in_bash('source "$1" && complete -p chanv', COMPLETIONS)
    wanted = Ran(0, "complete -o filenames -F _chanv chanv\n")
    checks.expect("files are completed as file names, with a slash after a folder", wanted, ran)


def check(checks, built):
    program = built.chanv()
    check_help(checks, program)
    check_page(checks, program)
    check_options(checks, program)
    check_statuses(checks, program)
    check_groff(checks)
    check_example(checks, program)
    check_completions(checks, program)
