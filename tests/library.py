"""The library for C: its example, edges, threads, refused memory and archive.

The programs of c/ and examples/c/ ask it. What they should write was worked out from the rules: the
files c/*.out; the words of src/reason.rt of chan_walk; and the example of docs/EMBEDDING.md, whose
text has to be that of ask.c. The C of docs/SUPERVISOR.md compiles without a warning, and runs in
c/loop.c. The archive may ask only for what the C library has to have, and each growth of memory in
a call is refused in turn. The test `python` asks about all decks, `nulls` hands in NULL for each
empty list.
"""

import platform
import re
import tempfile
from pathlib import Path
from textwrap import dedent

from building import FLAGS, HERE, ROOT, SANITIZED, c_compiler, compile_c, compile_with, is_proved
from building import short, version_of
from examples import EXAMPLES
from refusing import Case, Growths
from running import Ran, run, text_of

# the programs whose calls get too little room, foreign rows or threads run under the sanitizers
LINED = ("edges", "needs", "most", "memory", "threads", "far")
TESTS = ("one_call", "bytes", *LINED)
SOURCES = [EXAMPLES / "c/ask.c", *[HERE / f"c/{name}.c" for name in TESTS]]
MAY_ASK_FOR = {"memcpy", "memmove", "memset", "malloc", "realloc", "free"}
OF_THE_RUNTIME = {"rattle_alloc", "rattle_realloc", "rattle_dealloc"}
NAMES = "verify list why text take_in check_start check_write find version".split()
NAMES += "make_prefix reason_word answer_word refusal_word entered_word".split()
CALLS = {f"chanv_{name}" for name in NAMES}
LAYOUT = ROOT / "crates/chanv_c/include/layout.txt"
# warnings that a program's own build may ask for
WARNINGS = ["-Wall", "-Wextra", "-Wpedantic", "-Wconversion", "-Wsign-conversion", "-Werror"]
IN_CPP = ["-x", "c++", "-std=c++17", "-Wold-style-cast"]
IN_C99 = ["-x", "c", "-std=c99"]


def c_of(page):
    """The blocks of C that a page shows, each without its indent."""
    blocks = re.findall(r"(?ms)^ *```c\n(.*?)^ *```$", text_of(ROOT / "docs" / page))
    return [dedent(block) for block in blocks]


def check_example(checks, folder):
    """EMBEDDING shows the example as it stands, and no other C; `install` tries what it prints."""
    shown = c_of("EMBEDDING.md")
    checks.expect("the C of EMBEDDING", [text_of(EXAMPLES / "c/ask.c")], shown)
    ran = run(folder / "ask")
    checks.expect("the example's status", (0, ""), (ran.status, ran.error))


def check_bare(checks, library, folder):
    """A program without a C library links, and judges one program with a yes and one with a no."""
    if not is_proved(library) or platform.machine() != "x86_64":
        checks.skip("without a C library", "the archive is Rust's, or the machine is another")
        return
    [line] = re.findall(r"(?m)^    cc (.*) -lchanv$", text_of(ROOT / "docs/EMBEDDING.md"))
    words = line.replace(" -o bare bare.c", "").split()
    where = [f"-I{library}", "-o", folder / "bare", EXAMPLES / "c/bare.c", library / "libchanv.a"]
    ran = run(*c_compiler(), "-std=c11", "-Wall", "-Wextra", "-Werror", *words, *where)
    checks.expect("the build without a C library", Ran(0), ran)
    checks.expect("what it ends with", Ran(0), run(folder / "bare"))


def check_loop(checks, library, folder):
    """The C of SUPERVISOR compiles in its order without a warning, and decides as the page says."""
    shown = c_of("SUPERVISOR.md")
    checks.expect_that("SUPERVISOR shows machine.h first", "machine.h" in shown[0][:20], shown[0])
    (folder / "machine.h").write_text(shown[0])
    (folder / "supervise.c").write_text("\n".join(shown[1:]))
    look = [*c_compiler(), "-fsyntax-only", "-std=c11", f"-I{library}", *WARNINGS]
    checks.expect("warnings of its C", Ran(0), run(*look, folder / "supervise.c"))
    compile_with(library, HERE / "c/loop.c", folder / "loop", f"-I{folder}", *SANITIZED)
    check_lines(checks, folder, "loop")


def check_lines(checks, folder, name):
    """The program writes the lines of its file in c/. Gives those that it wrote."""
    ran = run(folder / name)
    checks.expect(name, (0, ""), (ran.status, ran.error))
    wanted, seen = text_of(HERE / f"c/{name}.out").splitlines(), ran.output.splitlines()
    checks.expect(f"{name}, how many lines", len(wanted), len(seen))
    for number, (expected, line) in enumerate(zip(wanted, seen), 1):
        about = expected.partition(": ")[0]
        checks.expect(f"{name}, line {number}, {about}", expected, line)
    return seen


def check_edges(checks, folder):
    seen = check_lines(checks, folder, "edges")
    check_words(checks, [line.split(": ", 1) for line in seen if line.startswith("reason ")])


def check_c_file(checks, library, folder):
    """The words of the C file by itself, under sanitizers."""
    made, with_file = folder / "words", [f"-I{library}", ROOT / "c/chanv.c"]
    ran = run(compile_c(HERE / "c/words.c", made, *FLAGS, *SANITIZED, *with_file))
    wanted = re.findall(r"(?m)^(?:reason|number) .*\n", text_of(HERE / "c/edges.out"))
    checks.expect("words of the C file", Ran(0, "".join(wanted)), ran)


def check_words(checks, said):
    """The header's words are those of the reasons, by number."""
    code = text_of(ROOT / "crates/chan_walk/src/reason.rt")
    numbers = {int(n): variant for variant, n in re.findall(r"Reason::(\w+) => (\d+),", code)}
    words = dict(re.findall(r'Reason::(\w+) => "([\w-]+)",', code))
    checks.expect("how many reasons", 16, len(numbers))
    for name, word in said:
        number = int(name.removeprefix("reason "))
        checks.expect(name, words[numbers[number]] if number in numbers else "", word)


def structs_of(header):
    """The header's structs, each with the names of its fields."""
    code = re.sub(r"(?s)/\*.*?\*/", "", text_of(header))
    for name, fields in re.findall(r"(?s)^struct (\w+) \{(.*?)^\};", code, re.M):
        yield name, re.findall(r"(\w+)(?:\[\d+\])?;", fields)


def check_layout(checks, library, folder, is_proved):
    """The recorded layout and soname are those of the header and of the shared library."""
    enums = re.findall(r"(?m)^enum (\w+) \{", text_of(library / "chanv.h"))
    lines = [f"ENUM({name});" for name in enums]
    for struct, fields in structs_of(library / "chanv.h"):
        lines += [f"SIZE({struct});", *[f"FIELD({struct}, {field});" for field in fields]]
    (folder / "structs.h").write_text("\n".join(lines) + "\n")
    flags = [f"-I{library}", f"-I{folder}", *WARNINGS, library / "libchanv.a"]
    ran = run(compile_c(HERE / "c/layout.c", folder / "layout", *flags))
    versions, _, layout = ran.output.partition("\n")
    version = version_of(library / "chanv.h")
    wanted = " ".join([version] * 4) + " not proved" * (not is_proved)
    checks.expect("the header's version", wanted, versions)
    recorded = text_of(LAYOUT).split("\n")
    recorded = [line for line in recorded if line and line[0] != "#"]
    shared = run("readelf", "-d", next(library.glob("libchanv.so.*"))).output
    soname = re.findall(r"SONAME.*\[(.*)\]", shared)
    checks.expect(f"the soname in {short(LAYOUT)}", [f"soname {it}" for it in soname], recorded[:1])
    checks.expect(f"the layout in {short(LAYOUT)}", recorded[1:], layout.splitlines())


def check_warnings(checks, library):
    """A build that asks for many warnings gets none of the header, the example and the C file."""
    look = [*c_compiler(), "-fsyntax-only", f"-I{library}", *WARNINGS]
    ran = run(*look, "-std=c11", EXAMPLES / "c/ask.c")
    checks.expect("warnings of the example", Ran(0), ran)
    for source in (library / "chanv.h", ROOT / "c/chanv.c"):
        checks.expect(f"warnings of {source.name} in C99", Ran(0), run(*look, *IN_C99, source))
    if run(*look, *IN_CPP, "/dev/null").status != 0:
        checks.skip("warnings of the header in C++", "no compiler of C++")
        return
    header = library / "chanv.h"
    checks.expect("warnings of the header in C++", Ran(0), run(*look, *IN_CPP, header))


# Each call as it may be made, with NULL for each list.
RIGHT = [
    "chanv_verify(&job, &verdict)",
    "chanv_list(&job, NULL, 0, &len, &len)",
    "chanv_why(&job, NULL, 0, NULL, 0, &why)",
    "chanv_text(&job, NULL, 0, &len)",
    "chanv_take_in(&source, &own, 0, NULL, 0, NULL, &it, NULL)",
    "chanv_check_start(&job, NULL, 0, &it, &no)",
    "chanv_check_write(NULL, 0, &area, &no)",
    "chanv_make_prefix(&job, 0, NULL, 0, &len)",
    "chanv_find(&job.storage, 2314, NULL, 0, &len)",
]
ASKING = """#include <chanv.h>
int ask(struct chanv_job job, struct chanv_area area, struct chanv_program it);
int ask(struct chanv_job job, struct chanv_area area, struct chanv_program it)
{{
    struct chanv_verdict verdict = {{0, 0, 0}};
    struct chanv_source source = {{job.storage, 0, 1, 2314}};
    struct chanv_areas own = {{NULL, 0}};
    struct chanv_refusal no;
    struct chanv_explanation why;
    size_t len = 0;
    (void)job, (void)area, (void)it, (void)no, (void)why, (void)len, (void)verdict;
    (void)source, (void)own;
    return {};
}}
"""


# whether a compiler knows in C of which enum a constant is: GCC does
TELLS_APART = "enum one { A }; enum other { B }; enum one f(void); int g(void) { return f() == B; }"


# whether a compiler warns about a product that is taken for a truth: GCC does
DOUBTS_PRODUCTS = "int f(void); int g(void) { return 2 * f() ? 3 : 4; }"


# whether a compiler counts the items at a pointer: GCC does from version 11 on
COUNTS_ITEMS = """__attribute__((access(read_only, 1, 2))) int f(int *items, long count);
int g(void) { return f((void *)0, 9); }"""


def mistakes_of(call):
    """The call whose answer is ignored, taken for a truth, or compared with what isn't an answer;
    with NULL where it mustn't be; and with a count of what isn't there. Each with the warning that
    finds it."""
    yield f"({call}, 0)", "unused-result"
    yield f"{call} ? 1 : 2", "int-in-bool-context"
    yield f"!{call}", "int-in-bool-context"
    yield f"{call} && len == 0", "int-in-bool-context"
    yield f"{call} == CHANV_REASON_MISALIGNED", "enum-compare"
    yield f"{call} == CHANV_REFUSED_WRITES_OVER_KEPT", "enum-compare"
    for pointer in dict.fromkeys(re.findall(r"&[\w.]+", call)):
        for at in (it.start() for it in re.finditer(rf"{re.escape(pointer)}\b(?!\.)", call)):
            yield f"{call[:at]}NULL{call[at + len(pointer) :]} == CHANV_YES", "nonnull"
    for none in re.finditer("NULL, 0", call):
        yield f"{call[: none.start()]}NULL, 9{call[none.end() :]} == CHANV_YES", "items"


# the warning about a mistake, where it hasn't the mistake's name
WARNING_OF = {"items": "nonnull"}


def check_mistakes(checks, library, folder):
    """A compiler finds an answer that is ignored or compared with something else, and NULL where it
    mustn't be, also if the header is the system's; and it finds no fault with NULL where it may be."""
    source, made = folder / "mistake.c", folder / "mistake.o"
    strict = ["-std=c11", "-Wall", "-Wextra", "-pedantic"]
    look = [*c_compiler(), "-c", "-o", made, *strict, f"-I{library}"]
    source.write_text(TELLS_APART)
    tells_apart = "[-Wenum-compare]" in run(*look, source).error
    if not tells_apart:
        checks.skip("answers compared with reasons", "the compiler doesn't tell constants apart")
    source.write_text(DOUBTS_PRODUCTS)
    doubts_products = "[-Wint-in-bool-context]" in run(*look, source).error
    if not doubts_products:
        checks.skip("answers taken for truths", "the compiler doesn't warn about products")
    source.write_text(COUNTS_ITEMS)
    counts_items = "[-Wnonnull]" in run(*look, source).error
    if not counts_items:
        checks.skip("counts of items", "the compiler doesn't count what is at a pointer")
    known = {
        "enum-compare": tells_apart,
        "int-in-bool-context": doubts_products,
        "items": counts_items,
    }
    for call in RIGHT:
        source.write_text(ASKING.format(f"{call} == CHANV_NO"))
        checks.expect(f"no fault with {call}", Ran(0), run(*look, source))
        for mistake, option in mistakes_of(call):
            if not known.get(option, True):
                continue
            source.write_text(ASKING.format(mistake))
            # as a header of the user's, and as one of the system's, whose macros GCC doesn't warn of
            for name in ("-I", "-isystem"):
                ran = run(*look[:-1], name, library, source)
                found = f"[-W{WARNING_OF.get(option, option)}]" in ran.error
                checks.expect_that(f"{mistake} is found by {name}", found, ran)


def check_marker(checks, library):
    """The line marker of the header gives the line behind it its own number."""
    lines = (library / "chanv.h").read_text().splitlines()
    marked = [
        (int(marker[1]), number)
        for number, line in enumerate(lines, start=2)
        if (marker := re.fullmatch(r'# (\d+) "chanv\.h"', line))
    ]
    checks.expect("line markers", 1, len(marked))
    for said, number in marked:
        checks.expect("the number of the line behind a marker", number, said)


def check_archive(checks, library):
    ran = run("nm", library / "libchanv.a")
    symbols = [line.split()[-2:] for line in ran.output.splitlines() if len(line.split()) > 1]
    defined = {name for kind, name in symbols if kind.isupper() and kind != "U"}
    asked = {name for kind, name in symbols if kind == "U"}
    if is_proved(library):
        checks.expect("what the archive asks for", MAY_ASK_FOR, asked - defined)
    else:
        # Rust's own library asks for more of C's
        names = sorted(it for it in asked - defined if re.match("_R|_ZN|chanv", it))
        checks.expect("what the archive asks for that C hasn't", [], names)
    checks.expect("what the archive gives", CALLS, defined - OF_THE_RUNTIME)


def check_hardening(checks, library):
    """No stack of a program that loads the library runs, and its tables are read-only."""
    shared = next(library.glob("libchanv.so.*"))
    headers = run("readelf", "-lW", shared).output
    stack = re.search(r"GNU_STACK.* (RWE?) ", headers)
    checks.expect("what may be done with the stack", "RW", stack and stack[1])
    checks.expect_that("relocated tables are read-only", "GNU_RELRO" in headers, headers)
    dynamic = run("readelf", "-dW", shared).output
    checks.expect_that("each symbol is bound at once", "NOW" in dynamic, dynamic)


def refuse_growths(checks, folder):
    growths, program = Growths(folder), folder / "one_call"
    answers = {"verify": "yes", "list": "3", "why": "2 3", "take_in": "yes"}
    answers |= {"check_start": "yes", "find": "1", "text": "no", "make_prefix": "yes"}
    setup = [program, "setup"]
    for call, answer in answers.items():
        case = Case(f"chanv_{call}", [program, call], Ran(0, f"{answer}\n"), before=setup)
        growths.refuse_each(checks, case)
    before = growths.run(setup)[1]
    ran = growths.run([program, "check_write"])
    checks.expect("chanv_check_write takes no memory", (Ran(0, "yes\n"), before), ran)


def check(checks, built):
    library = built.library()
    with tempfile.TemporaryDirectory() as room:
        folder = Path(room)
        for source in SOURCES:
            more = SANITIZED if source.stem in LINED else []
            compile_with(library, source, folder / source.stem, *more)
        check_example(checks, folder)
        check_bare(checks, library, folder)
        check_loop(checks, library, folder)
        check_edges(checks, folder)
        check_c_file(checks, library, folder)
        for name in (*LINED[1:], "bytes"):
            check_lines(checks, folder, name)
        check_layout(checks, library, folder, is_proved(library))
        check_warnings(checks, library)
        check_mistakes(checks, library, folder)
        check_marker(checks, library)
        check_archive(checks, library)
        check_hardening(checks, library)
        refuse_growths(checks, folder)
