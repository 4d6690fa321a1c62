"""What `make install` puts where, in a folder with a blank in its name, and how a reader builds.

It copies what `make` and `make lib` built, and builds nothing; the archive and the shared library
show the calls of the header, and nothing else; the example of docs/EMBEDDING.md is built with what
pkg-config says, with either library; each link of the installed pages leads to an installed file,
and so does each page that the manual and the header name; each file of a stage has its mode, and
nothing is written beside the stage; and `make uninstall` takes away all that was put there. No
prefix is outside the test's own folder, and no call of make changes the checkout. What `make rustc`
built is installed by the target `install-rustc`, and says that it isn't proved. The commands and
the Python of docs/EMBEDDING.md do what the page shows. What asks pkg-config is left out, by its
name, where there is none.
"""

import os
import re
import shutil
import stat
import sys
import tempfile
from pathlib import Path

from building import FLAGS, ROOT, compile_c, is_proved, most_bytes, said_version, version
from building import version_of
from examples import EXAMPLES
from links_and_sizes import NAMED, broken_links
from pages import EMBEDDING, check_page, shown_by
from running import Ran, run, text_of

# the targets of make that `make rustc` has others for
TARGETS = {}
OF_RUSTC = {"install": "install-rustc"}
# of each target, what it copies first, what builds that, and what chanv.pc adds to its description
INSTALLS = {
    "install": ("crates/chanv/out/chanv", "make and make lib", ""),
    "install-rustc": ("out/not_proved/chanv", "make rustc", ", not proved"),
}
# what a target takes from elsewhere if it is told so
GIVEN = {"install": ["OUT={}", "PROGRAM={}/chanv"], "install-rustc": ["NOT_PROVED={}"]}
# what tests and builds write into the checkout
PASSED_OVER = {"out", ".git", "__pycache__"}
WRITTEN = {"dump.deck", "dump.svg", "read.o", "read.bin", "a.deck"}
# what the page says as the prefix
PREFIX = "/usr/local"

# what runs is for all to run, and everything else for all to read
RUNS, READ, LINK = "-rwxr-xr-x", "-rw-r--r--", "lrwxrwxrwx"
DOCS, FETCHES = "share/doc/chanv", "hercules/fetch.sh"
# what a stage has beside the pages
STAGED = {
    "bin/chanv": RUNS,
    "include/chanv.h": READ,
    "share/bash-completion/completions/chanv": READ,
    "share/chanv/python/chanv/__init__.py": READ,
    "share/chanv/python/chanv/_c.py": READ,
    "share/chanv/python/chanv/py.typed": READ,
    "share/chanv/python/chanv/supervisor.py": READ,
    "share/man/man1/chanv.1": READ,
}
LDCONFIG = "make install: run ldconfig as root, so that programs find the library\n"
STAGED_LIBRARIES = {
    "libchanv.a": READ,
    f"libchanv.so.{version()}": READ,
    f"libchanv.so.{version().split('.')[0]}": LINK,
    "libchanv.so": LINK,
    "pkgconfig/chanv.pc": READ,
}

# the package's version, and the library's, which says whether nothing of it is proved
VERSIONS = "import chanv as c; print(c.__version__, c.library_version())"


def checkout():
    """The files of the checkout, but for what is built: length, mode and time of each."""
    found = {}
    for folder, names, files in os.walk(ROOT):
        names[:] = [name for name in names if name not in PASSED_OVER]
        for name in {*files} - WRITTEN:
            about = os.lstat(os.path.join(folder, name))
            found[os.path.join(folder, name)] = about.st_size, about.st_mode, about.st_mtime_ns
    return found


def make(checks, target, to, *words, **how):
    """Calls make for a folder of its own; the libraries' linker is told of it as users tell it."""
    target, before = TARGETS.get(target, target), checkout()
    ran = run("make", "-s", "-C", ROOT, target, f"PREFIX={to}", *words, **how)
    changed = sorted(path for path, _ in before.items() ^ checkout().items())
    checks.expect(f"what make {target} changes in the checkout", [], changed)
    return ran


def exported(library, *flags):
    ran = run("nm", *flags, "--defined-only", "--extern-only", library)
    return {line.split()[-1] for line in ran.output.splitlines() if len(line.split()) == 3}


def check_names(checks, to):
    header = text_of(to / "include/chanv.h")
    declared = set(re.findall(r"^\w[\w *]*\b(chanv_\w+)\(", header, re.M))
    checks.expect("what the archive shows", declared, exported(to / "lib/libchanv.a"))
    checks.expect("what the shared one shows", declared, exported(to / "lib/libchanv.so", "-D"))
    soname = re.search(r"SONAME.*\[(.*)\]", run("readelf", "-d", to / "lib/libchanv.so").output)
    checks.expect_that("it is asked for by a name that stands there", soname, "no name")
    checks.expect_that("which leads to it", (to / "lib" / soname[1]).is_file(), soname[1])


def pkg_config(to, *words):
    """What pkg-config says, each word apart."""
    ran = run("env", f"PKG_CONFIG_PATH={to / 'lib/pkgconfig'}", "pkg-config", *words, "chanv")
    return ran.status, [it.replace("\\ ", " ") for it in re.findall(r"(?:\\.|\S)+", ran.output)]


def check_example(checks, to, shown):
    status, flags = pkg_config(to, "--cflags", "--libs")
    checks.expect("pkg-config", 0, status)
    for name, more in (("shared", [f"-Wl,-rpath,{to / 'lib'}"]), ("static", ["-static"])):
        built = compile_c(EXAMPLES / "c/ask.c", to / name, *FLAGS, *flags, *more)
        ran = run(built)
        checks.expect(f"the example, {name}", (0, shown, ""), (ran.status, ran.output, ran.error))


def check_pages(checks, to):
    """The installed pages are whole."""
    docs = to / "share/doc/chanv"
    pages = sorted(docs.rglob("*.md"))
    checks.expect_that("pages are installed", len(pages) > 10, pages)
    for page in pages:
        checks.expect(f"dead links of {page.relative_to(docs)}, installed", [], broken_links(page))
    for reader in ("share/man/man1/chanv.1", "include/chanv.h"):
        for name in sorted(set(re.findall(NAMED, text_of(to / reader)))):
            is_there = (docs / "docs" / name.replace("\\", "")).is_file()
            checks.expect_that(f"{reader} names docs/{name}, installed", is_there, name)


def check_versions(checks, to, program, library):
    """All that is installed is of this version, and says whether it is proved."""
    said = run(to / "bin/chanv", "--version").output
    checks.expect("the program's version", said_version(program), said)
    checks.expect("the header's version", version(), version_of(to / "include/chanv.h"))
    description = re.search("(?m)^Description: .*", text_of(ROOT / "docs/chanv.pc.in"))[0]
    description += INSTALLS[TARGETS.get("install", "install")][2]
    page = text_of(to / "lib/pkgconfig/chanv.pc").splitlines()
    checks.expect_that(f"chanv.pc has {description!r}", description in page, page)
    python = ["env", f"PYTHONPATH={to / 'share/chanv/python'}", sys.executable, "-B", "-c"]
    ran = run(*python, "import chanv; print(chanv.verify(chanv.Job(bytes(8), 0, [(0, 1)])))")
    checks.expect("the Python module, installed", Ran(0, "no 000000 invalid-code\n"), ran)
    also = "" if is_proved(library) else "+not.proved"
    wanted = Ran(0, f"{version()} {version()}{also}\n")
    checks.expect("what Python says of it", wanted, run(*python, VERSIONS))


def check_targets(checks, folder, program, library):
    """Each target names what isn't built, and chanv.pc says what was installed; so also here the
    target of what isn't under test."""
    built = folder / "built"
    built.mkdir()
    for name in ("chanv.h", "libchanv.a", f"libchanv.so.{version()}"):
        shutil.copy(library / name, built)
    shutil.copy(program, built / "chanv")
    description = re.search("(?m)^Description: .*", text_of(ROOT / "docs/chanv.pc.in"))[0]
    for target, (first, builds, besides) in INSTALLS.items():
        to = f"PREFIX={folder / target}"
        ran = run("make", "-s", "-f", ROOT / "Makefile", "-C", folder, target, to)
        wanted = f"make install: no {first}; run {builds} first\n"
        checks.expect_that(f"{target} says what isn't built", wanted in ran.error, ran)
        ran = run("make", "-s", "-C", ROOT, target, to, *(it.format(built) for it in GIVEN[target]))
        checks.expect(f"make {target} of other files", Ran(0, LDCONFIG), ran)
        page = text_of(folder / target / "lib/pkgconfig/chanv.pc").splitlines()
        about = f"{target}, its chanv.pc"
        checks.expect_that(about, f"{description}{besides}" in page, page)


def check_embedding(checks, chanv, library, folder):
    """What the reader of EMBEDDING types, with another prefix, which has no blank."""
    to = folder / "opt"
    checks.expect("make install", 0, make(checks, "install", to).status)
    check_versions(checks, to, chanv, library)
    paths = {"PKG_CONFIG_PATH": str(to / "lib/pkgconfig"), "LD_LIBRARY_PATH": str(to / "lib")}
    environment = {**os.environ, **paths}
    if shutil.which("pkg-config"):
        check_page(checks, EMBEDDING, chanv, lambda it: it.replace(PREFIX, str(to)), env=environment)
    else:
        checks.skip("the commands of EMBEDDING", "no pkg-config")
    found = re.search(r"(?s)```python\n(.*?)```.*?```text\n(.*?)```", text_of(EMBEDDING))
    environment["PYTHONPATH"] = str(to / "share/chanv/python")
    ran = run(sys.executable, "-B", "-c", found[1], env=environment)
    checks.expect("the Python of EMBEDDING", Ran(0, found[2]), ran)


def check_library_folder(checks, folder):
    """The libraries and chanv.pc in a folder that isn't lib/ under the prefix."""
    to, words = folder / "apart", f"LIBDIR={folder / 'apart/lib/x86_64'}"
    ran = make(checks, "install", to, words)
    checks.expect("make install with a LIBDIR", 0, ran.status)
    checks.expect_that("make install names ldconfig", LDCONFIG in ran.output, ran)
    there = to / "lib/x86_64"
    checks.expect_that("its archive", (there / "libchanv.a").is_file(), "not there")
    page = text_of(there / "pkgconfig/chanv.pc")
    checks.expect_that("its folder in chanv.pc", "libdir=${prefix}/lib/x86_64\n" in page, page)
    checks.expect("make uninstall with it", 0, make(checks, "uninstall", to, words).status)
    left = sorted(it.name for it in to.rglob("*") if not it.is_dir())
    checks.expect("which leaves nothing", [], left)


def shown_files():
    """The pages and examples that go to the documents, from the top of the repository."""
    files = [ROOT / "README.md", ROOT / "CHANGELOG.md", *(ROOT / "docs").glob("*.svg")]
    files += [*(ROOT / "docs").glob("*.md"), *EXAMPLES.glob("*.*"), *EXAMPLES.glob("*/*.*")]
    files += [ROOT / f"{it}/README.md" for it in ("bench", "coq", "python", "rustc")]
    files += [ROOT / "hercules/Makefile", *(ROOT / "hercules").glob("*.*")]
    return {str(it.relative_to(ROOT)) for it in files} - {"examples/dump.deck"}


def check_stage(checks, folder):
    """Each file of a stage has its mode, whatever the caller's umask is, and the prefix gets
    nothing: it is where the stage will be put."""
    prefix = folder / "prefix"
    for libraries, more in [("lib", []), ("lib/x86_64", [f"LIBDIR={prefix / 'lib/x86_64'}"])]:
        stage = folder / "stage" / libraries.replace("/", " ")
        words = [f"DESTDIR={stage}", *more]
        ran = make(checks, "install", prefix, *words, umask=0o077)
        checks.expect(f"make install into a stage, {libraries}", 0, ran.status)
        checks.expect_that("a stage wants no ldconfig", LDCONFIG not in ran.output, ran)
        checks.expect("what comes to the prefix itself", False, prefix.exists())
        to = stage / prefix.relative_to("/")
        modes = {it: it.lstat().st_mode for it in stage.rglob("*")}
        folders = {stat.filemode(mode) for mode in modes.values() if stat.S_ISDIR(mode)}
        checks.expect("the modes of its folders", {"drwxr-xr-x"}, folders)
        wanted = {f"{DOCS}/{name}": READ for name in shown_files()} | {f"{DOCS}/{FETCHES}": RUNS}
        wanted |= STAGED | {f"{libraries}/{it}": mode for it, mode in STAGED_LIBRARIES.items()}
        files = {os.path.relpath(it, to): mode for it, mode in modes.items() if not it.is_dir()}
        for name in sorted({*wanted, *files}):
            mode = stat.filemode(files[name]) if name in files else None
            checks.expect(f"{name}, staged with {libraries}", wanted.get(name), mode)
        page = text_of(to / libraries / "pkgconfig/chanv.pc")
        begun = [f"prefix={prefix}", "includedir=${prefix}/include"]
        begun.append(f"libdir=${{prefix}}/{libraries}")
        checks.expect("the folders of its chanv.pc", begun, page.splitlines()[:3])
        ran = make(checks, "uninstall", prefix, *words)
        checks.expect("make uninstall of a stage", 0, ran.status)
        left = [it for it in stage.rglob("*") if not it.is_dir()]
        checks.expect("what it leaves", [], left)


def check_errors(checks, folder):
    """If a page outside docs/ can't be copied, `make install` fails, though the next can."""
    for name in ("bench", "python"):
        to = folder / f"no {name}"
        (to / DOCS).mkdir(parents=True)
        (to / DOCS / name).write_text("a file in place of the folder\n")
        ran = make(checks, "install", to)
        checks.expect_that(f"make install without {name}/README.md", ran.status != 0, ran)


def check(checks, built):
    library, program = built.library(), built.chanv()
    TARGETS.update({} if is_proved(program) else OF_RUSTC)
    shown = dict(shown_by(EMBEDDING))["./ask"]
    with tempfile.TemporaryDirectory() as room:
        check_embedding(checks, program, library, Path(room))
        check_targets(checks, Path(room), program, library)
    with tempfile.TemporaryDirectory(prefix="two words ") as room:
        folder = Path(room)
        to = folder / "opt"
        checks.expect("make install", 0, make(checks, "install", to).status)
        size = sum(it.lstat().st_size for it in to.rglob("*") if not it.is_dir())
        checks.expect_that("the size of all that is installed", size <= most_bytes("lib"), size)
        check_versions(checks, to, program, library)
        _, told = pkg_config(to, "--modversion") if shutil.which("pkg-config") else (0, None)
        if told is None:
            checks.skip("the example, built with pkg-config", "no pkg-config")
        else:
            checks.expect("the version of pkg-config", [version()], told)
            check_example(checks, to, shown)
        check_names(checks, to)
        check_pages(checks, to)
        deck = to / "share/doc/chanv/examples/search-loop.deck"
        ran = run(to / "bin/chanv", "verify", given=deck)
        checks.expect("an example, installed", Ran(0, "yes\n"), ran)
        check_stage(checks, folder)
        check_errors(checks, folder)
        check_library_folder(checks, folder)
        made = ["shared", "static"]
        checks.expect("make uninstall", 0, make(checks, "uninstall", to).status)
        left = sorted(it.name for it in to.rglob("*") if not it.is_dir() and it.name not in made)
        checks.expect("make uninstall leaves nothing", [], left)
