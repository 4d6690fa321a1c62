"""The version is the same wherever it is written."""

import re

from building import ROOT, version
from running import text_of

# each place, and the pattern whose groups are the numbers there, joined by dots
PLACES = [
    ("CHANGELOG.md", r"(?m)^## (\d+\.\d+\.\d+)$"),
    ("crates/chan_args/src/command_table.rt", r'\.version\("(.*)"\)'),
    ("crates/chanv_c/include/chanv.h", r'#define CHANV_VERSION "(.*)"'),
    (
        "crates/chanv_c/include/chanv.h",
        r"CHANV_VERSION_MAJOR (\d+)\n.*_MINOR (\d+)\n.*_PATCH (\d+)",
    ),
    ("crates/chanv_c/specs/Version.antt", r"(?m)^-- (.*?): its three numbers"),
    ("crates/chanv_c/specs/Version.antt", r"65536 \* (\d+) \+ 256 \* (\d+) \+ (\d+)"),
    ("crates/chanv_c/src/library_version.rt", r"= \((\d+), (\d+), (\d+)\);"),
    ("docs/EMBEDDING.md", r"header's version, such as `(.*?)`"),
    ("docs/chanv.1", r'"chanv (\d.*?)"'),
    ("python/chanv/_c.py", r'VERSION = "(.*)"'),
]


def check(checks, _built):
    for name, pattern in PLACES:
        found = re.search(pattern, text_of(ROOT / name))
        seen = ".".join(found.groups()) if found else None
        checks.expect(f"the version in {name}", version(), seen)
    soname = f"libchanv.so.{version().split('.')[0]}"
    for name in ("crates/chanv_c/include/layout.txt", "python/chanv/_c.py"):
        checks.expect_that(f"the soname in {name}", soname in text_of(ROOT / name), soname)
    package = f"Package: {soname.replace('.so.', '')}\n"
    control = text_of(ROOT / "debian/control")
    checks.expect_that("the soname in debian/control", package in control, package)
