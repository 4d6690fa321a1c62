"""The page of examples/assembler/: its program is assembled, and judged as the page shows.

What the page shows was worked out from the rules. Where there is no assembler for System/390 the
page is left out, by its name.
"""

import shutil

from building import short
from examples import EXAMPLES
from pages import check_page

PAGE = EXAMPLES / "assembler/README.md"
ASSEMBLER, LINKER = "s390x-linux-gnu-as", "s390x-linux-gnu-ld"


def check(checks, built):
    if shutil.which(ASSEMBLER):
        check_page(checks, PAGE, built.chanv())
    else:
        checks.skip(short(PAGE), f"no {ASSEMBLER}")
