"""Wrong definitions: Coq refuses each, and over eleven of them a law is proved to be false.

A mutant is an edit of a definition that is translated: one of MUTANTS here, or one of must-fail/ in
chan_walk, chan_needs and chan_deck, without its edits of code and proofs. Each is translated anew,
and the proofs are checked over it. A refusal may come from the text of a proof alone. So
coq_refuted.v has for some a job, its yes by the verifier, and a run that breaks the promise of the
yes. SHARED changes what verdict and machine share, as docs/MACHINE.md lists it: there every proof
must hold.

Eleven refusals are tried, and with COQ_MUTANTS=all every one. Without Coq the test is left out, by
its name.

    tests/coq_mutants.py [NAME..]    names the lemma that fails over each mutant, or over these
"""

import os
import re
import shutil
import sys
import tempfile
from concurrent.futures import ThreadPoolExecutor
from pathlib import Path

sys.dont_write_bytecode = True

from building import ROOT  # noqa: E402
from coq import HERE, missing, names_of_laws  # noqa: E402
from mutants import paths_of, read_mutant  # noqa: E402
from running import run, text_of  # noqa: E402

AT_ONCE = 2
CRATES_OF_LAWS = ("chan_walk", "chan_needs", "chan_deck")
REFUTED = ROOT / "tests/coq_refuted.v"
# which of MUTANTS and of must-fail/ are tried unless all are
USUAL = [
    "mask-80-permits-write-ckd",
    "verdict-always-yes",
    "no-without-offence",
    "headline-refuses-ignores-search-skip",
    "headline-refuses-guards-only-earlier-ccws",
    "headline-refuses-forgets-mask-byte",
    "alarm-refuses-skip-stores",
    "law-refuses-no-fetch-ahead",
    "law-refuses-forgetting-in-flight",
    "law-refuses-needs-of-skipping-reads",
    "law-refuses-an-open-line-after-the-end",
]
# file, old text, new text
CCW = "ccw_core/specs/Ccw.antt"
MACHINE, FAULT = "chan_walk/specs/Machine.antt", "chan_walk/specs/Fault.antt"
VERDICT, MASK = "chan_walk/specs/Verdict.antt", "ckd_core/specs/Mask.antt"
REFUSED = "chan_deck/specs/Refused.antt"
MUTANTS = {
    "stores-change-others": (
        MACHINE,
        "  pub others : (b : ℕ) → (b < a) ⊎ (a + length bytes ≤ b) → byte t b ≡ byte s b\n",
        "",
    ),
    "device-stores-more": (MACHINE, "      m ≤ (ccw s p.address).count →\n", ""),
    "seek-goes-anywhere": (
        MACHINE,
        "  goes : {x : List ℕ} → length (with_taken s c m x) ≡ 6\n"
        "      → Seeks c m s y (Some x) (Gather (taken c m x) ∷ Seek (Some (with_taken s c m x)) ∷ [])\n"
        "      (cylinder_of (with_taken s c m x)) None\n",
        "  goes : {x : List ℕ} {z : ℕ} → length (with_taken s c m x) ≡ 6\n"
        "      → Seeks c m s y (Some x) (Gather (taken c m x) ∷ Seek (Some (with_taken s c m x)) ∷ [])\n"
        "      z None\n",
    ),
    "guards-ccws-only": (
        "chan_walk/specs/Guarded.antt",
        "IsGuarded j b = IsCcwByte j b ⊎ IsArgumentByte j b",
        "IsGuarded j b = IsCcwByte j b",
    ),
    "others-write-guarded": (
        "chan_walk/specs/Headline.antt",
        "IsSpared j = IsRunAmong (IsGuarded j) j",
        "IsSpared j = IsRunAmong (λ b. ⊥) j",
    ),
    "arm-starts-anywhere": (
        "chan_walk/specs/Runs.antt",
        "  pub arm : has_cylinder (extents_of j) m.arm ≡ true\n",
        "",
    ),
    "seek-is-never-refused": (
        FAULT,
        "is_refused j (Some x) = not (allows j x)",
        "is_refused j (Some x) = false",
    ),
    "short-seek-is-no-fault": (FAULT, "(begins_seek p c && is_none x, Short", "(false, Short"),
    "recalibrate-is-free": (FAULT, "begins_recalibrate p c && not", "false && not"),
    "mask-is-ignored-by-the-verdict": (
        FAULT,
        "(is_fresh p.entered && inhibits j.mask c.command, Inhibited)",
        "(is_fresh p.entered && inhibits 0 c.command, Inhibited)",
    ),
    "mask-80-permits-write-ckd": (
        MASK,
        "inhibits_write bits WriteFormat = bits == 0x40 || bits == 0x80",
        "inhibits_write bits WriteFormat = bits == 0x40",
    ),
    "verdict-always-yes": (
        VERDICT,
        "IsVerdict j Yes = (p : Place) (r : Reason) → IsReachable j p → Offends j p r → ⊥",
        "IsVerdict j Yes = Unit {0}",
    ),
    "put-may-repeat": (
        REFUSED,
        "is_above (Some (put b w)) a = nat_lt b a",
        "is_above (Some (put b w)) a = nat_le b a",
    ),
    "end-without-storage": (
        REFUSED,
        "may_stand second (Some (storage n)) end = true",
        "may_stand second (Some (extent a b)) end = true",
    ),
    "no-without-offence": (VERDICT, "    IsOffence j a r × ((p : Place)", "    ((p : Place)"),
}
SHARED = {
    "nineteen-heads": ("ckd_core/specs/Device.antt", "heads_of D2314 = 20", "heads_of D2314 = 19"),
    "chain-data-is-20": (CCW, "chains_data c = is_on c.flags 0x80", "chains_data c = is_on c.flags 32"),
    "skip-is-08": (CCW, "skips c = is_on c.flags 0x10", "skips c = is_on c.flags 0x08"),
}


def edits_of(name):
    """The edits of a mutant: file, old text and new text of each."""
    if name in MUTANTS or name in SHARED:
        return [(MUTANTS | SHARED)[name]]
    [path] = [p for crate in CRATES_OF_LAWS for p in paths_of(crate) if p.stem == name]
    crate = path.parent.parent.name
    changes = [it for it in read_mutant(path).changes if it[0].startswith("specs/")]
    return [(f"{crate}/{file}", old, new) for file, old, new in changes]


def of_must_fail():
    """The mutants of must-fail/ that change a definition."""
    for crate in CRATES_OF_LAWS:
        for path in paths_of(crate):
            changes = read_mutant(path).changes if path.parent.name == "must-fail" else []
            if any(it[0].startswith("specs/") for it in changes):
                yield path.stem


def sources_with(edits, folder):
    """A copy of the definitions and types, with the edits; the result is what doesn't fit."""
    files = [*ROOT.glob("crates/*/specs/*"), *ROOT.glob("crates/*/src/*.rt")]
    for path in [ROOT / "crates.txt", *files]:
        copy = folder / path.relative_to(ROOT)
        copy.parent.mkdir(parents=True, exist_ok=True)
        shutil.copy(path, copy)
    for file, old, new in edits:
        path = folder / "crates" / file
        text = path.read_text()
        if text.count(old) != 1:
            return f"{old!r} is {text.count(old)} times in {file}"
        path.write_text(text.replace(old, new))
    return None


def translated(edits, room):
    """Writes the proofs and the definitions with the edits into the folder."""
    wrong = sources_with(edits, room / "sources")
    if wrong:
        return wrong
    ran = run(sys.executable, "-B", HERE / "translate.py", room / "sources", *names_of_laws())
    if ran.status:
        return ran.error
    (room / "Defs.v").write_text(ran.output)
    return None


def first_failure(room, goal):
    """Makes a file with all that it rests on: the file and the lemma that fail, or None."""
    names = sorted(path.name for path in room.glob("*.v"))
    run("coq_makefile", "-Q", ".", "Chanv", "-arg", "-w none", *names, "-o", "Makefile", cwd=room)
    ran = run("make", "-C", room, goal, timeout=None)
    if not ran.status:
        return None
    at = re.search(r'File "\./(\w+)\.v", line (\d+)', ran.error)
    if not at:
        return ran.error[-200:]
    lines = text_of(room / f"{at[1]}.v").splitlines()[: int(at[2])]
    begins = re.compile(r" *(?:Lemma|Theorem|Record|Definition) (\w+)")
    named = [found[1] for found in map(begins.match, lines) if found]
    return f"{at[1]}.v: {named[-1] if named else '?'}"


def outcome(name):
    """What fails over a mutant: a lemma, or None if all is proved."""
    with tempfile.TemporaryDirectory(prefix="coq-") as folder:
        room = Path(folder)
        for path in HERE.glob("*.v"):
            shutil.copy(path, room)
        wrong = translated(edits_of(name), room)
        return f"unfit: {wrong}" if wrong else first_failure(room, "Laws.vo")


def refutations():
    """The part of coq_refuted.v for each mutant, behind what all parts share."""
    text = text_of(REFUTED)
    head = text[: text.index("(* BEGIN")]
    for name, body in re.findall(r"\(\* BEGIN (\S+) \*\)\n(.*?)\(\* END \*\)", text, re.S):
        yield name, f"{head}{body}Print Assumptions false_here.\n"


def is_refuted(named):
    """What fails in the proof that a law is false over the mutant, or None."""
    name, text = named
    with tempfile.TemporaryDirectory(prefix="coq-") as folder:
        room = Path(folder)
        for file in ("Prelude", "Basics", "Verdict"):
            shutil.copy(HERE / f"{file}.v", room)
        (room / "Refuted.v").write_text(text)
        return translated(edits_of(name), room) or first_failure(room, "Refuted.vo")


def every():
    """All mutants that Coq has to refuse."""
    return [*MUTANTS, *of_must_fail()]


def leave_out(checks, tried):
    """Names how many mutants this run isn't asked for."""
    left = len(every()) - len(tried)
    if left:
        checks.leave_out(f"{left} refusals", "COQ_MUTANTS=all tries them")


def check(checks, _built):
    if missing():
        checks.skip("all of it", f"not here: {', '.join(missing())}")
        return
    tried = every() if os.environ.get("COQ_MUTANTS") == "all" else USUAL
    leave_out(checks, tried)
    parts = [*refutations()]
    with ThreadPoolExecutor(AT_ONCE) as beside:
        failing = [beside.submit(outcome, name) for name in tried]
        staying = [beside.submit(outcome, name) for name in SHARED]
        false = [beside.submit(is_refuted, part) for part in parts]
        for name, it in zip(tried, failing):
            failed = it.result()
            checks.expect_that(f"{name} is refused", bool(failed) and "unfit" not in failed, failed)
        for name, it in zip(SHARED, staying):
            checks.expect(f"{name} stays proved", None, it.result())
        for (name, _), it in zip(parts, false):
            checks.expect(f"a law is false over {name}", None, it.result())


if __name__ == "__main__":
    for name in sys.argv[1:] or [*MUTANTS, *SHARED, *of_must_fail()]:
        print(f"{name}: {outcome(name) or 'PROVED'}", flush=True)
