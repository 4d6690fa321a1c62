"""The laws and a verifier in Coq: all is proved, nothing is lost in translation, verdicts agree.

`make coq` proves every law of chan_walk, chan_needs, chan_why and chan_deck with no axiom. The translator
takes exactly the definitions that closure.py counts, prints each back as its file has it, reads
operators as the kit does, and refuses what it doesn't know, with file and line. Kit.v proves the
laws of the kit's library of what Coq has in its place: each line that it quotes has a goal, over
another Prelude.v a goal fails, and the comparison with the kit finds each difference of a made-up
kit and of a copy. An error of a proof is an error of `make coq`. The contract that the verifier
keeps there is that of `verify`, clause by clause. The program that is proved there says the same as
chanv over all example decks, random jobs, large decks, refused decks, by line and cause, and
damaged decks; it reports refused memory and a failed write; and what stands in OCaml for functions
of Coq gives what these give. Forms that Coq could read otherwise than the kit mean the same there.
Without Coq the test is left out, by its name.
"""

import os
import re
import shutil
import sys
import tempfile
from pathlib import Path
from random import Random

from answers import MOST_BYTES
from building import ROOT, short
from closure import CRATES, Sources, contract, statements
from coq_forms import FORMS, NAMES, VALUES, definitions_of_pairs, translated, write_crate
from coq_meanings import OF_COQ
from coq_reading import differs, wrong_files, wrong_readings
from edges import chain_of
from examples import FOLDERS, SEARCH_LOOP, TEXTS, decks_of
from expecting import CannotRun
from model import SEED, deck_of, jobs_of
from refused_decks import refused
from running import Ran, run, run_in_bash, text_of, write_script
from speed import decks_of_bench

HERE = ROOT / "coq"
sys.path.insert(0, str(HERE))

from kit import DECLARES, LAWS as OF_KIT_V, OPERATORS, QUOTED  # noqa: E402
from kit import TEXTS as OF_THE_KIT, differences_to  # noqa: E402
from translate import FIXITY, Translation, statement_name  # noqa: E402

TOOLS = ["coqc", "coq_makefile", "ocamlopt", "make"]
CONTRACT = HERE / "Contract.v"
PROGRAM = ROOT / "out/coq/chanv-coq"
JOBS = 2000
DAMAGED = 2000
# seconds of a processor that a deck may take, with 65,536 places and with 16 MiB of storage
MOST = {"places-65536": 6, "chain-in-full-storage": 6}

# how many columns a line of Coq may have; a proof, where it branches, and two sentences on a line
WIDEST = 100
PROOF = re.compile(r"(?s)\bProof\.\s(.*?)\b(?:Qed|Defined)\.")
BRANCH = re.compile(r"(?m)^ *[-+*{] ")
CROWDED = re.compile(r"(?m)^.*\w.*[^.]\. +[^\s}].*$")

# words of a clause of the contract of verify, and what Contract.v has in their place
OF_CONTRACT = {
    "IfOk result": "IfOk answer",
    "result ≡ Err WalkError.": "answer = inr ",
    "→": "->",
    "job.now.limit": "(Job_limit j)",
    "job.now": "j",
}

# the files of laws, and how many reasons a no can have
LAWS = [f"{it}/src/laws.rt" for it in ("chan_walk", "chan_needs", "chan_why", "chan_deck")]
REASONS = 16

# KiB of memory that are too few for a deck with 16 MiB of storage
TOO_FEW = range(8000, 16000, 1000)
OUT_OF_MEMORY = "chanv: {}: out of memory\n"

# a statement of Laws.v: what is proved, the law if it is one, and what is asked for its axioms
STATED = re.compile(
    r"^Check \(?(\w+)(?: : (\w+)\))?\.(?:\s+Print Assumptions (\w+)\.)?$", re.MULTILINE
)

# a part of Prelude.v, and another that no longer says what the kit does
OTHER_PRELUDES = [
    ("(prod A B)", "(sum A B)"),
    ("(sum A B)", "(prod A B)"),
    ("(prod (A -> B) (B -> A))", "(prod (A -> B) (A -> B))"),
    ("(a = b -> Empty)", "(a = b -> unit)"),
    ("[] => unit", "[] => Empty"),
    ("P x × AllByRecursion P xs end", "P x ⊎ AllByRecursion P xs end"),
    ("nth i xs 0.", "nth i xs 1."),
    (":= seq a n.", ":= seq (S a) n."),
    ("None => p | Some x => Some x", "None => p | Some x => p"),
    ("None => false | Some _ => true", "None => true | Some _ => false"),
    (":= negb (is_some o).", ":= is_some o."),
    ("list_ascii_of_string s).", "rev (list_ascii_of_string s))."),
    ("forall k, k + 1 < List", "forall k, k < List"),
    ("is_some o = true.", "is_some o = false."),
    ("forall k d, k < List", "forall k d, k <= List"),
    ("low <= k -> k < high -> P (nth k xs d).", "low < k -> k < high -> P (nth k xs d)."),
    ("  forall d, P (nth k xs d).", "  forall d, P (nth 0 xs d)."),
    ("if b then P else Q.", "if b then Q else P."),
    ("R (f x) (f y).", "R (f y) (f x)."),
    (":= E x y && F x y.", ":= E x y || F x y."),
    ("| [], [] => true", "| [], _ => true"),
    ("=> E x y && pointwise", "=> E x y || pointwise"),
    ("w32 => 32", "w32 => 16"),
    ("bits w / 8.", "bits w / 4."),
    ("match i with 0 => n mod 256", "match i with 0 => n mod 255"),
    ("(n / 256 ^ S i) mod 256", "(n / 256 ^ i) mod 256"),
    ("byte_at k n :: bytes_high_first k n", "byte_at (S k) n :: bytes_high_first k n"),
    ("bytes_high_first (byte_len w) n.", "bytes_high_first (bits w) n."),
    ("slice_index t (b / 16) :: ", ""),
    ('codes "0123456789ABCDEF".', 'codes "0123456789abcdef".'),
    ("encode_with upper_digits bytes.", "encode_with [] bytes."),
    ("then 48 + d else if", "then 49 + d else if"),
    ("if n / base =? 0 then", "if n mod base =? 0 then"),
    ("digits_onto 64 base upper n [].", "digits_onto 63 base upper n []."),
    ("digits 10 false n.", "digits 16 false n."),
]

# in place of coq_makefile and coqc: one makes nothing, one fails over a file
MAKES_NOTHING = "#!/bin/sh\nprintf 'all:\\n' > Makefile.proofs\n"
FAILS_OVER = '#!/bin/sh\nfor file; do :; done\necho "$file" >> coqc.said\n[ "$file" != "$FAILS" ]\n'
# the file over which coqc fails, and whether make does
PROVING = [("none", True), ("Laws.v", False), ("Extract.v", False)]

# pairs of numbers for what OCaml has in place of functions of Coq
PAIRS = [(a, b) for a in (0, 1, 5, 8, 15, 16, 88, 255, 256, 1000) for b in (0, 1, 2, 7, 8, 16, 255)]
IN_COQ = """From Coq Require Import List PeanoNat.
Import ListNotations.
Goal List.map (fun p => {} (fst p) (snd p)) [{}] = [{}]. vm_compute. reflexivity. Qed.
"""
# the functions of Coq for which OCaml has its own, each but the first under two names
OF_OCAML = ["Nat.land"] + [
    f"{module}.{name}"
    for name in ("add", "mul", "ltb", "sub", "modulo", "div")
    for module in ("Coq.Init.Nat", "Coq.Arith.PeanoNat.Nat")
]


def missing():
    """The tools that aren't here."""
    return [tool for tool in TOOLS if not shutil.which(tool)]


def names_of_laws():
    """The names that the translator starts from."""
    return text_of(HERE / "LAWS").split()


def laws_of(text):
    """Each law of a file, and the names of what it states, as the translator calls these."""
    found = {}
    for law, clauses in re.findall(r"(?ms)^(?:pub\(crate\) )?fn (\w+)\(\)\n(.*?)^\{\}$", text):
        stated = re.findall(r"(?s)ensures (?:(\w+) )?\{ (.*?) \}", clauses)
        found[law] = [it if it.isalnum() else statement_name(law, name) for name, it in stated]
    return found


def check_laws(checks, said):
    """Each law is stated in Laws.v, and what it assumes is nothing."""
    text = text_of(HERE / "Laws.v")
    stated = STATED.findall(text)
    checks.expect("statements, a line each", text.count("Check "), len(stated))
    for name, _, asked in stated:
        checks.expect(f"what is printed beside {name}", name, asked)
    proved = [law for name, law, asked in stated if law and name == asked]
    for file in LAWS:
        for law, clauses in laws_of(text_of(CRATES / file)).items():
            checks.expect_that(f"{law} is proved in Coq", clauses and {*clauses} <= {*proved}, proved)
    checks.expect_that("laws that are translated", {*proved} <= {*names_of_laws()}, proved)
    closed = said.count("Closed under the global context")
    checks.expect("statements without an axiom", len(stated), closed)
    unfinished = r"\b(Axiom|Parameter|Conjecture|Admitted|admit|give_up)\b"
    for path in sorted(HERE.glob("*.v")):
        checks.expect(f"what {short(path)} leaves open", [], re.findall(unfinished, text_of(path)))


def check_lines(checks):
    """No line is wider than a page, but for what quotes the kit. Where a proof branches, each
    sentence has a line."""
    for path in sorted(HERE.glob("*.v")):
        text = text_of(path)
        wide = [line for line in text.splitlines() if len(line) > WIDEST]
        mine = [line for line in wide if not re.search("[ℕ∷]", line)]
        checks.expect(f"wide lines of {short(path)}", [], mine)
        proofs = PROOF.findall(re.sub(r"(?s)\(\*.*?\*\)", "", text))
        branched = [proof for proof in proofs if BRANCH.search(proof)]
        crowded = [line for proof in branched for line in CROWDED.findall(proof)]
        checks.expect(f"crowded lines of {short(path)}", [], crowded)


def check_contract(checks):
    """KeepsContract of Contract.v has the clauses of the contract of verify, and no other."""
    said = contract()
    for word, other in OF_CONTRACT.items():
        said = said.replace(word, other)
    clauses = re.findall(r"ensures (\w+) \{ (.*) \}", said)
    checks.expect("clauses of verify, a line each", contract().count("ensures"), len(clauses))
    [record] = re.findall(r"(?s)\nRecord KeepsContract .*? := \{\n(.*?) \}\.", text_of(CONTRACT))
    checks.expect("KeepsContract", clauses, re.findall(r"keeps_(\w+) : (.*?)(?:;\n|$)", record))


def check_marks(checks):
    """MACHINE marks by *once* exactly the laws that Laws.v doesn't have."""
    page = text_of(ROOT / "docs/MACHINE.md").partition("## The laws\n")[2].partition("\n## ")[0]
    rows = re.findall(r"(?m)^\| (`[^|]*) \|", page)
    checked = dict(re.findall(r"Check \((\w+) : (\w+)\)", text_of(HERE / "Laws.v")))
    proved, stated = {*checked}, {*checked.values()}
    for path in CRATES.glob("*/src/laws.rt"):
        laws = laws_of(text_of(path)).items()
        proved |= {law for law, clauses in laws if clauses and {*clauses} <= stated}
    for row in rows:
        laws = [law for law in re.findall(r"`(\w+)`", row) if "/" not in law]
        for law in laws:
            checks.expect(f"{law} is in Coq, by its mark", "*once*" not in row, law in proved)


def check_translation(checks):
    """The definitions are those of closure.py, none is in the prelude, and nothing was lost."""
    columns = statements()
    names = columns["with the laws"]
    counted = {(one.file, one.name) for one in Sources().closure(names)}
    found = {(f"{it[1]}/{it[2]}", it[3]) for it in Translation(ROOT, names).keys if it[0] == "spec"}
    checks.expect("the closure of THEOREM's statements", sorted(counted), sorted(found))
    whole = Translation(ROOT, names_of_laws())
    defines = r"(?m)^(?:Definition|Fixpoint|Notation) \"?(\w+)"
    defined = re.findall(defines, text_of(HERE / "Prelude.v"))
    named = {it[3] for it in whole.keys if it[0] == "spec"}
    checks.expect("definitions of chanv in the prelude", set(), named & {*defined})
    for key in whole.keys:
        if key[0] == "spec":
            source = whole.world.source(key[1], key[2])
            checks.expect(f"{key[1]}/{key[2]}.{key[3]} as read", None, differs(source, key[3]))


def verdicts(program, decks):
    """What a program says about the decks, line by line, with its status."""
    ran = run(program, "verify", *decks, timeout=None)
    return ran.status, ran.output, [it for it in ran.error.splitlines() if it.startswith("chanv: ")]


def check_verdicts(checks, program, room):
    decks = [deck for folder in (*FOLDERS, TEXTS) for deck in decks_of(folder)]
    for number, job in enumerate(jobs_of(Random(SEED), JOBS)):
        decks.append(room / f"job-{number}.deck")
        decks[-1].write_text("".join(f"{line}\n" for line in deck_of(job)))
    few = text_of(SEARCH_LOOP).replace("chanv deck 1", "chanv deck 2")
    few = few.replace("start 000800\n", "start 000800\nlimit 00001\n")
    for name, text in [
        ("few", few),
        ("as many as version 1 takes", chain_of(4096)),
        ("more than version 1 takes", chain_of(4097)),
    ]:
        decks.append(room / f"{name}.deck")
        decks[-1].write_text(text)
    ours, theirs = verdicts(PROGRAM, decks), verdicts(program, decks)
    for deck, one, other in zip(decks, ours[1].splitlines(), theirs[1].splitlines()):
        checks.expect(f"{deck.name}: the verdict in Coq", other, one)
    checks.expect("verdicts in Coq", theirs, ours)
    reasons = {*re.findall(r": no \w{6} (\S+)", ours[1])}
    checks.expect("how many reasons came", REASONS, len(reasons))
    checks.expect_that("too many places came", "too many places" in "".join(ours[2]), ours[2])


def damaged(random):
    """Texts of decks with lines or bytes exchanged, left out or doubled."""
    texts = [deck.read_bytes() for folder in FOLDERS for deck in decks_of(folder)]
    for _ in range(DAMAGED):
        text = random.choice(texts)
        units = text.splitlines(keepends=True) if random.random() < 0.5 else [*map(bytes, zip(text))]
        for _ in range(random.randint(1, 2)):
            one, other = (random.randrange(len(units)) for _ in range(2))
            put = random.choice([[], [units[one], units[other]], [units[other]]])
            units[one : one + 1] = put
            units = units or [b"\n"]
        yield b"".join(units)


def check_refused(checks, program, room):
    texts = [text for text, *_ in refused()]
    decks = [room / f"text-{number}.deck" for number in range(len(texts))]
    for deck, text in zip(decks, texts):
        deck.write_bytes(text)
    for number, text in enumerate(damaged(Random(SEED))):
        decks.append(room / f"damaged-{number}.deck")
        decks[-1].write_bytes(text)
    decks.append(room / "long.deck")
    shutil.copy(SEARCH_LOOP, decks[-1])
    os.truncate(decks[-1], MOST_BYTES + 1)
    for some in (decks[at : at + 500] for at in range(0, len(decks), 500)):
        ours, theirs = verdicts(PROGRAM, some), verdicts(program, some)
        checks.expect(f"refused decks in Coq, from {some[0].name} on", theirs, ours)


def check_statuses(checks, room):
    for words, status in [
        (["verify", SEARCH_LOOP], 0),
        (["verify", ROOT / "examples/changes-argument.deck", SEARCH_LOOP], 1),
        (["verify", SEARCH_LOOP, ROOT / "README.md"], 2),
        (["verify", SEARCH_LOOP, room / "missing.deck"], 3),
        (["verify"], 4),
        (["why", SEARCH_LOOP], 4),
    ]:
        checks.expect(f"chanv-coq {words}", status, run(PROGRAM, *words).status)
    said = run(PROGRAM, "--version").output
    checks.expect_that("it says what is proved", "proved in Coq" in said, said)


def check_failures(checks, room):
    """Refused memory and a failed write are reported, and no verdict takes their place."""
    ran = run_in_bash('exec "$@" > /dev/full', PROGRAM, "verify", SEARCH_LOOP)
    checks.expect("a full device", Ran(3, "", "chanv: write failed\n"), ran)
    deck = room / "large.deck"
    deck.write_text(re.sub("storage .*", "storage 1000000", text_of(SEARCH_LOOP)))
    checks.expect("a large deck", Ran(0, f"{deck}: yes\n"), run(PROGRAM, "verify", deck))
    limited = 'ulimit -v "$1"; shift; exec "$@"'
    found = [run_in_bash(limited, str(few), PROGRAM, "verify", deck) for few in TOO_FEW]
    checks.expect_that("verdicts without memory", not any(it.output for it in found), found)
    reported = Ran(3, "", OUT_OF_MEMORY.format(deck))
    checks.expect_that("refused memory is reported", reported in found, found)


def made_up_kit():
    """The files of a kit in which nothing differs."""
    files = {}
    for file, operators in OPERATORS.items():
        for operator in operators.split():
            strength, side = FIXITY[operator]
            files[file] = files.get(file, "") + f"{DECLARES[side]} {strength} ◌{operator}◌\n"
    for file, texts in OF_THE_KIT.items():
        files[file] = files.get(file, "") + "\n".join(texts)
    return files


def other_kits(files):
    """Each file of a kit that differs, and what the script has to say of it."""
    for file, operators in OPERATORS.items():
        for operator in operators.split():
            strength, side = FIXITY[operator]
            declared = f"{DECLARES[side]} {strength} ◌{operator}◌"
            for other in (
                declared.replace(str(strength), str(strength + 1)),
                declared.replace(DECLARES[side], "infixl" if side != "left" else "infixr"),
                "",
            ):
                names = r"(?m)^infix[lr]? .*$"
                changed = re.sub(names, lambda it: it[0].replace(f" ◌{operator}◌", ""), files[file])
                yield file, f"{changed}\n{other}\n", f"{operator}: "
    for file, texts in OF_THE_KIT.items():
        for text in texts:
            others = [text.replace(text[-2], "other", 1), "", f"{text}\n{text}"]
            if " = " in text.splitlines()[-1]:
                others += [f"{text}other = other\n", f"other = other\n{text}"]
            for other in others:
                yield file, files[file].replace(text, other), f"{file}: {text!r}"


def check_differing(checks, files, room, which):
    """The comparison finds each difference of a kit with these files."""
    kit = room / which
    for file, text in files.items():
        (kit / file).parent.mkdir(parents=True, exist_ok=True)
        (kit / file).write_text(text)
    script = [sys.executable, "-B", HERE / "kit.py", kit]
    checks.expect(f"the script over {which}", Ran(0, "nothing differs\n"), run(*script))
    for file, text, begin in other_kits(files):
        (kit / file).write_text(text)
        said = [*differences_to(kit)]
        found = any(line.startswith(begin) for line in said)
        checks.expect_that(f"{which} that differs: {begin}", found, said)
        (kit / file).write_text(files[file])
    (kit / file).write_text(text)
    checks.expect(f"the script's status over {which} that differs", 1, run(*script).status)


def check_kit(checks, room):
    """The comparison with the kit finds each difference, in a made-up kit and in a copy."""
    check_differing(checks, made_up_kit(), room, "a made-up kit")
    if not shutil.which("rt"):
        checks.skip("the kit's sources", "no rt here")
        return
    kit = Path(text_of(run("rt", "doc").output.encode()).strip()).parent / "rattle"
    checks.expect("what differs from the kit", [], [*differences_to(kit)])
    lines = {file: text_of(kit / file).splitlines() for file in {*OPERATORS, *OF_THE_KIT}}
    copy = {file: "".join(f"{it.strip()}\n" for it in some) for file, some in lines.items()}
    check_differing(checks, copy, room, "a copy of the kit")


def check_quoted(checks):
    """Each line that Kit.v quotes has a goal after it, if it says what something is."""
    ends = [it.end() for it in QUOTED.finditer(OF_KIT_V)]
    begins = [it.start() for it in QUOTED.finditer(OF_KIT_V)][1:] + [len(OF_KIT_V)]
    for (file, text), end, begin in zip(QUOTED.findall(OF_KIT_V), ends, begins):
        lines = [it for it in text.splitlines() if not it.startswith(("pub use", "infix", "⊤"))]
        goals = re.findall(r"(?m)^Goal ", OF_KIT_V[end:begin])
        checks.expect(f"goals after {file}: {text!r}", len(lines), len(goals))
    checks.expect("all that Kit.v quotes", OF_KIT_V.count("\n(* "), len(ends))


def check_prelude(checks, room):
    """Over a prelude that differs from the kit, a goal of Kit.v can't be proved."""
    room = room / "prelude"
    room.mkdir()
    shutil.copy(HERE / "Kit.v", room)
    text = text_of(HERE / "Prelude.v")
    for old, new in (("", ""), *OTHER_PRELUDES):
        checks.expect_that(f"Prelude.v has {old!r} once", not old or text.count(old) == 1, old)
        (room / "Prelude.v").write_text(text.replace(old, new) if old else text)
        files = ("Prelude.v", "Kit.v")
        done = [run("coqc", "-w", "none", "-Q", ".", "Chanv", it, cwd=room).status for it in files]
        expected = [0, 1] if old else [0, 0]
        checks.expect(f"Prelude.v and Kit.v over {new!r} for {old!r}", expected, done)


def check_proving(checks, room):
    """`make` fails if Coq does, whichever file comes last."""
    tools = room / "tools"
    tools.mkdir()
    write_script(tools / "coq_makefile", MAKES_NOTHING)
    write_script(tools / "coqc", FAILS_OVER)
    for fails, is_made in PROVING:
        out = room / f"fails over {fails}".replace(" ", "-")
        shutil.copytree(PROGRAM.parent, out)
        (out / "verifier.ml").unlink()
        given = {**os.environ, "PATH": f"{tools}:{os.environ['PATH']}", "FAILS": fails}
        ran = run("make", "-C", HERE, f"OUT={out}", "proofs", out / "verifier.ml", env=given)
        checks.expect_that(f"make, where {fails} fails", (ran.status == 0) == is_made, ran)
        said = text_of(out / "coqc.said").split()
        checks.expect_that(f"what was tried, where {fails} fails", "Laws.v" in said, said)


def check_extraction(checks, room):
    """What OCaml has in place of functions of Coq gives what these give."""
    inlined = re.findall(r'Extract Inlined Constant (\S+) =>\s+"(.*)"\.', text_of(HERE / "Extract.v"))
    checks.expect("functions of OCaml", OF_OCAML, [name for name, _ in inlined])
    for name, code in inlined:
        # Coq would count up a product of the largest
        few = [(a, b) for a, b in PAIRS if not name.endswith("mul") or a * b < 5000]
        pairs = "; ".join(f"({a}, {b})" for a, b in few)
        shown = "%b" if name.endswith("ltb") else "%d"
        ask = f"List.iter (fun (a, b) -> Printf.printf \"{shown};\" ({code} a b)) [{pairs}]\n"
        (room / "asked.ml").write_text(ask)
        run("ocamlopt", "-w", "-a", "asked.ml", "-o", "asked", cwd=room)
        results = run(room / "asked").output.removesuffix(";")
        checks.expect(f"how many results of {name}", len(few), len(results.split(";")))
        (room / "asked.v").write_text(IN_COQ.format(name, pairs, results))
        ran = run("coqc", "-w", "none", "asked.v", cwd=room)
        checks.expect(f"{name} in OCaml", (0, ""), (ran.status, ran.error))


def check_forms(checks, room):
    """Made-up forms mean in Coq what the kit makes of them, and no pattern binds a constructor."""
    room = room / "forms"
    names, pairs, goals = definitions_of_pairs()
    write_crate(room, FORMS + pairs, {})
    shutil.copy(HERE / "Prelude.v", room)
    coqc = ["coqc", "-w", "none", "-Q", ".", "Chanv"]
    text = translated(room, NAMES + names)
    (room / "Forms.v").write_text("\n".join([text, *VALUES, *goals, ""]))
    for file in ("Prelude.v", "Forms.v"):
        ran = run(*coqc, file, cwd=room)
        checks.expect(f"made-up forms in Coq, {file}", (0, ""), (ran.status, ran.error))
    for word in sorted(OF_COQ):
        (room / "Bound.v").write_text(text.replace("with o => tt", f"with {word} => tt"))
        ran = run(*coqc, "Bound.v", cwd=room)
        is_refused = re.search('The constructor|The term "t" has type "T"', ran.error)
        checks.expect_that(f"Coq refuses a pattern that binds {word}", is_refused, ran)


def check_speed(checks, room):
    for name, most in MOST.items():
        deck = room / f"{name}.deck"
        deck.write_text("".join(decks_of_bench()[name]()))
        ran = run(PROGRAM, "verify", deck, processor=most)
        checks.expect(f"{name} in {most} s", (0, f"{deck}: yes\n"), (ran.status, ran.output))


def check(checks, built):
    if missing():
        checks.skip("all of it", f"not here: {', '.join(missing())}")
        return
    ran = run("make", "-C", ROOT, "coq", timeout=None)
    if ran.status:
        raise CannotRun(f"make coq\n{ran.output}{ran.error}")
    check_laws(checks, ran.output)
    check_lines(checks)
    check_contract(checks)
    check_marks(checks)
    check_translation(checks)
    checks.expect("readings that aren't the kit's", [], [*wrong_readings()])
    checks.expect("files that are read otherwise", [], [*wrong_files()])
    check_quoted(checks)
    with tempfile.TemporaryDirectory() as room:
        program, room = built.chanv(), Path(room)
        check_verdicts(checks, program, room)
        check_refused(checks, program, room)
        check_statuses(checks, room)
        check_failures(checks, room)
        check_kit(checks, room)
        check_prelude(checks, room)
        check_proving(checks, room)
        check_extraction(checks, room)
        check_forms(checks, room)
        check_speed(checks, room)
