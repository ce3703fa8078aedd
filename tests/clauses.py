"""Checks docs/CLAUSES.md against the tree.

    python3 tests/clauses.py

Every function, type and definition whose comment names a clause of the notice must be named on the page, in a row
of that clause; every function and definition that the page names must exist, and where the page names its crate, in
that crate; and its comment must name the clauses of the rows that name it, and no other.
A function and the definition that its contract says it equals name the same clauses, and so do a definition of the
code and the one of `receiver_spec` that a proof says it means.
Prints how many there are, or what is missing, and then ends with status 1.
"""

import re
import sys
from pathlib import Path

ROOT = Path(__file__).resolve().parent.parent
PAGE = (ROOT / "docs" / "CLAUSES.md").read_text(encoding="utf-8")
CODE = r" *(?:pub(?:\(crate\))? )?(?:fn|struct|enum|const) (\w+)"
SPEC = r"(?:abbrev|unfoldable) pub (\S+) :|pub (?:record|data) (\w+)"


def declared(pattern, mark, item):
    """(file, name, its comment) of what the files declare; a comment holds for all that follows it up to a blank line."""
    for path in sorted(ROOT.glob(pattern)):
        comment, commenting = "", False
        for line in path.read_text(encoding="utf-8").splitlines():
            found = re.match(item, line)
            if found:
                yield path.relative_to(ROOT), next(filter(None, found.groups())), comment
            marked = line.lstrip().startswith(mark)
            if marked:
                comment = (comment + " " if commenting else "") + line.lstrip("-/ ")
            elif not line:
                comment = ""
            commenting = marked


CLAUSE = re.compile(r"4\(1\)\(1-[12]\)(?:\([abcd]\))?(?:\([アイウエ]\))?|4\(2\)(?:\([abcd]\))?(?:\([アイウエ]\))?|5\(3\)\(3-[12]\)|5\([12]\)"
                    r"|[12]\b(?:\([ab]\))?|3\b|\(3-2\)|\([ab]\)(?:\([アイウエ]\))?|\([cd]\)\([アイウエ]\)|\([アイウエ]\)")


# The clauses at the beginning of a text, written out: "4(1)(1-1)(c)(イ) to (エ) and 5(1): ..." is four
def clauses(text):
    found, base, article = [], "", ""
    while True:
        joined = re.match(r" (to) | and |, |; ", text) if found else re.match("", text)
        here = joined and CLAUSE.match(text, joined.end())
        if not here:
            return set(found)
        clause = here[0]
        if clause[0] == "4":
            base, article = re.match(r"(4\(1\)\(1-.\)|4\(2\))(\(\w\))?", clause).groups("")
        elif re.match(r"\([abcd]\)", clause):
            article = clause[:3]
            clause = base + clause
        elif re.match(r"\([アイウエ]\)", clause):
            clause = base + article + clause
        elif clause == "(3-2)":
            clause = "5(3)(3-2)"
        if joined[0] == " to ":
            letters = "アイウエ"
            found += [f"{base}{article}({letter})" for letter in letters[letters.index(found[-1][-2]) + 1:letters.index(clause[-2])]]
        found.append(clause)
        text = text[here.end():]


def clauses_beside(comment):
    return set().union(*(clauses(rest) for rest in comment.split("Notice 49, ")[1:]))


# (suffix, crate, name) -> the clauses of the rows that name it, in the column of definitions or of functions.
# A heading says which crate's names stand bare
def clauses_on_page():
    at, bare = {}, ("text", "text")
    for row in PAGE.splitlines():
        cells = [cell.strip() for cell in row.strip("|").split("|")]
        if cells[0] == "Clause":
            bare = [(re.search(r"\(`(\w+)`", heading) or [0, "text"])[1] for heading in cells[2:4]]
        elif row.startswith("|") and clauses(cells[0]):
            for suffix, cell, crate in zip((".antt", ".rt"), cells[2:4], bare):
                for key in names_in(cell, crate):
                    at.setdefault((suffix, *key), set()).update(clauses(cells[0]))
    return at


def names_in(cell, bare):
    for group in cell.split(";"):
        placed_in = re.match(r"\s*`(\w+)`: (.*)", group)
        crate, names = placed_in.groups() if placed_in else (bare, group)
        for name in re.findall(r"`([\w.:]+)`", names):
            first, last = re.split(r"::|\.", name)[0], re.split(r"::|\.", name)[-1]
            yield first if (ROOT / "crates" / first).is_dir() else crate, last


# (suffix, crate, name) -> the clauses beside it
def clauses_of(items):
    beside = {}
    for path, name, comment in items:
        beside.setdefault((path.suffix, path.parts[1], name), set()).update(clauses_beside(comment))
    return beside


# What stands beside an item and not on the page, or on the page and not beside it
def differences(beside):
    page = clauses_on_page()
    for key in sorted(beside.keys() | page.keys()):
        here, there = beside.get(key, set()), page.get(key, set())
        if here != there:
            yield f"{key[1]}: {key[2]}, {key[0]}: beside it alone {sorted(here - there)}, on the page alone {sorted(there - here)}"


# The page writes a name in code type, behind its module where there is one; bytes have two digits
def named():
    names = {re.split(r"::|\.", name)[-1] for name in re.findall(r"`([\w.:]+)`", PAGE)}
    return {name for name in names if len(name) > 2 or name == "FD"}


# (crate, name) where the page has a crate before its names, as in "`receiver_step`: `opening::at_first`, `opened_text`"
def placed():
    for row in PAGE.splitlines():
        for crate, names in re.findall(r"`(\w+)`: ([^;|]*)", row):
            yield from ((crate, re.split(r"::|\.", name)[-1]) for name in re.findall(r"`([\w.:]+)`", names))


# name -> the crate that defines it, of the definitions that a file uses
def crates_of(text):
    used = re.findall(r"use Rattle\.(\w+)\.specs[\w.]*\.\{([^}]*)\}", text)
    return {name: crate for crate, names in used for name in names.split(", ")}


# The definition that a contract is about: what the result, read by a definition or not, or a lent slice at its exit
# equals; how many bytes are waited for; or one that has the function's own name, as `payload_ahead` has
READ = r"(?:\w+ )?result(?: \w+\.new)? ≡ |\w+\.new ≡ |Waited s \("


def definitions_in(contract, function):
    plain = function.replace("_", "")
    own = [name for name in re.findall(r"\w+", contract) if name.lower().replace("_", "") in (plain, "is" + plain)]
    return {*re.findall(rf"^(?:{READ})(\w+)", contract), *own}


# The keys of a function and a definition, for each contract that says that they are equal. The words of lists, and
# `run`, which takes bytes one by one, are left out: no clause governs them
def equal():
    for path in sorted(ROOT.glob("crates/*/src/**/*.rt")):
        text, function = path.read_text(encoding="utf-8"), ""
        crates = crates_of(text)
        for line in text.splitlines():
            function = (re.match(CODE, line) or [None, function])[1]
            contract = re.match(r" *ensures(?: \w+)? \{ (.*) \}", line)
            for name in sorted(definitions_in(contract[1], function)) if contract else ():
                if name in crates and crates[name] != "general_laws" and name != "run":
                    yield (".rt", path.relative_to(ROOT).parts[1], function), (".antt", crates[name], name)


# The keys of two definitions, for each law that says what one of the code means
def meant():
    for path in sorted(ROOT.glob("crates/receiver_*/proofs/**/*.antt")):
        text = path.read_text(encoding="utf-8")
        crates = crates_of(text)
        for name, other in re.findall(r"(?:Means|meaning) g b \((\w+) .*\) (?:\(R\.|≡ )(\w+)", text):
            if name in crates:
                yield (".antt", crates[name], name), (".antt", "receiver_spec", other)


def main():
    declarations = [*declared("crates/*/src/**/*.rt", "//", CODE), *declared("crates/*/specs/*.antt", "--", SPEC)]
    items = [(path, name, "Notice 49" in comment) for path, name, comment in declarations]
    governed = [(path, name) for path, name, clause in items if clause]
    missing = [f"{path}: {name} is not on the page" for path, name in governed if name not in named()]
    known = {name for _, name, _ in items} | {path.parent.name for path in ROOT.glob("crates/*/src")}
    modules = {path.stem for path in ROOT.glob("crates/*/s*/**/*.*")}
    missing += [f"the page names {name}, which is not there" for name in sorted(named() - known - modules)]
    beside = clauses_of(declarations)
    there = {key[1:] for key in beside}
    missing += [f"the page names {name} in {crate}, which has none" for crate, name in sorted(set(placed()) - there)]
    missing += differences(beside)
    missing += [f"{a[1]}: {a[2]} and {b[1]}: {b[2]}: beside one of them alone {sorted(beside[a] ^ beside[b])}"
                for a, b in dict.fromkeys([*equal(), *meant()]) if b in beside and beside[a] != beside[b]]
    print("\n".join(missing) or f"{len(governed)} functions and definitions under clauses, all on the page")
    sys.exit(1 if missing else 0)


main()
