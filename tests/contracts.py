"""Checks what a reader of the contracts looks at first.

    python3 tests/contracts.py

Every public function of a library has an `ensures`, and none has a `requires`: it refuses bad input instead. What a
library passes on by `pub use` has its contract where it is declared, and a program's functions are not looked at.
No file of specs/ or proofs/ gives a symbol of the logic a meaning of its own, and no `use` brings something else in
under such a symbol; none has an `axiom`, the logic's `lem` or `ac`, or a hole `?`. crates.txt lists every folder of
crates/. Prints how many public functions there are, or what is wrong, and then ends with status 1.
"""

import re
import sys

from layers import NAME, ROOT, code_of, folders, listed

SYMBOL = r"(?:◌≡◌|◌<◌|◌≤◌|◌\+◌|length|get_or|slice_index|set|take|drop|now)"
FUNCTION = r"\bpub\s+(?:(?:const|unsafe|extern)\s+)*fn\s+(\w+)"
# A symbol declared, and another thing that is brought in as one
DECLARED = rf"(?m)^ *(?:(?:unfoldable|abbrev|pub) +)*(?:({SYMBOL}) *:|(?:data|record) +({SYMBOL}) )"
BROUGHT = rf"\bas\s+({SYMBOL})\s*[,}}]"


def place(path, start):
    return f"{path.relative_to(ROOT)}:{code_of(path).count(chr(10), 0, start) + 1}"


# The words of the clauses between a function's name and its body; a clause has braces of its own
def clauses(code, at):
    brace = re.compile(r"\b(requires|ensures|ghost)\b[^{]*\{|\{")
    while (found := brace.search(code, at)) and found[1]:
        yield found[1]
        depth, at = 1, found.end()
        while depth and at < len(code):
            depth += {"{": 1, "}": -1}.get(code[at], 0)
            at += 1


def public_functions():
    """(place and name, the words of its clauses) of each public function of a library."""
    for path in sorted(ROOT.glob("crates/*/src/**/*.rt")):
        if not (ROOT / "crates" / path.relative_to(ROOT).parts[1] / "src" / "main.rt").exists():
            for m in re.finditer(FUNCTION, code_of(path)):
                yield f"{place(path, m.start())}: {m[1]}", set(clauses(code_of(path), m.end()))


def of_contracts(functions):
    for where, words in functions:
        if "ensures" not in words:
            yield f"{where}: public, and ensures nothing"
        if "requires" in words:
            yield f"{where}: public, and has a requires: refuse bad input instead"


def of_files():
    """Symbols with another meaning, axioms and holes."""
    for path in sorted([*ROOT.glob("crates/*/specs/**/*.antt"), *ROOT.glob("crates/*/proofs/**/*.antt")]):
        code = code_of(path)
        for m in re.finditer(DECLARED, code):
            yield f"{place(path, m.start())}: {m[1] or m[2]}: a symbol of the logic, with a meaning of its own"
        for m in re.finditer(NAME, code):
            if m[0] in ("axiom", "lem", "ac"):
                yield f"{place(path, m.start())}: {m[0]}: an axiom"
            if m[0].startswith("?"):
                yield f"{place(path, m.start())}: {m[0]}: a hole"
    for path in sorted([*ROOT.glob("crates/*/src/**/*.rt"), *ROOT.glob("crates/*/*/**/*.antt")]):
        for m in re.finditer(BROUGHT, code_of(path)):
            yield f"{place(path, m.start())}: {m[1]}: a symbol of the logic, for something else"


def main():
    functions = list(public_functions())
    wrong = [*of_contracts(functions), *of_files()]
    wrong += [f"crates/{crate}: not listed in crates.txt" for crate in sorted(folders() - dict(listed()).keys())]
    if wrong:
        print("\n".join(wrong))
        sys.exit(1)
    print(f"{len(functions)} public functions: each has an ensures and no requires; no symbol anew, no axiom, no hole")


if __name__ == "__main__":
    main()
