"""Checks docs/REVIEW.md against the tree.

    python3 tests/review.py

The page writes an edit as `crate/name`, and a public function as `module::function` at the head of a table
row under its crate's heading. Every public function of a library crate must have such a row, with two edits
at least; every edit of crates/*/must-fail must be named; every edit and every `proofs/..` named must exist.
Prints how many functions and edits there are, or what is missing, and then ends with status 1.
"""

import re
import sys
from pathlib import Path

ROOT = Path(__file__).resolve().parent.parent
PAGE = (ROOT / "docs" / "REVIEW.md").read_text(encoding="utf-8")


def public_functions():
    """(crate, module::function) of every library crate."""
    for lib in ROOT.glob("crates/*/src/lib.rt"):
        for path in lib.parent.glob("**/*.rt"):
            code = re.sub(r"//[^\n]*", "", path.read_text(encoding="utf-8"))
            for name in re.findall(r'\bpub\s+(?:extern\s+"C"\s+)?fn\s+(\w+)', code):
                yield lib.parent.parent.name, f"{path.stem}::{name}"


def edits_of(line):
    return {f"{c}/{e}" for c, e in re.findall(r"`(\w+)/(\w+)`", line) if (ROOT / "crates" / c).is_dir()}


def rows():
    """The edits of each row, by (crate, module::function)."""
    crate = None
    for line in PAGE.splitlines():
        heading = re.match(r"#+ (?:`(\w+)`)?", line)
        row = re.match(r"\| `(\w+::\w+)` \|", line)
        if heading:
            crate = heading[1]
        elif row:
            yield (crate, row[1]), edits_of(line)


def is_proof(path):
    return any(ROOT.glob(f"crates/*/{path}.antt")) or any(ROOT.glob(f"crates/*/{path}/*.antt"))


def main():
    functions = set(public_functions())
    edits = {f"{p.parent.parent.name}/{p.stem}" for p in ROOT.glob("crates/*/must-fail/*.edit")}
    listed, named = dict(rows()), edits_of(PAGE)
    proofs = set(re.findall(r"`(proofs/[\w/+]+)`", PAGE))
    missing = [f"{c}: {f} has no row" for c, f in functions - listed.keys()]
    missing += [f"{c}: {f} is no public function" for c, f in listed.keys() - functions]
    missing += [f"{c}: {f} has fewer than two edits" for (c, f), own in listed.items() if len(own & edits) < 2]
    missing += [f"{e} is not named" for e in edits - named]
    missing += [f"{e} does not exist" for e in named - edits]
    missing += [f"{p} does not exist" for p in proofs if not is_proof(p)]
    if missing:
        print("\n".join(sorted(missing)))
        sys.exit(1)
    print(f"{len(functions)} functions, {len(edits)} edits: complete")


if __name__ == "__main__":
    main()
