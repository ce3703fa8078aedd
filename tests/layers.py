"""Checks that the crates stand in layers, and that each cites of another only what is there for others.

    python3 tests/layers.py [--unused]

A crate's name tells its layer: `general_laws` below 1, `text..` 1, `receiver_..` and `writer..` 2, `service_..` 3; above
them stand `terminal`, `program_..` and the programs, `listen`, `decode`, `resend` and `try_..`. Of another crate, in the same
layer too, sources, specs/ and proofs/ may cite

    Rattle.CRATE.specs..                         its definitions
    Rattle.CRATE.proofs.Laws..                   its laws; of a crate `.._laws` any module of proofs/
    Rattle.CRATE.proofs.MODULE.FUNCTION.Reads    the contract of a public function; `.Statement` as well
    CRATE::MODULE::ITEM                          in sources: a public function, struct, enum, trait or const

A crate cites none of a layer above its own, and no program; definitions cite no proof. crates.txt lists each folder of crates/, and for each
crate those that it cites; it has no cycle and goes up by layers. The kit's libraries are of no layer.
With --unused also: what a crate lists and does not cite, which may be right, since it lists as well who declares a
type that it merely reaches; and names of a proofs/Laws.antt that no other crate cites.
Prints how many crates and citations there are, or what is wrong, and then ends with status 1.
"""

import re
import sys
from collections import namedtuple
from functools import cache
from pathlib import Path

ROOT = Path(__file__).resolve().parent.parent
KIT = {"core", "std"}
LAYERS = [r"general_laws|refusals", r"text(_\w+)?", r"receiver_\w+|writer(_\w+)?", r"service_\w+", r"terminal|program_\w+",
          r"listen|decode|resend|try_\w+"]
TITLES = ["below layer 1", "layer 1", "layer 2", "layer 3", "above layer 3", "a program"]
TERMINAL, PROGRAM = 4, 5

# Quoted texts and comments; in antt `--` may stand inside a name
TEXT = r'"(?:\\.|[^"\\])*"'
ASIDE = {".rt": TEXT + r"|'(?:\\[^'\n]+|[^'\\\n])'|//[^\n]*|/\*.*?\*/",
         ".antt": TEXT + r'|(?<![^\s(){}.;,@"«»])--[^\n]*|\{-.*?-\}'}
# In antt: a name, where a path begins, and one into a crate, with the names that a `use` line takes or its other name
NAME = r'(?:[^\s(){}.;,@"«»]+|«[^»]*»)'
BEGIN = r'(?<![^\s(){};,@"«»])(?:package\.)?'
PATH = rf"(\buse\s+)?{BEGIN}Rattle\.(\w+)((?:\.{NAME})*)(?:\.\{{([^}}]*)\}}|\s+as\s+({NAME}))?"

# A citation by `crate`: where it stands, what it cites of which crate, and whether that is there for others
Citation = namedtuple("Citation", "crate place cited path allowed")


def layer_of(crate):
    """The number of its layer, None if its name has none. A crate with src/main.rt is a program, whatever its name."""
    if (ROOT / "crates" / crate / "src" / "main.rt").exists():
        return PROGRAM
    return next((layer for layer, names in enumerate(LAYERS) if re.fullmatch(names, crate)), None)


def listed():
    """(crate, the crates that it uses) of each line of crates.txt, the kit's libraries left out."""
    for line in (ROOT / "crates.txt").read_text(encoding="utf-8").splitlines():
        crate, _, used = line.split("#")[0].partition(":")
        if crate.strip():
            yield crate.strip(), [name for name in used.split() if name not in KIT]


def reached(crates, crate):
    """All that a crate uses, through others as well."""
    seen, todo = set(), [crate]
    while todo:
        new = set(crates.get(todo.pop(), [])) - seen
        seen |= new
        todo += new
    return seen


@cache
def folders():
    return {path.name for path in ROOT.glob("crates/*") if path.is_dir()}


# A file's text without comments and quoted texts, line for line; `use a::{b, c};` stands as two
@cache
def code_of(path):
    code = re.sub(ASIDE[path.suffix], lambda m: "\n" * m[0].count("\n"), path.read_text(encoding="utf-8"), flags=re.S)
    return re.sub(r"\b((?:pub\s+)?use\s+(?:\w+::)+)\{([^{}]*)\}", lambda m: "; ".join(
        m[1] + name.strip() for name in m[2].split(",") if name.strip()) + "\n" * m[2].count("\n"), code)


# (path of the module, code) of each source of a crate
def sources(crate):
    folder = ROOT / "crates" / crate / "src"
    for path in folder.glob("**/*.rt"):
        module = path.relative_to(folder).with_suffix("").parts
        yield module[:-1] if module[-1] in ("lib", "main", "mod") else module, code_of(path)


@cache
def functions(crate):
    """The paths of a crate's public functions, a method's behind its type."""
    return {(*module, *of, name) for module, code in sources(crate)
            for name in re.findall(r"\bpub\s+(?:\w+\s+)*fn\s+(\w+)", code)
            for of in [(), *((kind,) for kind in re.findall(r"\bimpl\s+(\w+)", code))]}


@cache
def items(crate):
    """The paths of a crate's public items, with those that it passes on."""
    item = r"\bpub\s+(?:(?:const|unsafe|extern)\s+)*(?:fn|struct|enum|trait|const)\s+(\w+)"
    passed = r"\bpub\s+use\s[^;]*?(\w+)\s*;"
    return {(*module, name) for module, code in sources(crate)
            for name in re.findall(item, code) + re.findall(passed, code)}


# Whether a path of antt, cut into names, leads to a definition, a law or a contract
def is_for_others(crate, path):
    if path[:1] == ["proofs"] and len(path) > 1:
        contracts = [tuple(path[1:i]) for i, name in enumerate(path) if name in ("Reads", "Statement")]
        law = path[1] == "Laws" and len(path) <= 3  # a name of the list, no module that it passes on
        return law or crate.endswith("_laws") or any(f in functions(crate) for f in contracts)
    return path[:1] == ["specs"]


# The names in the braces of a `use` line, as they are there or as they are brought in
def names_in(braces, brought=False):
    return [name.split()[-1 if brought else 0] for name in braces.split(",") if name.strip()]


# (place, crate, path, whether it is allowed) of each path of antt, and of those through a module that `use` names
def antt_paths(code):
    for m in re.finditer(PATH, code):
        use, crate, path, names, other = m.groups()
        path = path.split(".")[1:]
        ends = [(m.start(), name) for name in names_in(names)] if names else [(m.start(), "")]
        if use and names is None and path:
            through = BEGIN + re.escape(other or path[-1]) + rf"((?:\.{NAME})+)"
            ends += [(n.start(), n[1][1:]) for n in re.finditer(through, code)]
        for start, end in ends:
            whole = [*path, *filter(None, end.split("."))]
            yield start, crate, ".".join([f"Rattle.{crate}", *whole]), is_for_others(crate, whole)


# The same of Rust's paths. One that begins with what the source declares or brings in begins with no crate. A function's
# `tactic` attribute names definitions and laws as Rust does
def rust_paths(code):
    own = {"crate", "self", "super", *re.findall(r"\b(?:mod|struct|enum|trait)\s+(\w+)", code),
           *re.findall(r"\buse\s+\w+::[^;]*?(\w+)\s*;", code)}
    for m in re.finditer(r"((?<!ghost )\buse\s+)?(?<![\w:.])(?:::)?(\w+)((?:::\w+)*)", code):
        path = tuple(m[3].split("::")[1:])
        if m[2] not in own and (m[1] or path and m[2] in folders()):
            allowed = any(path[:i] in items(m[2]) for i in range(1, len(path) + 1))
            if path[:1] in (("specs",), ("proofs",)):
                allowed = is_for_others(m[2], [*path])
            yield m.start(2), m[2], m[2] + m[3], allowed


@cache
def citations():
    """Every citation of another crate; the kit's libraries are left out."""
    found = []
    for path in sorted([*ROOT.glob("crates/*/src/**/*.rt"), *ROOT.glob("crates/*/specs/**/*.antt"),
                        *ROOT.glob("crates/*/proofs/**/*.antt")]):
        file, code = path.relative_to(ROOT), code_of(path)
        paths = {*antt_paths(code), *(rust_paths(code) if path.suffix == ".rt" else [])}
        for start, cited, whole, allowed in sorted(paths):
            if cited not in KIT | {file.parts[1]}:
                place = f"{file}:{code.count(chr(10), 0, start) + 1}"
                found.append(Citation(file.parts[1], place, cited, whole, allowed))
    return found


# ---- what may be wrong

def not_for_others():
    return [f"{c.place}: {c.path}: neither a definition, a law, a contract nor a public item"
            for c in citations() if not c.allowed and c.cited in folders()]


def proofs_in_specs():
    """Definitions that rest on a proof of their own crate, and so would pass it on."""
    return [f"{path.relative_to(ROOT)}: cites a proof" for path in sorted(ROOT.glob("crates/*/specs/**/*.antt"))
            if f"Rattle.{path.relative_to(ROOT).parts[1]}.proofs." in code_of(path)]


def of_layers(crates):
    """Crates without a layer, and uses of a layer above or of a program, by crates.txt and by citations."""
    for crate in sorted(crates.keys() | folders()):
        program = (ROOT / "crates" / crate / "src" / "main.rt").exists()
        if layer_of(crate) is None:
            yield f"{crate}: the name is of no layer"
        elif crate in folders() and program != (layer_of(crate) == PROGRAM):
            has = "has" if program else "has no"
            yield f"{crate}: {has} src/main.rt, and its name is that of {TITLES[layer_of(crate)]}"
    uses = {(c.crate, c.cited): f"{c.place}: {c.crate} cites" for c in reversed(citations())}
    uses |= {(crate, used): f"crates.txt: {crate} lists" for crate in crates for used in crates[crate]}
    for (crate, used), text in sorted(uses.items()):
        own, other = layer_of(crate), layer_of(used)
        if None not in (own, other) and (other > own or other == PROGRAM):
            yield f"{text} {used}: {TITLES[other]}, and {crate} is {TITLES[own]}"


def of_list(crates):
    """crates.txt against the folders, the citations and the order of the layers."""
    names = [crate for crate, _ in listed()]
    yield from (f"crates.txt: {crate} is listed twice" for crate in sorted(crates) if names.count(crate) > 1)
    yield from (f"crates/{crate}: not listed in crates.txt" for crate in sorted(folders() - crates.keys()))
    yield from (f"crates.txt: {crate} has no folder" for crate in sorted(crates.keys() - folders()))
    yield from (f"crates.txt: {crate} lists {used}, which has no line" for crate in crates for used in crates[crate]
                if used not in crates)
    circle = [crate for crate in crates if crate in reached(crates, crate)]
    if circle:
        yield f"crates.txt: a cycle through {', '.join(circle)}"
    for (crate, cited), place in sorted({(c.crate, c.cited): c.place for c in reversed(citations())}.items()):
        if cited not in folders():
            yield f"{place}: {crate} cites {cited}, which is no crate"
        elif cited not in crates.get(crate, [cited]):
            yield f"{place}: {crate} cites {cited}, which crates.txt does not list for it"
    ranked = [(min(layer_of(crate), TERMINAL), crate) for crate in names if layer_of(crate) is not None]
    for i, (rank, crate) in enumerate(ranked):
        below = [other for lower, other in ranked[i:] if lower < rank]
        if below:
            yield f"crates.txt: {crate} stands above {', '.join(below)} of a lower layer"


# The names that a file of antt declares for others, without the fields of records
def declared(code):
    code = re.sub(r"(?m)^( *)((?:pub )?record\b.*\n)(?:\1 .*\n|\n)*", r"\1\2", code)
    head = r"(?m)^ *(?:(?:unfoldable|abbrev) )*pub (?!(?:use|mod) )(?:(?:data|record|ruleset) )?"
    passed = ",".join(re.findall(r"\bpub use [^{\n]*\{([^}]*)\}", code))
    return {*re.findall(head + f"({NAME})", code), *names_in(passed, brought=True)}


def unused(crates):
    """What is listed and not cited, and laws that no other crate cites."""
    pairs, paths = {(c.crate, c.cited) for c in citations()}, {c.path for c in citations()}
    yield from (f"crates.txt: {crate} lists {used} and does not cite it" for crate in crates for used in crates[crate]
                if (crate, used) not in pairs)
    for laws in sorted(ROOT.glob("crates/*/proofs/Laws.antt")):
        file, names = laws.relative_to(ROOT), declared(code_of(laws))
        idle = sorted(name for name in names if f"Rattle.{file.parts[1]}.proofs.Laws.{name}" not in paths)
        if len(idle) == len(names):
            yield f"{file}: no other crate cites it"
        elif idle:
            yield f"{file}: no other crate cites {', '.join(idle)}"


def main():
    crates = dict(listed())
    wrong = [*of_list(crates), *of_layers(crates), *proofs_in_specs(), *not_for_others()]
    wrong += unused(crates) if "--unused" in sys.argv[1:] else []
    if wrong:
        print("\n".join(wrong))
        sys.exit(1)
    layers = {layer_of(crate) for crate in crates} - {TERMINAL, PROGRAM}
    print(f"{len(crates)} crates in {len(layers)} layers, {len(citations())} citations between crates: "
          "all of definitions, laws, contracts and public items")


if __name__ == "__main__":
    main()
