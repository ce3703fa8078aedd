"""Counts in src/ the places that docs/DESIGN-PASS.md speaks of, by what the text shows.

    python3 tests/places.py [--list] [COMMIT]

Without COMMIT the work tree is counted. --list prints each place. What text cannot tell (two functions that mean the
same in other words, a parameter pair that belongs together) is counted by reading, on that page.
"""
import collections
import re
import subprocess
import sys


def sources(commit):
    if commit:
        names = subprocess.run(["git", "ls-tree", "-r", "--name-only", commit], capture_output=True, text=True, check=True)
        for name in names.stdout.split("\n"):
            if re.fullmatch(r"crates/\w+/src/.*\.rt", name):
                yield name, subprocess.run(["git", "show", f"{commit}:{name}"], capture_output=True, text=True, check=True).stdout
    else:
        names = subprocess.run(["git", "ls-files", "crates/*/src/*.rt"], capture_output=True, text=True, check=True)
        for name in names.stdout.split():
            yield name, open(name, encoding="utf8").read()


def without_comments(text):
    return re.sub(r"//[^\n]*", "", text)


def by_line(files, pattern):
    """Lines that the pattern is found in."""
    found = []
    for name, text in files:
        for number, line in enumerate(without_comments(text).split("\n"), 1):
            if re.search(pattern, line):
                found.append(f"{name}:{number}: {line.strip()}")
    return found


def enums(files):
    """Own enums of two cases, one of them a refusal or nothing."""
    found = []
    for name, text in files:
        for it in re.finditer(r"enum (\w+)(?:<[^>]*>)? \{(.*?)\n *\}", without_comments(text), re.S):
            cases = [line.strip(" ,") for line in it.group(2).split("\n") if line.strip()]
            if len(cases) == 2 and any(re.match(r"Refused|Invalid|None|Missing|Err|Nothing", case) for case in cases):
                found.append(f"{name}: {it.group(1)}")
    return found


def flags(files):
    """Structs with a flag. A header's NO ECHO is a value of its own, and says nothing of the other fields."""
    found = []
    for name, text in files:
        for it in re.finditer(r"struct (\w+)(?:<[^>]*>)? \{(.*?)\n *\}", without_comments(text), re.S):
            if re.search(r"\b(?!noecho\b)\w+: bool", it.group(2)):
                found.append(f"{name}: {it.group(1)}")
    return found


def functions(files):
    """Each function with its name, its head (parameters and contract) and its body."""
    for name, text in files:
        lines = without_comments(text).split("\n")
        at = 0
        while at < len(lines):
            start = re.match(r"( *)(?:pub(?:\(crate\))? )?fn (\w+)", lines[at])
            if start:
                indent, head = start.group(1), at
                while at < len(lines) and not re.search(r"\{$", lines[at]) and lines[at] != indent + "{":
                    at += 1
                body = at + 1
                while at < len(lines) and lines[at] != indent + "}":
                    at += 1
                yield name, start.group(2), "\n".join(lines[head:body]), "\n".join(lines[body:at])
            at += 1


def twins(files):
    """Functions whose bodies are the same but for names and numbers, of two lines or more: all but the first of each kind."""
    groups = collections.defaultdict(list)
    for name, fn, _, body in functions(files):
        if body.count("\n") < 1:
            continue
        names = {}
        shape = re.sub(r"\b(?!(?:let|mut|if|else|match|return|for|in|while|loop|fn|as|true|false|Ok|Err|Some|None)\b)[A-Za-z_]\w*\b", lambda m: names.setdefault(m.group(0), f"v{len(names)}"), body)
        shape = re.sub(r'b?"(?:[^"\\]|\\.)*"|\b0x[0-9A-Fa-f_]+|\b\d[\d_]*\w*', "N", shape)
        groups[re.sub(r"\s+", " ", shape)].append(f"{name}: {fn}")
    return [it for group in groups.values() if len(group) > 1 for it in group[1:]]


def repeated_facts(files):
    """Facts that the contracts of three functions or more of one crate require."""
    groups = collections.defaultdict(list)
    for name, fn, head, _ in functions(files):
        crate = name.split("/")[1]
        for facts in re.findall(r"requires (?:\w+ )?\{ (.*?) \}\n", head + "\n"):
            for fact in re.sub(r"\.(now|old)\b", "", facts).split(" × "):
                fact = re.sub(r"\bs\.frame\.place\b|\bf\.place\b", "i", fact).strip("() ")
                groups[crate, fact].append(f"{name}: {fn} requires {fact}")
    return [it for group in groups.values() if len(group) > 2 for it in group]


def tables(files):
    """Matches on a number with four calls or more."""
    found = []
    for name, text in files:
        for it in re.finditer(r"match ([\w.]+) \{\n(.*?)\n    \}", without_comments(text), re.S):
            arms = re.findall(r"^ +(?:\d+|\d+ ?\| ?\d+|\d+\.\.=\d+|_) => \w[\w:]*\(", it.group(2), re.M)
            if len(arms) > 3:
                found.append(f"{name}: match {it.group(1)}, {len(arms)} calls")
    return found


def main():
    words = sys.argv[1:]
    lists = "--list" in words
    words = [it for it in words if it != "--list"]
    files = list(sources(words[0] if words else None))
    points = [
        ("1 own enums of the shape of Option or Result", enums(files)),
        ("1 a flag beside a value", flags(files)),
        ("1 rows and refusals as numbers", by_line(files, r"(Refused|Dropped)\((u8|\d+|number|n)\)|Refused\(row\),|drops\(s, \d+\)|refused\(state, \d\)|\brow: u8|\breturn 1[4-7];|answer [=!]= \d|answer > 10")),
        ("1 parts, kinds, texts and modes as numbers, in parameters and fields", by_line(files, r"\b(part|kind|text|due|mode): u8")),
        ("1 a number that stands for nothing", by_line(files, r"\b(NO_DIGIT|REFUSED)\b.*;$|^\s+_ => 0,$|^\s+0$|^\s+return 0;")),
        ("2 functions alike but for names and numbers", twins(files)),
        ("3 loops that count an index by hand", by_line(files, r"^\s*(while (?!let\b|!\w+\.is_empty)|loop \{)")),
        ("3 loops over what is left of a slice", by_line(files, r"^\s*while (let\b|!\w+\.is_empty)")),
        ("4 a field copied by its name", by_line(files, r"^\s*let (\w+) = \w+\.\1;|^\s*(\w+): \w+\.\2,$")),
        ("4 minimum, maximum, a sum that stays at its end, by hand", by_line(files, r"^(pub(\(crate\))? )?fn (larger|higher|least|more|one_more|within|at_most_or_0|five_back)\(")),
        ("5 facts that three contracts or more of a crate require", repeated_facts(files)),
        ("7 a match on a number with four calls or more", tables(files)),
    ]
    for title, found in points:
        print(f"{len(found):4} {title}")
        if lists:
            for it in found:
                print(f"       {it}")


main()
