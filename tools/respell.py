#!/usr/bin/env python3
"""Spells the repository's own definitions and lemmas as today's Rattle does.

Run once, at the top of the checkout, right after /opt/rattle/port/port.py:

    python3 tools/respell.py

It turns specs/, proofs/, the contracts in src/, the must-fail edits (which port.py leaves alone) and the names in
backticks on the pages. With --clashes it only prints the names that would fall together in a file; APART gives those
another spelling.

Words are in snake case, types and facts in camel case. Functions, types, variants and fields of src/,
strings, inputs and outputs keep their names; so do constants in capitals (LPAD, BEGUN), as std's do.
"""
import collections
import glob
import os
import re
import sys

# names that would fall together with another one of the same file, and what stands for them
APART = {
    "bool-byte": "bool_byte_lem",
    "by-text": "by_text_lem",
    "by_code": "by_code_lem",
    "cut-blocks": "cut_blocks_lem",
    "data-block-length": "data_block_length_lem",
    "last-answers": "last_answers_lem",
    "each-list": "each_list_lem",
    "first-due": "first_due_lem",
    "grid-length": "grid_length_lem",
    "grid-of": "grid_of_lem",
    "is-minute": "is_minute_lem",
    "is-moment": "is_moment_lem",
    "next-due": "next_due_lem",
    "next-minute": "next_minute_lem",
    "no-echo": "no_echo_lem",
    "on-grid": "on_grid_lem",
    "one-altered": "one_altered_lem",
    "payload-of": "payload_of_lem",
    "push-seen": "push_seen_lem",
    "start-digits": "start_digits_lem",
    "text-length": "text_length_lem",
    "text-lengths": "text_lengths_lem",
    "time-written": "time_written_lem",
    "mode-bits": "mode_bits_lem",
    "status-bits": "status_bits_lem",
    "clock-low": "clock_low_lem",
    "not-due": "not_due_lem",
    "begun-header": "begun_header_lem",
    "complete-tells": "complete_tells_lem",
    "cut-part": "cut_part_lem",
    "even-level": "even_level_lem",
    "grids-arrived": "grids_arrived_lem",
    "held-payload": "held_payload_lem",
    "is-part-number": "is_part_number_lem",
    "is-payload": "is_payload_lem",
    "no-picture": "no_picture_lem",
    "nothing-else": "nothing_else_lem",
    "odd-level": "odd_level_lem",
    "open_blocks": "open_blocks_lem",
    "part-answered": "part_answered_lem",
    "part-answers": "part_answers_lem",
    "part_length": "part_length_lem",
    "plain-mode": "plain_mode_lem",
    "plain-start": "plain_start_lem",
    "plain-status": "plain_status_lem",
    "plain_end": "plain_end_lem",
    "reads-back": "reads_back_lem",
    "thirds-lent": "thirds_lent_lem",
    "way_back": "way_back_lem",
    "whole-blocks": "whole_blocks_lem",
    "wrong-length": "wrong_length_lem",
    "wrong-third": "wrong_third_lem",
    "any_order": "any_order_lem",
    "hasNoLevel15": "has_no_level_15",
    "startRules": "rules_of_start",
    "endRules": "rules_of_end",
    "Failed": "failed",
    "NotDue": "not_due",
    "IsDueEnd": "is_due_end",
}

# words of std and of Rattle that look as ours would, and stay
KEEP = set()

TOKEN = re.compile(r"[^\s(){}\[\];,.:\"`]+")
DEF = re.compile(r"^(?:(?:abbrev|unfoldable|pub|ruleset)\s+)*([^\s(){};,:.λ]+)\s*(?:[({].*)?:(?:\s|$)")
CAMEL = re.compile(r"^[a-z][a-z0-9_]*[A-Z]")


def antt_files(root):
    found = []
    for part in ("specs", "proofs"):
        found += glob.glob(f"{root}/crates/*/{part}/**/*.antt", recursive=True)
    return sorted(found)


def declared_in(path):
    """(name, whether it is a member of a record) for each name that a file declares."""
    block = False
    for line in open(path):
        line = line.rstrip("\n")
        if not line.strip() or line.lstrip().startswith("--") or line.startswith(("use ", "pub use ")):
            continue
        head = re.match(r"^(?:pub\s+|abbrev\s+)*(?:data|record)\s+(\S+)", line)
        if head:
            block = True
            yield head.group(1), False
        elif line[0] != " ":
            block = False
            found = DEF.match(line)
            if found:
                yield found.group(1), False
        else:
            found = re.match(r"^\s+(?:(?:abbrev|unfoldable|pub)\s+)*([^\s(){};,:.λ]+(?:\s+[^\s(){};,:.λ]+)*)\s*:(?:\s|$)", line)
            if found and (block or "-" in found.group(1) or found.group(1) in APART):
                for name in found.group(1).split():
                    yield name, block


def respelled(name):
    if name in APART:
        return APART[name]
    if name in KEEP or name == "-":
        return name
    if name[0].isupper() and "-" not in name:
        return name
    words = name.replace("-", "_")
    if name[0].isupper():
        return "".join(w[:1].upper() + w[1:] for w in words.split("_"))
    # FD, FE, FF, 1E stay together as one word
    words = re.sub(r"(?<=[a-z0-9])(?=[A-Z])", "_", words)
    words = re.sub(r"(?<=[A-Z])(?=[A-Z][a-z])", "_", words)
    return re.sub(r"__+", "_", words).lower() if "ℕ" not in words else words


def std_names(root):
    names = set()
    for path in antt_files(root) + glob.glob(f"{root}/crates/*/src/**/*.rt", recursive=True):
        for line in open(path):
            found = re.match(r"^(?:ghost |pub )*use (Rattle\.std|mathlib|lib|native|Prim|borrow|denote|semantics)\S*\.\{(.*)\}", line)
            if found:
                names |= {n.strip() for n in found.group(2).split(",")}
    return names


def mapping(root):
    declared, members = set(), set()
    for path in antt_files(root):
        for name, member in declared_in(path):
            declared.add(name)
            if member:
                members.add(name)
    kept = std_names(root)
    table = {}
    for name in declared:
        if name in kept and name not in APART:
            continue
        new = respelled(name)
        if new != name:
            table[name] = new
    return table, kept, members


def turned(text, names, code=True):
    table, kept, members = names

    def one(found):
        token = found.group(0)
        # a step or a goal that Rattle names, or a function of src/
        if found.start() > 0 and text[found.start() - 1] == "." and token not in members and not CAMEL.match(token):
            return token
        if token in APART and "_" in token and not code:
            return token
        if token in table:
            return table[token]
        if CAMEL.match(token) and "-" not in token and "·" not in token and token not in kept:
            return respelled(token)
        return token
    return TOKEN.sub(one, text)


def turn_antt(text, names):
    lines = []
    for line in text.split("\n"):
        if line.lstrip().startswith("--"):
            line = re.sub(r"`[^`]*`", lambda m: turned(m.group(0), names), line)
            line = re.sub(r"[A-Za-z]+", lambda m: names[0].get(m.group(0), m.group(0)) if CAMEL.match(m.group(0)) else m.group(0), line)
            lines.append(line)
        else:
            code, dash, comment = line.partition(" -- ")
            lines.append(turned(code, names) + dash + comment)
    return "\n".join(lines)


def turn_rt(text, names):
    lines = []
    ghost = False
    depth = 0
    for line in text.split("\n"):
        word = line.strip()
        if not ghost and re.match(r"(ghost use|requires|ensures|ghost )\b", word):
            ghost, depth = True, 0
        if ghost:
            lines.append(turned(line, names, code=False))
            depth += line.count("{") - line.count("}")
            if depth <= 0:
                ghost = False
        elif word.startswith("//"):
            lines.append(re.sub(r"[A-Za-z]+", lambda m: names[0].get(m.group(0), m.group(0)) if CAMEL.match(m.group(0)) else m.group(0), line))
        else:
            lines.append(line)
    return "\n".join(lines)


# a word of the older logic in a must-fail edit, and today's, as port.py turns them in the sources
OPERATOR = re.compile(r"(?<![^\s({,])_(≡|≢|&&|\|\||\+\+|∷|\+|\*|-|/|%|<|≤|!|∈|>|≥|×|↔)_(?![^\s)},])")
FROM_STD = {
    "bitXor": "bit_xor", "bitAnd": "bit_and", "bitOr": "bit_or", "getD": "get_or", "vec-len": "vec_len",
}


def turn_words(text):
    text = OPERATOR.sub(r"◌\1◌", text)
    text = re.sub(r"(?<=[\w'₀-₉)\]]) \.(?=[a-z])", ".", text)
    text = re.sub(r"\(([A-Za-z_][\w'₀-₉]*(?:\.[a-zA-Z_0-9]+)+)\)", r"\1", text)
    text = re.sub(r"\bnow \((\w+) \.?entry\)", r"\1.now", text)
    text = re.sub(r"\(now (\w+)\.entry\)", r"\1.now", text)
    for old, new in FROM_STD.items():
        text = re.sub(rf"(?<![\w-]){re.escape(old)}(?![\w-])", new, text)
    return text


def turn_edit(text, names):
    lines = []
    source = ""
    for line in text.split("\n"):
        found = re.match(r"(old|new): (.*)$", line, re.S)
        if found and source.endswith(".antt"):
            line = f"{found.group(1)}: {turned(turn_words(found.group(2)), names)}"
        elif found and re.match(r"\s*(ghost|requires|ensures)\b", found.group(2)):
            line = f"{found.group(1)}: {turned(turn_words(found.group(2)), names, code=False)}"
        elif line.startswith("file: "):
            source = line[6:].strip()
        lines.append(line)
    return "\n".join(lines)


def turn_page(text, names):
    """Names in backticks, outside fenced blocks too."""
    return re.sub(r"`[^`\n]+`", lambda m: turned(m.group(0), names, code=False), text)


def clashes(root, names):
    """Files where two names would become one."""
    found = collections.defaultdict(set)
    for path in antt_files(root):
        seen = collections.defaultdict(set)
        for line in open(path):
            if line.lstrip().startswith("--"):
                continue
            for token in TOKEN.findall(line.partition(" -- ")[0]):
                seen[turned(token, names)].add(token)
        for new, olds in seen.items():
            if len(olds) > 1:
                found[tuple(sorted(olds))].add(os.path.relpath(path, root))
    return found


def write(path, text, new):
    if new != text:
        with open(path, "w") as file:
            file.write(new)


def main():
    root = "."
    names = mapping(root)
    if "--clashes" in sys.argv:
        for olds, paths in sorted(clashes(root, names).items()):
            print(olds, len(paths), sorted(paths)[:3])
        return
    for path in antt_files(root):
        text = open(path).read()
        write(path, text, turn_antt(text, names))
    for path in sorted(glob.glob(f"{root}/crates/*/src/**/*.rt", recursive=True)):
        text = open(path).read()
        write(path, text, turn_rt(text, names))
    for path in sorted(glob.glob(f"{root}/crates/*/must-fail/*.edit")):
        text = open(path).read()
        write(path, text, turn_edit(text, names))
    for path in ["README.md", *sorted(glob.glob("docs/**/*.md", recursive=True))]:
        text = open(path).read()
        write(path, text, turn_page(text, names))


if __name__ == "__main__":
    main()
