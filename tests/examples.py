"""Checks README's examples and docs/EXAMPLE.md against the library.

    python3 tests/examples.py

Each example of README becomes a crate of a copy of the repository, the second one with the line of crates.txt and
the proofs that docs/EXAMPLE.md gives; then `rt check` proves them. Prints what rt says of each, and ends with status 1
where one is not proved. It takes some minutes, since the copy is proved from nothing but what crates/*/out has.
"""

import re
import shutil
import subprocess
import sys
import tempfile
from pathlib import Path

ROOT = Path(__file__).resolve().parent.parent
README = (ROOT / "README.md").read_text(encoding="utf-8")
PAGE = (ROOT / "docs" / "EXAMPLE.md").read_text(encoding="utf-8")
# In README's order: the crate, and what it lists beside `terminal`; the whole program's line stands on the page
CRATES = {
    "example_byte": "refusals text receiver_state receiver_byte_call",
    "my_terminal": None,
    "example_writer": "refusals text_calendar_spec text",
    "example_services": "refusals text receiver_state",
}


def write(path, text):
    path.parent.mkdir(parents=True, exist_ok=True)
    path.write_text(text, encoding="utf-8")


# The examples as crates of the repository at `root`
def add(root):
    lines = []
    examples = re.findall(r"```rust\n(.*?)```", README, re.S)
    assert len(examples) == len(CRATES), f"README has {len(examples)} examples"
    for (name, listed), code in zip(CRATES.items(), examples):
        whole = code if listed is None else f"#![tactic(auto)]\n\n{code}\nfn main() {{}}\n"
        write(root / "crates" / name / "src" / "main.rt", whole)
        lines.append(f"{name}: terminal {listed}" if listed else re.search(rf"`({name}: [^`]*)`", PAGE)[1])
    assert f"`{lines[1]}`" in README, f"README has another line for {lines[1]}"
    for path, text in re.findall(r"## `(\S+)`\n\n```\n(.*?)```", PAGE, re.S):
        write(root / path, text)
    with (root / "crates.txt").open("a", encoding="utf-8") as file:
        file.write("\n".join(lines) + "\n")


def main():
    with tempfile.TemporaryDirectory() as folder:
        copy = Path(folder, "copy")
        shutil.copytree(ROOT, copy, ignore=shutil.ignore_patterns(".git"), symlinks=True)
        add(copy)
        status = 0
        for name in CRATES:
            run = subprocess.run(["rt", "check"], cwd=copy / "crates" / name, capture_output=True, text=True)
            proved = run.returncode == 0 and re.search(r"(?m)^logic=proved", run.stdout)
            print(f"{name}: proved" if proved else "\n".join((run.stdout + run.stderr).splitlines()[-40:]))
            status = status or int(not proved)
        sys.exit(status)


main()
