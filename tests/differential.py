#!/usr/bin/env python3
"""Compares the proved programs with a second model of 01, on hostile traffic.

    python3 tests/differential.py [--seconds 60] [--seed 1] [--length 200000]
                                  [--bin FOLDER] [--programs listen,try_traffic]

The model, in C under tests/second/, was written from 01 and the requests alone.  It is built
into a temporary folder with $CC (else cc).  For seed, seed + 1, ... until the
time is up a stream is made, and many short ones are cut from it (0 to 300
bytes, at any place); another is made of parts that some receivers are to take
and others not (Request 101).  With each stream go numbers that receivers are
made from: a few marks or many, none, all, or marks beyond the twentieth.  At
last come parts with altered bytes, at most one in each text and none altered to
FD (Request 113), with whole parts between them and with parts outside the
request's limits: two altered bytes in one text that make another undamaged part,
and one altered to FD where an undamaged part then ends.  They stand one behind
the other in a stream.  On each stream the complete outputs are compared:

    listen          from a file, and through a pipe in pieces   second answers
    try_byte_call   from a file                                 second totals
    try_traffic     from a file                                 second traffic
    resend          from a file                                 second resend
    decode          from a file, without arguments and with     second traffic with these marks,
                    random picture codes as arguments           laid out by decode.py
    try_bytes_left  from a file                                 second left
    try_marks       the numbers and the stream, from a file     second marks

Each altered part is besides given alone to `listen`, and some to try_byte_call,
try_traffic and try_marks: whatever the model says, no complete may be among the
lines.  In the stream, complete must come exactly at the last bytes of the other
parts, as their generator counts them.

The model is held against itself too.  For all twenty marks and for each number,
its answers 3 must stand exactly where an undamaged part of a marked picture
ends by the papers' definition, read without a receiver (`second parts`), and
its answers 51 exactly where a listed code that is unmarked follows an opening.
Of some hundreds more altered parts a seed, each alone, its receivers with several
marks call none complete (`second try-altered`).  01's samples must come out right,
bytes left count down to each text's end, and marks and altered parts do what was
worked out by hand (`second samples`).

The first difference ends the run with status 1; it is printed with program,
seed and place, and the stream is kept in a file that is named.  Otherwise the
status is 0 and the figures of the run are printed.

The fixed corpus of a program, kept beside its source, is made by

    second generate SEED LENGTH > crates/try_traffic/stdin
    second traffic < crates/try_traffic/stdin > crates/try_traffic/stdout

(and the same with `resend` for crates/resend, `left` for crates/try_bytes_left, and
`generate-marks` and `marks` for crates/try_marks), or in one step by

    python3 tests/differential.py --corpus SEED LENGTH crates/try_traffic

where the folder's name, try_traffic, resend, try_bytes_left or try_marks, chooses the program.
"""

import argparse
import itertools
import os
import random
import re
import subprocess
import sys
import tempfile
import threading
import time
from collections import Counter, namedtuple
from functools import partial
from pathlib import Path
from types import SimpleNamespace

sys.dont_write_bytecode = True
HERE = Path(__file__).resolve().parent
sys.path.insert(0, str(HERE))
import decode

MODEL_OF = {"listen": "answers", "try_byte_call": "totals", "try_traffic": "traffic", "resend": "resend",
            "decode": "traffic", "try_bytes_left": "left", "try_marks": "marks"}
# The programs that --corpus serves, and what makes their inputs
CORPORA = {"try_traffic": "generate", "resend": "generate", "try_bytes_left": "generate", "try_marks": "generate-marks"}
KIND_NAMES = {1: "intensity", 2: "echo top", 3: "quality"}
RUN_TIMEOUT = 120  # seconds for one run of a program: far above what any needs
SHORT_STREAMS = 12  # of each seed, cut from its long ones
MOST_PIECES = 400  # of a stream sent through a pipe
MOST_INPUT = 65_536  # bytes that try_marks reads
ALTERED_PARTS = 16  # of each seed, each given alone
ALTERED_TRIES = 400  # of each seed, more of them, on the model alone
PICTURES = bytes.fromhex("C0C1C2C4C5C8C9CCD2D3D4D5D8DCE0E1E4E5F0F1")  # in 01's order, that of the marks
ALL_MARKS = (1 << len(PICTURES)) - 1
WHOLE, ALTERED, TWICE, TO_FD = range(4)  # a record's sort, as in tests/second/altered_traffic.h
Record = namedtuple("Record", "sort alterations part")
# The lines in which a program says that a part is complete
COMPLETE_LINES = {"listen": rb"\d+ 3", "try_byte_call": rb"3 \d+", "try_traffic": rb"(byte|slice) \d+ 3",
                  "try_marks": rb"(byte|slice) \d+ 3"}
CODE_BEHIND_OPENING = re.compile(rb"\x16\x16\x16\x10\x02\xFD(?=(.))", re.DOTALL)  # it may begin an opening itself


class Difference(Exception):
    """Two outputs that should be equal are not."""


def fail(message):
    """An error of the run itself, told apart from a difference by its status."""
    print(f"differential: {message}", file=sys.stderr)
    sys.exit(2)


def arguments():
    """The command line; see the docstring of this file."""
    parser = argparse.ArgumentParser(description=__doc__.splitlines()[0])
    parser.add_argument("--seconds", type=float, default=60, help="go on for so long")
    parser.add_argument("--seed", type=int, default=1, help="the first seed")
    parser.add_argument("--length", type=int, default=200000, help="about so many bytes a stream")
    parser.add_argument("--bin", type=Path, metavar="FOLDER", help="where the programs lie, if not in crates/NAME/out")
    parser.add_argument("--programs", default=",".join(MODEL_OF), metavar="NAMES", help="which to compare")
    parser.add_argument("--corpus", nargs=3, metavar=("SEED", "LENGTH", "FOLDER"))
    return parser.parse_args()


def build_model(folder):
    """Compiles the model; warnings show, and none is expected."""
    sources = sorted(str(path) for path in (HERE / "second").glob("*.c"))
    if not sources:
        fail(f"no C files in {HERE / 'second'}")
    model = folder / "second"
    command = os.environ.get("CC", "cc").split() + ["-O2", "-Wall", "-Wextra", "-std=c11"]
    if subprocess.run(command + sources + ["-o", str(model)]).returncode != 0:
        fail("the model does not build")
    return model


def run(command, stdin_path=os.devnull):
    """The complete output of a program that reads a file; any failure ends the run."""
    with open(stdin_path, "rb") as stdin:
        try:
            done = subprocess.run([str(word) for word in command], stdin=stdin,
                                  stdout=subprocess.PIPE, timeout=RUN_TIMEOUT)
        except subprocess.TimeoutExpired:
            raise Difference(f"{command[0]} has not ended after {RUN_TIMEOUT} seconds") from None
    if done.returncode != 0:
        raise Difference(f"{command[0]} ends with status {done.returncode}")
    return done.stdout


def run_model(command, stdin_path=os.devnull):
    """The same for the model, whose failing is no difference but an error of the run."""
    try:
        return run(command, stdin_path)
    except Difference as failure:
        fail(str(failure))


def pieces(chooser, stream):
    """Cuts a stream for a pipe: a bounded number of pieces, many of 1 to 7 bytes."""
    cuts = set()
    clusters = chooser.randint(0, 40)
    for _ in range(clusters):
        at = chooser.randint(0, len(stream))
        for _ in range(chooser.randint(1, (MOST_PIECES - 1) // 40)):
            cuts.add(min(at, len(stream)))
            at += chooser.randint(1, 7) if chooser.random() < 0.8 else chooser.randint(8, 5000)
    edges = [0] + sorted(cuts) + [len(stream)]
    return [stream[low:high] for low, high in zip(edges, edges[1:]) if low < high]


def feed(process, parts):
    """Writes pieces one by one; a program that stops reading shows in its output."""
    try:
        for part in parts:
            process.stdin.write(part)
            if len(part) < 8:
                time.sleep(0)  # lets the reader see the piece alone now and then
        process.stdin.close()
    except (BrokenPipeError, ValueError):
        pass


def run_piped(program, parts, folder):
    """The complete output of a program fed through a pipe."""
    with open(folder / "piped", "w+b") as output:
        process = subprocess.Popen([str(program)], stdin=subprocess.PIPE, stdout=output, bufsize=0)
        feeder = threading.Thread(target=feed, args=(process, parts), daemon=True)
        feeder.start()
        try:
            status = process.wait(timeout=RUN_TIMEOUT)
        except subprocess.TimeoutExpired:
            raise Difference(f"{program} has not ended after {RUN_TIMEOUT} seconds, piped") from None
        finally:
            process.kill()  # without effect on one that has ended
            process.wait()
            feeder.join()
        if status != 0:
            raise Difference(f"{program} ends with status {status}, piped")
        output.seek(0)
        return output.read()


def shown(line):
    """A line in an error message, shortened: a grid's line may be very long."""
    text = line.decode("ascii", "replace")
    return text if len(text) <= 160 else text[:160] + f" ... ({len(text)} characters)"


def first_line_apart(left, right):
    """Number and text of the first line in which two text outputs differ."""
    one, two = left.split(b"\n"), right.split(b"\n")
    longest = max(len(one), len(two))
    pairs = zip(one + [b"(end)"] * (longest - len(one)), two + [b"(end)"] * (longest - len(two)))
    for number, (this, that) in enumerate(pairs, 1):
        if this != that:
            return f"line {number}", shown(this), shown(that)


def first_byte_apart(left, right):
    """Number (from 1) and value of the first byte in which two outputs differ."""
    number = len(os.path.commonprefix([left, right]))
    this, that = (f"{out[number]:02X}" if number < len(out) else "(end)" for out in (left, right))
    return f"byte {number + 1}", this, that


def compare(name, left, right, who=("proved", "model")):
    """Raises Difference unless both outputs are equal to the last byte."""
    if left != right:
        apart = first_byte_apart if name == "resend" else first_line_apart
        place, this, that = apart(left, right)
        raise Difference(f"{name}, {place}:\n    {who[0]}: {this}\n    {who[1]}: {that}")


def held_part(held, grid):
    """The part that the model says is held, as decode.py wants it: its number, and header, modes and grid."""
    part, picture, clock, noecho, mode, minute, *places = map(int, held.split()[1:])
    header = SimpleNamespace(picture=picture, clock=clock, noecho=noecho, mode=mode,
                             minute=minute, radars=places[:8])
    runs = (map(int, run.split("x")) for run in grid.split()[1:])
    return part, SimpleNamespace(header=header, modes=places[8:], grid=b"".join(bytes([b]) * n for n, b in runs))


def decoded(traffic, size, marked):
    """What `decode` must print of so many bytes with these pictures marked, by the model's lines of traffic."""
    lines, out, found = iter(traffic.decode().split("\n")), [*decode.heading(marked)], Counter()
    for call, read, answer in (line.split() for line in lines if line.startswith("byte ")):
        found[int(answer)] += 1
        if answer == "3":
            out += decode.block(found[3], int(read), *held_part(next(lines), next(lines)))
    return "".join(line + "\n" for line in [*out, *decode.totals(found, size)]).encode()


def marks_of(number):
    """The marks of a receiver made from this number."""
    return number if number <= ALL_MARKS else 0


def some_number(chooser):
    """What a receiver is made from: few marks or many, one, none or all, and some beyond the twentieth."""
    marks = sum(1 << i for i in chooser.sample(range(20), chooser.randint(0, 20)))
    beyond = 1 << chooser.randint(20, 31)
    edges = (0, ALL_MARKS, 1 << chooser.randrange(20), beyond, beyond | marks, chooser.getrandbits(32))
    return chooser.choice(edges) if chooser.random() < 0.4 else marks


def some_numbers(chooser):
    return [some_number(chooser) for _ in range(chooser.randint(1, 4))]


def with_numbers(numbers, stream):
    """The input of try_marks, with as much of the stream as it reads."""
    head = bytes([len(numbers)]) + b"".join(number.to_bytes(4, "big") for number in numbers)
    return head + stream[:MOST_INPUT - len(head)]


def without_numbers(data):
    """The numbers and the stream of such an input."""
    head = 1 + 4 * data[0]
    return [int.from_bytes(data[at:at + 4], "big") for at in range(1, head, 4)], data[head:]


def some_codes(chooser):
    """Arguments of decode: picture codes in any order and case, one twice now and then."""
    codes = chooser.choices(PICTURES, k=chooser.randint(1, 24))
    return [chooser.choice((f"{code:02X}", f"{code:02x}")) for code in codes]


def unmarked_behind_openings(stream, number):
    """The lines of answer 51, by definition: an opening always starts a text, whose code comes next."""
    marks = marks_of(number)
    unmarked = bytes(code for i, code in enumerate(PICTURES) if not marks >> i & 1)
    found = CODE_BEHIND_OPENING.finditer(stream)
    return b"".join(b"%d 51\n" % (match.end() + 1) for match in found if match[1] in unmarked)


def lines_of(answers, answer):
    """The listening lines with this answer."""
    return b"".join(line + b"\n" for line in answers.split(b"\n") if line.endswith(b" %d" % answer))


def records_of(data):
    """The records that `second generate-altered` writes."""
    records, at = [], 0
    while at < len(data):
        behind = at + 6 + int.from_bytes(data[at + 2:at + 6], "big")
        records.append(Record(data[at], data[at + 1], data[at + 6:behind]))
        at = behind
    return records


def ends_of_complete(records):
    """The listening lines of answer 3 to these one behind the other: every part but the altered ones is complete."""
    ends = itertools.accumulate(len(record.part) for record in records)
    return b"".join(b"%d 3\n" % end for record, end in zip(records, ends) if record.sort != ALTERED)


class Trial:
    """One run of this driver: where things are, and the figures so far."""

    def __init__(self, model, programs, folder):
        self.model = model
        self.programs = programs
        self.folder = folder
        self.stream_file = folder / "stream"
        self.marks_file = folder / "marks"
        self.streams = 0
        self.bytes = 0
        self.numbers = 0
        self.answers = Counter()
        self.answers_of_numbers = Counter()
        self.complete = Counter()
        self.alone = Counter()  # of the parts given alone to `listen`
        self.answers_alone = Counter()  # to the altered ones among these
        self.tried = Counter()  # of the model alone

    def check_model(self, stream, number):
        """Complete exactly where an undamaged part of a marked picture ends, and 51 exactly at unmarked codes."""
        answers = run_model([self.model, "answers", number], self.stream_file)
        parts = run_model([self.model, "parts", number], self.stream_file)
        compare(f"the model against itself, marks {number}", lines_of(answers, 3), parts,
                ("its receiver", "its definition of a part"))
        compare(f"the model against itself, marks {number}", lines_of(answers, 51),
                unmarked_behind_openings(stream, number), ("its receiver", "unmarked codes behind openings"))
        return Counter(int(line.split()[1]) for line in answers.splitlines())

    def count(self, stream):
        """Figures, from the model's lines; each answer stands there twice."""
        self.streams += 1
        self.bytes += len(stream)
        lines = iter(run_model([self.model, "traffic"], self.stream_file).split(b"\n"))
        for line in lines:
            if line.startswith(b"byte "):
                answer = int(line.split()[2])
                self.answers[answer] += 1
                if answer == 3:
                    held = next(lines).split()
                    self.complete[int(held[1]), int(held[4])] += 1

    def check_decode(self, program, size, words):
        """decode with these arguments; all twenty are marked where there is none."""
        marked = bytes(int(word, 16) for word in words) or PICTURES
        marks = sum(1 << i for i, code in enumerate(PICTURES) if code in marked)
        traffic = run_model([self.model, "traffic", marks], self.stream_file)
        compare(" ".join(["decode", *words]), run([program, *words], self.stream_file),
                decoded(traffic, size, marked))

    def check_program(self, name, program, stream, chooser):
        """One program on one stream."""
        if name == "decode":
            self.check_decode(program, len(stream), [])
            self.check_decode(program, len(stream), some_codes(chooser))
            return
        given = self.marks_file if name == "try_marks" else self.stream_file
        model = run_model([self.model, MODEL_OF[name]], given)
        compare(name, run([program], given), model)
        if name == "listen":
            piped = run_piped(program, pieces(chooser, stream), self.folder)
            compare("listen through a pipe", piped, model)

    def check(self, stream, numbers, chooser):
        """All comparisons on one stream."""
        self.stream_file.write_bytes(stream)
        self.marks_file.write_bytes(with_numbers(numbers, stream))
        self.check_model(stream, ALL_MARKS)
        for number in numbers:
            self.answers_of_numbers += self.check_model(stream, number)
        self.numbers += len(numbers)
        for name, program in self.programs.items():
            self.check_program(name, program, stream, chooser)
        self.count(stream)

    def check_alone(self, record, numbers, chooser):
        """An altered part, or one outside the limits, to fresh receivers: no complete, or one at its last byte."""
        self.stream_file.write_bytes(record.part)
        self.marks_file.write_bytes(with_numbers(numbers, record.part))
        complete = self.check_model(record.part, ALL_MARKS)[3]
        if complete != (0 if record.sort == ALTERED else 1):
            raise Difference(f"the model calls a part complete {complete} times, sort {record.sort}")
        for name, program in self.programs.items():
            if name != "listen" and (name not in COMPLETE_LINES or chooser.random() < 0.85):
                continue
            given = self.marks_file if name == "try_marks" else self.stream_file
            output = run([program], given)
            if record.sort == ALTERED:
                called = [line for line in output.split(b"\n") if re.fullmatch(COMPLETE_LINES[name], line)]
                if called:
                    raise Difference(f"{name} calls an altered part complete: {shown(called[0])}")
            compare(name, output, run_model([self.model, MODEL_OF[name]], given))
            if name == "listen":
                compare("listen, complete", lines_of(output, 3), ends_of_complete([record]), ("proved", "Request 113"))
                self.count_alone(record, output)

    def count_alone(self, record, answers):
        """Figures of what `listen` has said of one part."""
        of = "altered" if record.sort == ALTERED else "outside"
        self.alone[of, "parts"] += 1
        self.alone[of, "alterations"] += record.alterations
        self.alone[of, "complete"] += len(lines_of(answers, 3).splitlines())
        if record.sort == ALTERED:
            self.answers_alone.update(int(line.split()[1]) for line in answers.splitlines())

    def check_records(self, records, stream, numbers, chooser):
        """All comparisons on a stream of these records."""
        self.check(stream, numbers, chooser)
        answers = run_model([self.model, "answers"], self.stream_file)
        compare("the model against its generator", lines_of(answers, 3), ends_of_complete(records),
                ("its receiver", "the ends of parts that are not altered"))

    def try_model(self, seed):
        """More altered parts on the model alone; where one is complete it says so and fails."""
        for line in run_model([self.model, "try-altered", seed, ALTERED_TRIES]).decode().splitlines():
            *name, figure = line.split()
            self.tried[" ".join(name)] += int(figure)


def streams_of(model, seed, length, chooser):
    """Two long streams and short ones cut from them, each with numbers, its long stream's name and its place there."""
    stream = run_model([model, "generate", seed, chooser.randint(length // 2, length + length // 2)])
    yield stream, some_numbers(chooser), "generate", 0
    size = chooser.randint(0, min(length, MOST_INPUT - 256))
    numbers, bought = without_numbers(run_model([model, "generate-marks", seed, size]))
    yield bought, numbers, "generate-marks", 0
    for _ in range(SHORT_STREAMS):
        name, cut = chooser.choice((("generate", stream), ("generate-marks", bought)))
        at = chooser.randint(0, len(cut))
        yield cut[at:at + chooser.randint(0, 300)], some_numbers(chooser), name, at


def checks_of(trial, seed, length, chooser):
    """All checks of a seed, each a call; with its stream and numbers, and where the stream is from."""
    for stream, numbers, name, at in streams_of(trial.model, seed, length, chooser):
        where = f"bytes {at} to {at + len(stream)} of its stream of `{name}`"
        yield partial(trial.check, stream, numbers, chooser), stream, numbers, where
    records = records_of(run_model([trial.model, "generate-altered", seed, ALTERED_PARTS]))
    for i, record in enumerate(records):
        if record.sort != WHOLE:
            numbers = some_numbers(chooser)
            yield (partial(trial.check_alone, record, numbers, chooser), record.part, numbers,
                   f"record {i} of `generate-altered`, alone")
    stream, numbers = b"".join(record.part for record in records), some_numbers(chooser)
    yield (partial(trial.check_records, records, stream, numbers, chooser), stream, numbers,
           "all records of `generate-altered`")
    yield partial(trial.try_model, seed), b"", [], "`try-altered`"


def keep(stream, seed):
    """Keeps a stream that shows a difference, for a second look."""
    handle, name = tempfile.mkstemp(prefix=f"differential-seed{seed}-", suffix=".stream")
    with os.fdopen(handle, "wb") as file:
        file.write(stream)
    return name


def go_through(trial, options):
    """All seeds until the time is up; returns the last one and whether all agreed."""
    deadline = time.monotonic() + options.seconds
    for seed in itertools.count(options.seed):
        chooser = random.Random(seed)
        for check, stream, numbers, where in checks_of(trial, seed, options.length, chooser):
            try:
                check()
            except Difference as difference:
                print(f"DIFFERENCE at seed {seed}, {where},\n"
                      f"  with the numbers {numbers}\n"
                      f"  {difference}\n  the stream is kept in {keep(stream, seed)}")
                return seed, False
            if time.monotonic() >= deadline:
                return seed, True


def print_figures(trial, first, last, seconds):
    """What the run has seen, so that a run without events does not pass unnoticed."""
    answers, of_numbers = (", ".join(f"{answer}: {count:,}" for answer, count in sorted(counts.items()))
                           for counts in (trial.answers, trial.answers_of_numbers))
    kinds = ", ".join(f"{name} {trial.complete[part, 0]:,} and {trial.complete[part, 1]:,} with NO ECHO"
                      for part, name in KIND_NAMES.items())
    print(f"programs: {', '.join(trial.programs)}")
    print(f"seeds {first} to {last}, {trial.streams:,} streams, {trial.bytes:,} bytes, {seconds:.1f} seconds")
    print(f"answers: {answers}")
    print(f"answers with the marks of {trial.numbers:,} numbers: {of_numbers}")
    print(f"complete parts: {kinds}")
    print_altered(trial)


def print_altered(trial):
    """The same of Request 113."""
    altered, outside = ({name: trial.alone[of, name] for name in ("parts", "alterations", "complete")}
                       for of in ("altered", "outside"))
    answers = ", ".join(f"{answer}: {count:,}" for answer, count in sorted(trial.answers_alone.items()))
    tried = trial.tried
    print(f"altered parts alone: {altered['parts']:,} with {altered['alterations']:,} altered bytes, "
          f"{altered['complete']:,} complete; outside the limits {outside['parts']:,}, {outside['complete']:,} complete")
    print(f"answers to altered parts alone: {answers}")
    print(f"the model alone: {tried['parts']:,} altered parts with {tried['alterations']:,} altered bytes and "
          f"{tried['others']:,} others, {tried['runs']:,} receivers, {tried['wrong']:,} wrong")


def chosen_programs(options):
    """The proved programs to compare, each of which must be there."""
    programs = {}
    for name in options.programs.split(","):
        if name not in MODEL_OF:
            fail(f"no program {name}; there are {', '.join(MODEL_OF)}")
        programs[name] = (options.bin or HERE.parent / "crates" / name / "out").resolve() / name
        if not programs[name].is_file():
            fail(f"{programs[name]} is missing: `rt run` in its folder builds it")
    return programs


def write_corpus(model, seed, length, folder):
    """The fixed input of a program and the output that the model expects."""
    folder = Path(folder)
    if folder.name not in CORPORA or not folder.is_dir():
        fail(f"{folder} is not a folder with one of the names {', '.join(CORPORA)}")
    (folder / "stdin").write_bytes(run_model([model, CORPORA[folder.name], seed, length]))
    (folder / "stdout").write_bytes(run_model([model, MODEL_OF[folder.name]], folder / "stdin"))


def main():
    """Status 0: no difference; 1: a difference; 2: the run itself failed."""
    options = arguments()
    with tempfile.TemporaryDirectory(prefix="differential-") as name:
        folder = Path(name)
        if options.corpus:
            write_corpus(build_model(folder), *options.corpus)
            return 0
        programs = chosen_programs(options)
        model = build_model(folder)
        run_model([model, "samples"])
        trial = Trial(model, programs, folder)
        begun = time.monotonic()
        last, agreed = go_through(trial, options)
        print_figures(trial, options.seed, last, time.monotonic() - begun)
        if agreed:
            print("no difference")
        return 0 if agreed else 1


if __name__ == "__main__":
    sys.exit(main())
