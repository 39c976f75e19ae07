#!/usr/bin/env python3
"""Runs scenarios (sessions with their answers) once for each allocation, with that one refused.

    tools/scenarios_refused.py PROGRAM PATH..

PROGRAM is a built pimtree. A PATH is a scenario or a folder of them, whose `.case` files are left
out. A run without refusals counts the allocations. Of more than MOST, only each k-th is refused,
with the least k for which MOST are enough; the line of the scenario says how many.

A run is right if all answers are those of the scenario. If one is `fault memory`, the session runs
again with that command given twice (a `from` with its text). Then the first of the two is answered
`fault memory`, and all others as the scenario says. A run is also right if it ends before its
first answer with status 2 and `pimtree: memory`. The status is 1 if a run is wrong, if a scenario
allocates nothing, or if there is none.
"""
import io
import os
import subprocess
import sys
import tempfile
from dataclasses import dataclass, replace
from itertools import zip_longest
from pathlib import Path

MOST = 500
SECONDS = 60
AT_START = (2, b"", b"pimtree: memory\n")
REFUSED = b"fault memory\n"


@dataclass
class Step:
    """A command: its line in the file, its lines (a text up to `send`), and its answer."""

    line: int
    command: bytes
    answer: bytes = b""


def steps_of(text):
    """The commands of a scenario."""
    steps, in_text = [], False
    for number, line in enumerate(text.split(b"\n"), 1):
        if in_text:
            steps[-1].command += line + b"\n"
            in_text = line != b"send"
        elif line.startswith(b"#="):
            steps[-1].answer += line[2:].removeprefix(b" ") + b"\n"
        elif line and not line.startswith(b"#"):
            steps.append(Step(number, line + b"\n"))
            in_text = line.split(b" ")[0] == b"from"
    return steps


def answers_of(output):
    """The answers of a session, each up to its line `ok` or `fault ..`."""
    answers, is_complete = [], True
    for line in io.BytesIO(output):
        if is_complete:
            answers.append(b"")
        answers[-1] += line
        is_complete = line == b"ok\n" or line.startswith(b"fault ")
    return answers


class Runs:
    """The runs of a program, with files in a folder of their own."""

    def __init__(self, program, folder):
        self.program = os.path.abspath(program)
        self.count = os.path.join(folder, "count")
        self.library = os.path.join(folder, "refuse.so")
        source = Path(__file__).with_name("refuse_memory.c")
        subprocess.run(["cc", "-O1", "-shared", "-fPIC", "-o", self.library, source], check=True)

    def run(self, steps, number):
        """Status, output and errors where this allocation is refused; none is number 0."""
        places = {"ALLOCATIONS": self.count, "LD_PRELOAD": self.library}
        with tempfile.TemporaryFile() as given:
            given.write(b"".join(step.command for step in steps))
            given.seek(0)
            try:
                ended = subprocess.run(
                    [self.program, "session"], stdin=given, capture_output=True,
                    timeout=SECONDS, env={**os.environ, **places, "REFUSED": str(number)})
            except subprocess.TimeoutExpired as late:
                return f"more than {SECONDS} s", late.stdout or b"", late.stderr or b""
        return ended.returncode, ended.stdout, ended.stderr

    def allocations(self):
        """The number of allocations of the last run."""
        return int(Path(self.count).read_text())


def difference(steps, ended):
    """The first difference between what was expected and how a run ended, otherwise None."""
    status, output, errors = ended
    if ended == (0, b"".join(step.answer for step in steps), b""):
        return None
    for step, answer in zip_longest(steps, answers_of(output)):
        if step is None:
            return f"one answer too many: {answer[-200:]}"
        if step.answer != answer:
            command = step.command.split(b"\n")[0][:80]
            return (f"line {step.line}, {command}: expected {step.answer[-200:]}, "
                    f"got {(answer or b'')[-200:]}; status {status}, errors {errors[-200:]}")
    return f"status {status}, errors {errors[-200:]}"


def check_refused(runs, steps, number):
    """What the refusal of an allocation led to, and what is wrong with that, otherwise None."""
    ended = runs.run(steps, number)
    if ended == AT_START:
        return "at the start", None
    answers = answers_of(ended[1])
    if REFUSED not in answers:
        return "without a fault", difference(steps, ended)
    place = answers.index(REFUSED)
    again = steps[:place] + [replace(step, answer=REFUSED) for step in steps[place : place + 1]]
    again += steps[place:]
    return "fault memory", difference(again, runs.run(again, number))


def check_scenario(runs, path):
    """Runs a scenario with each allocation refused. Returns whether all runs were right."""
    steps = steps_of(path.read_bytes())
    wrong = difference(steps, runs.run(steps, 0))
    if wrong is not None:
        print(f"{path}: wrong with memory: {wrong}", flush=True)
        return False
    allocations = runs.allocations()
    stride = max(1, -(-allocations // MOST))
    results, faults = {}, []
    for number in range(1, allocations + 1, stride):
        result, wrong = check_refused(runs, steps, number)
        results[result] = results.get(result, 0) + 1
        if wrong is not None:
            faults.append(f"  allocation {number} refused: {wrong}")
    tally = ", ".join(f"{count} {result}" for result, count in sorted(results.items()))
    print(f"{path}: {sum(results.values())} of {allocations} allocations refused: {tally}")
    print("".join(fault + "\n" for fault in faults), end="", flush=True)
    return allocations > 0 and not faults


def main(program, *names):
    files = []
    for path in map(Path, names):
        inside = sorted(path.rglob("*")) if path.is_dir() else [path]
        files += [file for file in inside if not file.is_dir() and file.suffix != ".case"]
    with tempfile.TemporaryDirectory() as folder:
        runs = Runs(program, folder)
        right = [check_scenario(runs, file) for file in files]
    print(f"{len(files)} scenarios, {right.count(False)} wrong")
    return 0 if files and all(right) else 1


if __name__ == "__main__":
    if len(sys.argv) < 3:
        sys.exit(__doc__)
    sys.exit(main(*sys.argv[1:]))
