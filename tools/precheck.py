#!/usr/bin/env python3
"""Finds in a few minutes, without any proof, much of what `rt ci` refuses after an hour.

    tools/precheck.sh [BASE]

It checks
- that each crate has the layout of `rt fmt`,
- that each must-fail edit fits its file,
- that the modules of definitions and proofs exist that `use` lines name,
- that each bench compiles,
- if a reader of captures differs from BASE, that random captures are read as a slow reader reads them,
- that documents keep their length, and that the files which they name exist,
- that each JSON line that a case expects is an object with the members of docs/TRACE.md or docs/AUDIT.md,
- the tests of each crate that differs from the commit BASE (HEAD unless given), and of the test crates that name it.

What is wrong is printed as it is found. The last line says how it ended; the status is 0 or 1.
It depends on the inside of rattle-kit-13f.
"""
import concurrent.futures
import glob
import io
import json
import os
import re
import shutil
import subprocess
import sys
import tempfile
import time

sys.path.insert(0, os.path.dirname(os.path.realpath("/usr/local/bin/rt")))
import rtlib

TOP = os.path.dirname(os.path.dirname(os.path.abspath(__file__)))

# The most words of each document.
WORDS = {
    "README.md": 1000,
    "CONTRIBUTING.md": 600,
    "docs/ARCHITECTURE.md": 1500,
    "docs/AUDIT.md": 700,
    "docs/CAPTURES.md": 750,
    "docs/CONTRACTS.md": 3000,
    "docs/DEFINITIONS.md": 1500,
    "docs/HEADLINE.md": 1500,
    "docs/MANUAL.md": 1500,
    "docs/PROFILE.md": 1500,
    "docs/PROVING.md": 3000,
    "docs/PYTHON.md": 700,
    "docs/SESSION.md": 1000,
    "docs/SPEED.md": 750,
    "docs/TRACE.md": 1000,
    "docs/WALKTHROUGH.md": 900,
}
# The members of the JSON lines of a trace and of an audit, by their event (docs/TRACE.md, docs/AUDIT.md): first those of all
# events, then those of each, and last those within a member.
OF_ALL = ["ms", "epoch", "port", "event"]
OF_TRACE = {
    "hello": ["frame", "from", "verdict", "was", "generation"],
    "packet": ["frame", "from", "verdict", "for", "joined", "pruned"],
    "transition": ["frame", "from", "by", "what", "group", "source", "was", "now", "et", "ppt", "neighbours", "overrides"],
    "ignored": ["frame", "from", "group", "names", "rp"],
    "restarted": ["frame", "was", "generation"],
    "skipped": ["frame", "why"],
    "timed-out": ["neighbour", "cause"],
    "fired": ["timer", "what", "group", "source", "was", "now", "echo", "cause"],
    "record": ["what", "group", "source", "state", "for", "et", "ppt", "cause"],
    "want": ["what", "group", "source", "via"],
    "end": ["records", "neighbours", "skipped"],
}
OF_AUDIT = {
    "late": ["since", "by", "what", "group", "source"],
    "sent": ["frame", "from", "after", "by", "what", "group", "source"],
    "dropped": ["after", "by", "what", "group", "source"],
    "upstream": ["frame", "from", "verdict"],
    "restarted": ["frame", "was", "generation"],
    "full": ["frame", "from", "needed"],
    "end": ["due", "late", "worst", "open"],
}
MEMBERS = {"trace": OF_TRACE, "audit": OF_AUDIT}
WITHIN = {
    "timed-out": ("cause", ["frame", "ms"]),
    "fired": ("cause", ["frame", "from", "ms"]),
    "record": ("cause", ["frame", "from", "ms"]),
    "end": ("skipped", ["cut", "not-ip", "bad-header", "not-pim", "fragment", "family"]),
}
USED = re.compile(r"\buse Rattle\.(\w+)\.(specs|proofs)\.([\w.]+?)(?:\.\{| as |;|$)", re.MULTILINE)
NAMED = re.compile(r"(?<![\w./~@-])(?:[\w.*-]+/)+[\w.*-]*")
FOLDERS = ("benches/", "crates/", "docs/", "examples/", "tools/")


def layout(crate):
    """The name of the crate, where a file of it hasn't the layout of `rt fmt`."""
    folder = f"{TOP}/crates/{crate}"
    with tempfile.TemporaryFile("w") as said:
        bad = rtlib.fmt(folder, "--check", said, diff=subprocess.DEVNULL)
    return [f"{crate}: run rt fmt in crates/{crate}"] if bad else []


def edits():
    """The must-fail edits that don't fit their file."""
    ran = subprocess.run([f"{TOP}/tools/edits_fit.py"], capture_output=True, text=True)
    return ran.stdout.splitlines()[:-1] if ran.returncode else []


def missing_modules(crate):
    """The `use` lines of a crate that name a module of our crates that isn't there."""
    wrong = []
    for path in glob.glob(f"{TOP}/crates/{crate}/*/**/*.*t", recursive=True):
        if "/out/" in path or not path.endswith((".rt", ".antt")):
            continue
        with open(path, encoding="utf-8") as file:
            named = USED.findall(file.read())
        files = [f"{TOP}/crates/{owner}/{kind}/{module.replace('.', '/')}" for owner, kind, module in named
                 if owner in crates() and not module.startswith(("declared.", "contracts."))
                 and not module.endswith((".Goals", ".Given"))]
        wrong += [f"{os.path.relpath(path, TOP)}: no {os.path.relpath(it, TOP)}.antt" for it in files
                  if not any(map(os.path.exists, (f"{it}.antt", f"{it}/Lib.antt", f"{os.path.dirname(it)}.antt")))]
    return wrong


def is_there(path):
    """Whether a path of a document is a file or folder, from the top or from crates/; what is built is passed over."""
    if path.startswith("out/") or "/out/" in path:
        return True
    return any(glob.glob(f"{TOP}/{start}{path}") for start in ("", "crates/"))


def document(name):
    """What is wrong with a document: it is missing or too long, or names a file that isn't there."""
    if not os.path.exists(f"{TOP}/{name}"):
        return [f"{name}: there is no such document"]
    with open(f"{TOP}/{name}") as file:
        text = file.read()
    count = len(text.split())
    wrong = [f"{name}: {count} words, at most {WORDS[name]}"] if count > WORDS[name] else []
    spans = re.findall(r"`([^`\n]+)`", text)
    paths = [it for it in spans if NAMED.fullmatch(it) and ("." in it or it.endswith("/"))]
    paths += [it for it in NAMED.findall(text) if it.startswith(FOLDERS)]
    return wrong + [f"{name}: no {it}" for it in sorted(set(paths)) if not is_there(it.rstrip("."))]


def without_files(names):
    """The names of members but `file` after `frame`, and `overrides_file` after `overrides`. Where a port has several files,
    its records have them."""
    return [it for before, it in zip([None, *names], names)
            if (before, it) not in (("frame", "file"), ("overrides", "overrides_file"))]


def has_members(line, command):
    """Whether a line is a JSON object with the members of its event, each once and in this order."""
    try:
        pairs = json.loads(line, object_pairs_hook=list)
    except ValueError:
        return False
    values = dict(pairs)
    event = values.get("event")
    name, names = WITHIN.get(event, ("event", None)) if command == "trace" else ("event", None)
    within = names is None or without_files([it for it, _ in values.get(name) or []]) == names
    return within and without_files([it for it, _ in pairs]) == OF_ALL + MEMBERS.get(command, {}).get(event, [])


def json_lines():
    """The lines of cases that begin as objects, and aren't ones as the document of their command has them."""
    wrong = []
    for path in sorted(glob.glob(f"{TOP}/crates/pimtree_cases/data/cases/*.case")):
        command = None
        with open(path) as file:
            for number, line in enumerate(file, 1):
                if line.startswith("words "):
                    command = line.split()[1]
                if line.startswith("= {") and not has_members(line[2:], command):
                    wrong.append(f"{os.path.relpath(path, TOP)} line {number}: no object of {command} as documents have it")
    return wrong


def benches(folder):
    """The errors of the benches, which are compiled as the modules of one program beside a copy of the crates."""
    skip = shutil.ignore_patterns("out", "must-fail", "more-must-fail")
    shutil.copytree(f"{TOP}/crates", f"{folder}/crates", ignore=skip)
    program = f"{folder}/crates/benches/src"
    os.makedirs(program)
    names, libraries = [], {}
    for path in sorted(glob.glob(f"{TOP}/benches/*/libraries")):
        names.append(os.path.basename(os.path.dirname(path)))
        with open(path) as file, open(f"{os.path.dirname(path)}/main.rt.in") as bench:
            libraries.update(dict.fromkeys(file.read().split()))
            text = bench.read().replace("#![tactic(auto)]", "").replace("\nfn main(", "\npub fn main(")
        with open(f"{program}/bench_{names[-1]}.rt", "w") as module:
            module.write(text)
    with open(f"{program}/main.rt", "w") as file:
        calls = "".join(f"    bench_{it}::main(rt)?;\n" for it in names)
        file.write("#![tactic(auto)]\n" + "".join(f"mod bench_{it};\n" for it in names))
        file.write(f"fn main(rt: HostRuntime) -> std::io::Result<()> {{\n{calls}    Ok(())\n}}\n")
    with open(f"{TOP}/crates.txt") as given, open(f"{folder}/crates.txt", "w") as lines:
        lines.write(f"{given.read()}benches: {' '.join(libraries)}\n")
    crate = next(it for it in rtlib.crates_below(folder) if it.name == "benches")
    crate.out = io.StringIO()
    return crate.out.getvalue().splitlines() if crate.front_end() else []


def changed_crates(base):
    """The crates with a file that differs from this commit, or that it hasn't."""
    how = {"cwd": TOP, "capture_output": True, "text": True, "check": True}
    names = subprocess.run(["git", "diff", "--name-only", base], **how).stdout.split()
    names += subprocess.run(["git", "ls-files", "--others", "--exclude-standard"], **how).stdout.split()
    return {it.split("/")[1] for it in names if re.match(r"crates/\w+/src/", it)}


def crates():
    """The libraries of each crate of crates.txt, by its name."""
    with open(f"{TOP}/crates.txt") as file:
        rows = [it.split(":") for it in file if ":" in it and not it.startswith("#")]
    return {name.split()[0]: deps.split() for name, deps in rows}


def tested_crates(base):
    """The crates whose tests see the change: those with tests that changed or that name one that did."""
    changed = changed_crates(base)
    sees = lambda name, deps: name in changed or (name.endswith("_tests") and changed & set(deps))
    return [name for name, deps in crates().items() if sees(name, deps) and has_tests(name)]


def has_tests(crate):
    """Whether the crate has a test."""
    files = glob.glob(f"{TOP}/crates/{crate}/src/**/*.rt", recursive=True)
    return any("#[test]" in open(it).read() for it in files)


def tests(crate):
    """The failed tests of a crate, or why they didn't run."""
    ran = subprocess.run(["rt", "try", "--test", "--seconds", "240"], cwd=f"{TOP}/crates/{crate}", capture_output=True, text=True)
    lines = (ran.stdout + ran.stderr).splitlines()
    bad = [it for it in lines if "FAILED" in it or "error" in it] or lines[-3:]
    return [f"{crate}: {it}" for it in bad] if ran.returncode else []


def captures(folder, base):
    """The first random capture that the reader reads otherwise than tools/random_captures.py."""
    if not changed_crates(base) & {"pim_capture", "pim_container"}:
        return []
    program = f"{folder}/container"
    for words in (["sh", "tools/quick_build.sh", "container", program], [sys.executable, "tools/random_captures.py", program]):
        ran = subprocess.run(words, cwd=TOP, capture_output=True, text=True)
        if ran.returncode:
            return [f"{words[1]}: {it}" for it in (ran.stdout + ran.stderr).splitlines()[-3:]]
    return []


def main():
    if len(sys.argv) > 2 or sys.argv[1:2] in (["-h"], ["--help"]):
        sys.exit(__doc__)
    begun = time.monotonic()
    guard = rtlib.guarded()  # sets signal handlers, which only the main thread may
    rtlib.guarded = lambda: guard
    base = sys.argv[1] if len(sys.argv) > 1 else "HEAD"
    wrong = 0
    with tempfile.TemporaryDirectory() as folder, concurrent.futures.ThreadPoolExecutor(os.cpu_count()) as pool:
        parts = [pool.submit(tests, it) for it in tested_crates(base)]
        parts += [pool.submit(benches, folder), pool.submit(captures, folder, base)]
        parts += [pool.submit(check, it) for it in crates() for check in (layout, missing_modules)]
        parts += [pool.submit(edits), pool.submit(json_lines)]
        parts += [pool.submit(document, it) for it in WORDS]
        for part in concurrent.futures.as_completed(parts):
            for line in part.result():
                print(line, flush=True)
                wrong += 1
    print(f"precheck: {'FAILED, ' + str(wrong) + ' faults' if wrong else 'passed'}, {time.monotonic() - begun:.0f} s")
    sys.exit(1 if wrong else 0)


if __name__ == "__main__":
    main()
