#!/usr/bin/env python3
"""Works on one crate over the libraries that `rt ci` proved on this machine. `rt check` would build
its own instead.

Run it in the crate's folder, after `rt ci` has proved the crates below from the same sources:

    tools/over_gate.py libraries              puts the libraries of crates below into crates/*/out,
                                              where the kit keeps them
    tools/over_gate.py check [--only=FUNCTION ..] [--test] [--allow-holes]
    tools/over_gate.py edits [NAME.edit ..]   tries those of must-fail/, or these of either folder
    tools/over_gate.py build                  makes the library for the crates above, after a check
    tools/over_gate.py tests                  builds and runs the tests, after a check with --test
    tools/over_gate.py plant [rt plant's flags]
    tools/over_gate.py stamps                 lets `rt run` and `rt test` use these libraries, after
                                              `libraries`

OVER_GATE_JOBS=N lets a check use N processors instead of one.

Its result is no verdict; only `rt ci` gives one. It depends on the inside of rattle-kit-13f.
"""
import importlib.machinery
import importlib.util
import os
import subprocess
import sys
import time

BIN = os.path.dirname(os.path.realpath("/usr/local/bin/rt"))
KEPT = "out/over_gate"


def load(name):
    loader = importlib.machinery.SourceFileLoader(name.replace("-", "_"), f"{BIN}/{name}")
    module = importlib.util.module_from_spec(importlib.util.spec_from_loader(loader.name, loader))
    loader.exec_module(module)
    return module


def crate_here(rtlib):
    rtlib.guarded()
    rtlib.Crate.cuts_libraries = True
    top = os.path.dirname(os.path.dirname(os.getcwd()))
    return next(it for it in rtlib.crates_below(top) if it.folder == os.getcwd())


def run(rtlib, crate, verb, flags):
    words = crate.words(["--jobs", os.environ.get("OVER_GATE_JOBS", "1"), *flags])
    words += ["--incremental", KEPT]
    words += ["-o", crate.rlib] if verb == "build" else ["--progress"]
    os.makedirs(KEPT, exist_ok=True)
    os.makedirs(os.path.dirname(crate.rlib), exist_ok=True)
    return subprocess.run([*rtlib.guarded(), rtlib.RATTLE, verb, *words], stdin=subprocess.DEVNULL).returncode


def edits(rt, crate, names):
    folders = ["must-fail", "more-must-fail"]
    names = names or sorted(it for it in os.listdir("must-fail") if it.endswith(".edit"))
    failed = 0
    for name in names:
        edit = next(f"{os.getcwd()}/{it}/{name}" for it in folders if os.path.isfile(f"{it}/{name}"))
        begun = time.monotonic()
        kind, text = rt.must_fail(crate, edit, ["--jobs", "1"], f"{os.getcwd()}/{KEPT}")
        print(f"{time.monotonic() - begun:.0f} s: {text}", flush=True)
        failed += not kind if isinstance(kind, bool) else kind not in (rt.REFUSED, rt.AT_LIMIT)
    return 1 if failed else 0


def tests(rt, rtlib, crate):
    built = f"out/{crate.name}_tests"
    words = crate.words(["--jobs", "1", "--test"])
    words += ["--incremental", KEPT, "--toolchain", f"{rt.KIT}/toolchain", "--backend", "llvm", "-o", f"{built}.o"]
    status = subprocess.run([*rtlib.guarded(), rtlib.RATTLE, "build", *words], stdin=subprocess.DEVNULL).returncode
    status = status or crate.link(f"{built}.o", built)
    return status or subprocess.run([rtlib.RUNNER, "--seconds", "60", os.path.abspath(built)]).returncode


def libraries(rt, crate):
    if not hasattr(rt, "Kept"):
        print("this kit keeps no libraries: cp -al crates/NAME/out/rlib from the copy in which rt ci runs")
        return 1
    there = [it.name for it in crate.below() if os.path.isdir(it.rlib)]
    if there:
        # They may be links to kept files. If `rt` links them again, it takes them for damaged and
        # drops what it kept.
        print(f"some are in out/ already; first remove crates/NAME/out of: {' '.join(there)}", file=sys.stderr)
        return 1
    kept, lacking = rt.Kept(crate.below()), []
    for it in crate.below():
        if kept.give(it, False, kept.key(it)):
            kept.is_built(it)
        elif it.is_built():
            kept.is_built(it)
        else:
            lacking.append(it.name)
    print(f"not kept: {' '.join(lacking)}" if lacking else "all libraries below are in out/", flush=True)
    return 1 if lacking else 0


def stamps():
    # A stamp depends on how libraries are cut, and `rt` cuts them otherwise. So this loads rtlib
    # alone, without `rt`.
    import rtlib

    rtlib.guarded()
    top = os.path.dirname(os.path.dirname(os.getcwd()))
    for it in next(it for it in rtlib.crates_below(top) if it.folder == os.getcwd()).below():
        with open(f"{it.folder}/out/rlib/stamp", "w") as file:
            file.write(it.stamp())
    return 0


def main(verb="", *flags):
    if verb not in ("libraries", "check", "build", "edits", "tests", "plant", "stamps"):
        print(__doc__, end="", file=sys.stderr)
        return 2
    sys.path.insert(0, BIN)
    if verb == "stamps":
        return stamps()
    if verb == "plant":
        plant = load("rt-plant")
        plant.rt.Crate.is_built = lambda crate: os.path.isdir(crate.rlib)
        return plant.main(*flags)
    rt = load("rt")
    import rtlib

    crate = crate_here(rtlib)
    if verb == "libraries":
        return libraries(rt, crate)
    if verb == "tests":
        rtlib.Crate, rt.Crate.cuts_libraries, rt.Crate.allowed = rt.Crate, True, ()
        top = os.path.dirname(os.path.dirname(os.getcwd()))
        crate = next(it for it in rtlib.crates_below(top) if it.folder == os.getcwd())
        crate.out = sys.stdout
        return tests(rt, rtlib, crate)
    return edits(rt, crate, flags) if verb == "edits" else run(rtlib, crate, verb, flags)


if __name__ == "__main__":
    sys.exit(main(*sys.argv[1:]))
