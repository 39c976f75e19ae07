"""The Debian package that `tools/package.sh` makes, the manual page, and the completions."""
from __future__ import annotations

import functools
import os
import re
import shutil
import subprocess
import sys
import tempfile
import unittest
from pathlib import Path
from typing import Dict, List, Mapping, Set

import support

TOP = Path(support.TOP)
PAGE = TOP / "man" / "pimtree.1"
COMPLETIONS = TOP / "completions"
DOCUMENTS = "usr/share/doc/pimtree"
MODULES = "usr/lib/python3/dist-packages"
NONE: Mapping[str, str] = {}
YEAR_2100 = 4102444800
"""The start of this year, in seconds since 1970."""


def run(
    *words: str, folder: Path = TOP, status: int = 0, variables: Mapping[str, str] = NONE
) -> str:
    """What a command prints, its errors included. It must end with this status."""
    ran = subprocess.run(
        words,
        cwd=folder,
        env={**os.environ, **variables},
        stdin=subprocess.DEVNULL,
        stdout=subprocess.PIPE,
        stderr=subprocess.STDOUT,
        text=True,
    )
    if ran.returncode != status:
        raise AssertionError(f"status {ran.returncode} of {' '.join(words)}: {ran.stdout}")
    return ran.stdout


def offered(*words: str) -> Set[str]:
    """The options that help lists, of a command or of the program."""
    text = run(support.PROGRAM, *words, "--help")
    return set(re.findall(r"^ {2}(?:-\w,| {3}) --(\w+)", text, re.M))


@functools.lru_cache(maxsize=None)
def commands() -> Dict[str, Set[str]]:
    """The commands of the program, each with its options."""
    listed = run(support.PROGRAM, "--help").split("Commands:\n")[1].split("\n\n")[0]
    return {name: offered(name) for name in re.findall(r"^ {2}(\w+)", listed, re.M)}


def section(name: str) -> str:
    """A section of the manual page."""
    return PAGE.read_text(encoding="utf-8").split(f".Sh {name}\n")[1].split("\n.Sh ")[0]


class ManualPage(unittest.TestCase):
    def test_synopsis(self) -> None:
        found: Dict[str, Set[str]] = {}
        for entry in section("SYNOPSIS").split(".Nm\n"):
            names = re.match(r"\.Cm ([\w |]+)\n", entry)
            options = {"help", *re.findall(r"Fl \\-(\w+)", entry)}
            found.update((name, options) for name in (names[1].split(" | ") if names else []))
        self.assertEqual(found, commands())

    def test_options(self) -> None:
        found = re.findall(r"^\.It Fl (?:\w , )?\\-(\w+)", section("OPTIONS"), re.M)
        self.assertEqual(sorted(found), sorted(offered().union(*commands().values())))

    def test_commands(self) -> None:
        found = re.findall(r"^\.It Cm (\w+)$", section("COMMANDS"), re.M)
        self.assertEqual(found, list(commands()))

    @unittest.skipUnless(shutil.which("man"), "man isn't installed")
    def test_warnings(self) -> None:
        words = ["man", "--warnings", "-E", "UTF-8", "-l", "-Tutf8", "-Z", str(PAGE)]
        plain = {**os.environ, "LC_ALL": "C.UTF-8", "MANROFFSEQ": "", "MANWIDTH": "80"}
        ran = subprocess.run(words, env=plain, capture_output=True, text=True)
        self.assertEqual((ran.returncode, ran.stderr), (0, ""))


@unittest.skipUnless(shutil.which("bash"), "bash isn't installed")
class Bash(unittest.TestCase):
    SCRIPT = """
        source completions/pimtree.bash
        compopt() { :; }
        COMP_WORDS=("$@") COMP_CWORD=$(($# - 1))
        _pimtree pimtree "${@: -1}" "${@: -2:1}"
        for word in "${COMPREPLY[@]}"; do echo "$word"; done
    """

    def offers(self, *words: str) -> Set[str]:
        """What completes the last of these words. They are those that bash makes of a line."""
        shell = ["bash", "--norc", "--noprofile", "-c", self.SCRIPT, "bash", "pimtree"]
        return set(run(*shell, *words).splitlines())

    def test_options(self) -> None:
        names = commands()
        self.assertEqual(self.offers(""), {"--help", "--version", *names})
        for name, options in names.items():
            self.assertEqual(self.offers(name, "--"), {f"--{it}" for it in options}, name)
        for flag in ("--all", "--state"):
            self.assertEqual(self.offers("trace", flag, "--tim"), {"--time"})

    def test_values(self) -> None:
        self.assertEqual(self.offers("trace", "--time", ""), {"ms", "epoch", "utc"})
        self.assertEqual(self.offers("trace", "--time", "=", "u"), {"utc"})
        self.assertEqual(self.offers("replay", "--input", ""), {"classic", "any"})
        self.assertEqual(self.offers("trace", "--input", ""), {"any"})
        for words in (("trace", "--routes"), ("audit", "--local")):
            self.assertEqual(self.offers(*words, "exampl"), {"examples/"})
        self.assertEqual(self.offers("check", "<", "examples/join-s"), {"examples/join-star.pim"})
        self.assertEqual(self.offers("trace", "--rp", ""), set())

    def test_ports(self) -> None:
        # By default bash makes a word of @, and its text to complete begins there.
        name = ["trace", "lan", "=", "10.0.0.2", "@"]
        self.assertEqual(self.offers(*name, "@examples/lan.p"), {"@examples/lan.pcap"})
        self.assertEqual(self.offers("trace", "10.0.0.2@exampl"), {"10.0.0.2@examples/"})
        self.assertEqual(self.offers(*name, "a.pcap", "+examples/lan.p"), {"+examples/lan.pcap"})


@unittest.skipUnless(shutil.which("zsh"), "zsh isn't installed")
class Zsh(unittest.TestCase):
    SCRIPT = """
        _arguments() { print -rl -- "$@"; state=command }
        _describe() { print -rl -- $commands }
        source completions/_pimtree
        for name; do print @@; _pimtree_arguments $name; done
    """

    def test_arguments(self) -> None:
        """What zsh's own functions get, which complete by it."""
        names = commands()
        first, *rest = run("zsh", "-fc", self.SCRIPT, "zsh", *names).split("@@\n")
        self.assertEqual(re.findall(r"^(\w+):", first, re.M)[-len(names) :], list(names))
        found = [re.findall(r"^(?:\([^)]*\))?\*?--(\w+)", it, re.M) for it in (first, *rest)]
        self.assertEqual(sorted(found[0]), ["help", "version"])
        self.assertEqual([set(it) for it in found[1:]], list(names.values()))
        of = dict(zip(names, rest))
        self.assertIn(":(ms epoch utc)\n", of["trace"])
        self.assertIn(":(classic any)\n", of["replay"])
        self.assertIn("*:port:_pimtree_port\n", of["same"])


@unittest.skipUnless(shutil.which("fish"), "fish isn't installed")
class Fish(unittest.TestCase):
    SCRIPT = """
        source completions/pimtree.fish
        for line in $argv; echo @@; complete -C $line; end
    """

    def offers(self, *lines: str) -> List[Set[str]]:
        """What completes the last word of each line."""
        with tempfile.TemporaryDirectory() as home:
            text = run("fish", "--no-config", "-c", self.SCRIPT, *lines, variables={"HOME": home})
        return [{it.split("\t")[0] for it in part.splitlines()} for part in text.split("@@\n")[1:]]

    def test_options(self) -> None:
        names = commands()
        found = self.offers("pimtree ", "pimtree --", *(f"pimtree {name} --" for name in names))
        self.assertEqual(found[:2], [set(names), {"--help", "--version"}])
        self.assertEqual(found[2:], [{f"--{it}" for it in options} for options in names.values()])

    def test_values(self) -> None:
        found = self.offers("pimtree trace --time ", "pimtree same --input ", "pimtree emit --rp ")
        self.assertEqual(found, [{"ms", "epoch", "utc"}, {"classic", "any"}, set()])
        lines = ("pimtree trace --routes exampl", "pimtree audit --local exampl")
        self.assertEqual(self.offers(*lines), [{"examples/"}, {"examples/"}])

    def test_ports(self) -> None:
        found = self.offers("pimtree trace lan=::1@examples/lan.p", "pimtree trace x@y +exampl")
        self.assertEqual(found, [{"lan=::1@examples/lan.pcap"}, {"+examples/"}])


@unittest.skipUnless(shutil.which("dpkg-deb"), "dpkg-deb isn't installed")
class Package(unittest.TestCase):
    root: Path
    """Where the package is unpacked."""
    deb: Path
    program: str

    @classmethod
    def setUpClass(cls) -> None:
        room = tempfile.TemporaryDirectory()
        cls.addClassCleanup(room.cleanup)
        cls.root = Path(room.name, "root")
        cls.deb = cls.made(Path(room.name))
        run("dpkg-deb", "-x", str(cls.deb), str(cls.root))
        run("dpkg-deb", "-e", str(cls.deb), str(cls.root / "DEBIAN"))
        cls.program = str(cls.root / "usr/bin/pimtree")

    @staticmethod
    def made(folder: Path, *prefix: str) -> Path:
        """The package of the program under test, made in this folder by a command with a prefix."""
        words = [str(TOP / "tools/package.sh"), "--unproved", support.PROGRAM, str(folder)]
        run(*prefix, *words, variables={"SOURCE_DATE_EPOCH": str(YEAR_2100)})
        (deb,) = folder.glob("*.deb")
        return deb

    def field(self, name: str) -> str:
        return run("dpkg-deb", "-f", str(self.deb), name).strip()

    def test_files(self) -> None:
        parts = ("README.md", "CHANGELOG.md", "docs/*.*", "examples/*.*")
        documents = [it for part in parts for it in TOP.glob(part)]
        modules = [it for it in TOP.glob("python/pimtree/**/*.*") if "__pycache__" not in it.parts]
        expected = {
            "DEBIAN/control",
            "DEBIAN/md5sums",
            "DEBIAN/prerm",
            "usr/bin/pimtree",
            "usr/share/bash-completion/completions/pimtree",
            "usr/share/fish/vendor_completions.d/pimtree.fish",
            "usr/share/man/man1/pimtree.1.gz",
            "usr/share/zsh/vendor-completions/_pimtree",
            f"{DOCUMENTS}/changelog.gz",
            *(f"{DOCUMENTS}/{it.relative_to(TOP)}" for it in documents),
            *(f"{MODULES}/{it.relative_to(TOP / 'python')}" for it in modules),
        }
        found = {str(it.relative_to(self.root)) for it in self.root.rglob("*") if it.is_file()}
        self.assertEqual(found, expected)
        self.assertIn(f"{MODULES}/pimtree/py.typed", found)
        run("md5sum", "--check", "--quiet", "DEBIAN/md5sums", folder=self.root)

    def test_control(self) -> None:
        version = run(self.program, "--version")
        self.assertEqual(version, run(support.PROGRAM, "--version"))
        self.assertEqual(f"pimtree {self.field('Version')}\n", version)
        self.assertEqual(self.deb.name, f"pimtree_{self.field('Version')}_amd64.deb")
        self.assertIn("a quick build, which is not proved", self.field("Description"))
        changelog = run("gzip", "-dc", str(self.root / DOCUMENTS / "changelog.gz"))
        self.assertTrue(changelog.startswith(f"pimtree ({self.field('Version')}) "), changelog)

    @unittest.skipUnless(shutil.which("readelf"), "readelf isn't installed")
    def test_depends(self) -> None:
        needed = re.findall(r"\(NEEDED\).*\[(.*)\]", run("readelf", "-d", support.PROGRAM))
        self.assertEqual(needed, ["libc.so.6"])
        named = re.findall(r"Name: GLIBC_([\d.]+)", run("readelf", "-V", support.PROGRAM))
        newest = max(named, key=lambda it: [int(number) for number in it.split(".")])
        self.assertEqual(self.field("Depends"), f"libc6 (>= {newest})")

    def test_program(self) -> None:
        examples = self.root / DOCUMENTS / "examples"
        words = (examples / "lan.words").read_text().splitlines()[1:]
        traced = run(self.program, "trace", *words, folder=examples)
        self.assertEqual(traced, (examples / "lan.trace").read_text())

    def test_python(self) -> None:
        variables = {"PYTHONPATH": str(self.root / MODULES), "PIMTREE": self.program}
        command = [sys.executable, "-B", "-m", "pimtree", "--help"]
        usage = run(*command, folder=self.root, variables=variables)
        self.assertTrue(usage.startswith("usage: python3 -m pimtree COMMAND"), usage)
        script = "import pimtree; print(pimtree.__file__); pimtree.Session().close()"
        place = run(sys.executable, "-B", "-c", script, folder=self.root, variables=variables)
        self.assertEqual(place, f"{self.root / MODULES}/pimtree/__init__.py\n")

    def test_times(self) -> None:
        times = {it.stat().st_mtime for it in self.root.rglob("usr/**/*")}
        self.assertEqual(times, {YEAR_2100})
        changelog = run("gzip", "-dc", str(self.root / DOCUMENTS / "changelog.gz"))
        self.assertTrue(changelog.endswith(">  Fri, 01 Jan 2100 00:00:00 +0000\n"), changelog)

    def test_same_bytes(self) -> None:
        script = 'umask 077; TZ=Asia/Tokyo LC_ALL=C.UTF-8 exec "$@"'
        with tempfile.TemporaryDirectory() as folder:
            again = self.made(Path(folder), "sh", "-c", script, "sh")
            self.assertEqual(again.read_bytes(), self.deb.read_bytes())


@unittest.skipUnless(shutil.which("dpkg-deb"), "dpkg-deb isn't installed")
class Refused(unittest.TestCase):
    def setUp(self) -> None:
        room = tempfile.TemporaryDirectory()
        self.addCleanup(room.cleanup)
        self.top = Path(room.name)
        (self.top / "tools").mkdir()
        shutil.copy(TOP / "tools" / "package.sh", self.top / "tools")
        self.write("crates.txt")
        for part in ("src/lib.rt", "specs/Lib.antt", "proofs/Lib.antt"):
            self.write(f"crates/pimtree/{part}")

    def write(self, name: str, age: int = 100) -> None:
        path = self.top / name
        path.parent.mkdir(parents=True, exist_ok=True)
        path.touch()
        os.utime(path, (age, age))

    def refused(self, *words: str) -> str:
        return run("tools/package.sh", *words, folder=self.top, status=2)

    def test_no_program(self) -> None:
        expected = (
            "package.sh: crates/pimtree/out/pimtree isn't there: "
            "run `cd crates/pimtree && rt run -- --help`\n"
        )
        self.assertEqual(self.refused(), expected)

    def test_an_old_program(self) -> None:
        self.write("crates/pimtree/out/pimtree", 200)
        self.write("out/pimtree", 200)
        for part in ("crates.txt", *(f"crates/a/{it}/A" for it in ("src/a", "specs", "proofs"))):
            self.write(part, 300)
            said = f"package.sh: {part} is newer than "
            proved = "crates/pimtree/out/pimtree: run `cd crates/pimtree && rt run -- --help`\n"
            self.assertEqual(self.refused(), said + proved)
            quick = "out/pimtree: run `tools/quick_build.sh`\n"
            self.assertEqual(self.refused("--unproved"), said + quick)
            self.write(part)

    def test_words(self) -> None:
        words = "package.sh: the words are [--unproved [PROGRAM [FOLDER]]]\n"
        for given in (["--proved"], ["out/pimtree"], ["--unproved", "a", "b", "c"]):
            self.assertEqual(self.refused(*given), words)

    def test_another_program(self) -> None:
        self.write("out/pimtree")
        said = f"package.sh: {self.top}/out/pimtree isn't the program pimtree\n"
        self.assertEqual(self.refused("--unproved", "out/pimtree"), said)


if __name__ == "__main__":
    unittest.main()
