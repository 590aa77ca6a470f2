"""The commands that list a register: the bash command `allotment`, with stand-ins for the kit and the program where it is about building,
and with the proved program where it is about what comes out; and `office allot`."""

from __future__ import annotations

import os
import re
import shutil
import subprocess
import sys
import tempfile
import unittest
from pathlib import Path

from desk.library import library_path

from .places import EXAMPLES, ROOT, example

PROGRAM = ROOT / "target" / "bin" / "allotment"
NO_PROGRAM = f"left out: {PROGRAM} is not built"
NO_LIBRARY = f"left out: {library_path()} is not built"
BASH = shutil.which("bash") or "bash"
TOOLS = "awk bash cat cp date dirname env find head mkdir mktemp mv readlink rm sed sh sleep tail tee touch".split()
NO_TOOLS = "left out: this machine lacks " + ", ".join(tool for tool in TOOLS if not shutil.which(tool))
FIVE = str(EXAMPLES / "five-states.register")

CRATES = """\
# A line for each crate.
wide:
text: wide
spare: wide
for_c staticlib: wide
allotment: text io
"""

# The kit's command, as far as `allotment` knows it: it says which crates it proves, builds the program, which answers with the register
# itself, and runs it.
KIT = """\
#!/bin/sh
echo "$* in $(pwd)" >>"$RT_LOG"
cat >>"$RT_LOG"
for crate in wide text allotment; do echo "rt: chose --jobs 2 for $crate"; echo "fn $crate::it: proved"; done >&2
[ -z "$RT_MEANWHILE" ] || { sleep 0.05; touch "$RT_MEANWHILE"; }
[ -n "$RT_BUILDS_NONE" ] || { mkdir -p out && cp ../../stand-in out/allotment; }
[ -z "$RT_FAILS" ] || { echo "fn allotment::main: not proved" >&2; exit 1; }
echo "rt: running out/allotment" >&2
echo refused,1,1
"""
STAND_IN = """\
#!/bin/sh
cat -- "$@" || true
"""


def executable(path: Path, text: str) -> None:
    path.write_text(text, encoding="utf-8")
    path.chmod(0o755)


def age(path: Path, seconds: int) -> None:
    """Makes a file or folder older than it is."""
    when = path.stat().st_mtime - seconds
    os.utime(path, (when, when))


@unittest.skipUnless(all(shutil.which(tool) for tool in TOOLS), NO_TOOLS)
class Tree(unittest.TestCase):
    """A repository of a few crates, in a folder with a blank in its name, and a PATH of a few tools that has no kit but a stand-in."""

    def setUp(self) -> None:
        folder = tempfile.TemporaryDirectory()
        self.addCleanup(folder.cleanup)
        self.folder = Path(folder.name)
        self.root = self.folder / "a tree"
        self.tools, self.kit, self.temporary = (self.folder / name for name in ("tools", "kit", "tmp"))
        for path in (self.root, self.tools, self.kit, self.temporary):
            path.mkdir()
        for tool in TOOLS:
            (self.tools / tool).symlink_to(shutil.which(tool))
        (self.kit / "python3").symlink_to(os.path.realpath(sys.executable))
        executable(self.kit / "rt", KIT)
        self.log = self.folder / "rt.log"
        shutil.copy(ROOT / "allotment", self.root / "allotment")
        for name in ("python", "include", "examples"):
            (self.root / name).symlink_to(ROOT / name)
        executable(self.root / "stand-in", STAND_IN)
        (self.root / "crates.txt").write_text(CRATES, encoding="ascii")
        for crate in ("wide", "text", "spare", "for_c", "allotment"):
            for part in ("src", "must-fail"):
                (self.root / "crates" / crate / part).mkdir(parents=True)
                (self.root / "crates" / crate / part / "file").write_text("", encoding="ascii")
        for path in (self.root / "crates.txt", *self.root.rglob("crates/**/*"), self.root / "crates"):
            age(path, 1000)
        self.program = self.root / "target" / "bin" / "allotment"

    def build(self) -> None:
        """The program is there, newer than its sources."""
        self.program.parent.mkdir(parents=True)
        shutil.copy(self.root / "stand-in", self.program)
        # A clock's tick may be longer than a test.
        age(self.program, 10)

    def run_it(self, *words: str, command: str | None = None, kit: bool = True, python: bool = True, **more) -> subprocess.CompletedProcess:
        """Runs `allotment`, or another command in its place."""
        path = [str(self.kit)] if kit else []
        if kit and not python:
            (self.kit / "python3").unlink()
        variables = more.pop("variables", {})
        environment = {"PATH": os.pathsep.join([*path, str(self.tools)]), "RT_LOG": str(self.log), "TMPDIR": str(self.temporary)}
        environment.update(variables)
        arguments = [BASH, "-c", command] if command else [BASH, str(self.root / "allotment"), *words]
        if "input" not in more:
            more.setdefault("stdin", subprocess.DEVNULL)
        more.setdefault("stdout", subprocess.PIPE)
        done = subprocess.run(arguments, env=environment, stderr=subprocess.PIPE, timeout=60, **more)
        self.assertEqual(list(self.temporary.iterdir()), [], "something was left in the temporary folder")
        return done

    @property
    def builds(self) -> int:
        return self.log.read_text(encoding="utf-8").count("run in ") if self.log.exists() else 0

    def holds(self, done: subprocess.CompletedProcess, status: int, output: bytes, *pieces: str) -> None:
        """A run ended with a status, its output is this, and these pieces are on standard error; nothing is there if there are none."""
        said = done.stderr.decode("utf-8")
        self.assertEqual((done.returncode, done.stdout), (status, output), said)
        for piece in pieces:
            self.assertIn(piece, said)
        if not pieces:
            self.assertEqual(said, "")


class Building(Tree):
    def test_the_first_run_builds(self) -> None:
        done = self.run_it(FIVE)
        self.holds(done, 0, example("five-states.register"), "not built yet", "many minutes", "crate 1 of 3\n", "crate 3 of 3\n")
        self.assertEqual(re.findall(r"crate (\d)", done.stderr.decode()), ["1", "2", "3"])
        self.assertEqual(self.log.read_text(encoding="utf-8"), f"run in {self.root}/crates/allotment\n")
        self.holds(self.run_it(FIVE), 0, example("five-states.register"))
        self.assertEqual(self.builds, 1)

    def test_the_kit_leaves_the_register_on_standard_input_alone(self) -> None:
        self.holds(self.run_it(input=b"allotment,x\n"), 0, b"allotment,x\n", "not built yet")

    def test_a_program_that_was_deleted_is_built_again(self) -> None:
        self.run_it(FIVE)
        self.program.unlink()
        self.holds(self.run_it(FIVE), 0, example("five-states.register"), "not built yet")
        self.assertEqual(self.builds, 2)

    def test_what_the_kit_clears_is_not_needed(self) -> None:
        self.run_it(FIVE)
        shutil.rmtree(self.root / "crates/allotment/out")
        self.holds(self.run_it(FIVE), 0, example("five-states.register"))
        self.assertEqual(self.builds, 1)

    def test_changed_sources_are_noticed_once(self) -> None:
        self.build()
        for name in ("crates/wide/src/file", "crates/text/src/file", "crates/allotment/src/file", "crates.txt", "crates/text/specs/file"):
            with self.subTest(name):
                before = self.builds
                path = self.root / name
                path.parent.mkdir(exist_ok=True)
                path.touch()
                self.holds(self.run_it(FIVE), 0, example("five-states.register"), "sources have changed", "crate 3 of 3")
                self.holds(self.run_it(FIVE), 0, example("five-states.register"))
                self.assertEqual(self.builds, before + 1)

    def test_a_deleted_source_is_noticed(self) -> None:
        self.build()
        (self.root / "crates/text/src/file").unlink()
        self.holds(self.run_it(FIVE), 0, example("five-states.register"), "sources have changed")

    def test_what_does_not_matter_is_passed_over(self) -> None:
        self.build()
        names = ("crates/text/must-fail/file", "crates/spare/src/file", "crates/for_c/src/file", "crates/text/out/file", "stand-in")
        for name in names:
            path = self.root / name
            path.parent.mkdir(exist_ok=True)
            path.touch()
        self.holds(self.run_it(FIVE), 0, example("five-states.register"))
        self.assertEqual(self.builds, 0)

    def test_what_changes_while_it_builds_is_noticed_next_time(self) -> None:
        self.run_it(FIVE, variables={"RT_MEANWHILE": str(self.root / "crates/text/src/file")})
        self.holds(self.run_it(FIVE), 0, example("five-states.register"), "sources have changed")
        self.holds(self.run_it(FIVE), 0, example("five-states.register"))
        self.assertEqual(self.builds, 2)

    def test_a_build_that_fails(self) -> None:
        for _ in range(2):
            # The second time the kit's own file is there, and newer than its sources.
            done = self.run_it(FIVE, variables={"RT_FAILS": "yes"})
            self.holds(done, 2, b"", "could not be built", "target/allotment-build.log", "main: not proved")
        self.assertEqual(self.builds, 2)
        self.assertEqual(list(self.program.parent.iterdir()), [])
        self.holds(self.run_it(FIVE), 0, example("five-states.register"), "not built yet")

    def test_a_build_without_a_program(self) -> None:
        self.holds(self.run_it(FIVE, variables={"RT_BUILDS_NONE": "yes"}), 2, b"", "could not be built")

    def test_no_kit(self) -> None:
        self.holds(self.run_it(FIVE, kit=False), 2, b"", "not built yet, and rt, the command of the Rattle kit")
        self.build()
        self.holds(self.run_it(FIVE, kit=False), 0, example("five-states.register"))
        (self.root / "crates/text/src/file").touch()
        self.holds(self.run_it(FIVE, kit=False), 2, b"", "sources have changed, and rt, the command of the Rattle kit")

    def test_a_program_without_its_sources_is_taken_as_it_is(self) -> None:
        self.build()
        (self.root / "crates.txt").unlink()
        self.holds(self.run_it(FIVE, kit=False), 0, example("five-states.register"))

    def test_nothing_is_written_outside_target(self) -> None:
        def entries() -> set[Path]:
            """What stands in the tree, but for what the kit makes."""
            return {path for path in self.root.rglob("*") if not {"target", "out"} & set(path.relative_to(self.root).parts)}

        (self.root / "python").unlink()
        shutil.copytree(ROOT / "python", self.root / "python", ignore=shutil.ignore_patterns("__pycache__", "tests"))
        before = entries()
        self.run_it(FIVE)
        self.holds(self.run_it(input=b"refused,2,1\n"), 1, b"refused,2,1\n", "The file is a refusal that the desk has written")
        self.assertEqual(entries(), before)


class Calling(Tree):
    def setUp(self) -> None:
        super().setUp()
        self.build()

    def test_help_builds_nothing(self) -> None:
        self.program.unlink()
        for word in ("--help", "-h"):
            done = self.run_it(word)
            self.assertEqual((done.returncode, done.stderr), (0, b""))
            for piece in ("usage: allotment [REGISTER]\n", "standard input", "exit status: 0", "1 the register was refused"):
                self.assertIn(piece, done.stdout.decode())
            self.assertLessEqual(max(len(line) for line in done.stdout.decode().splitlines()), 82)
        self.assertEqual(self.builds, 0)

    def test_through_links(self) -> None:
        far = self.folder / "far" / "away"
        far.mkdir(parents=True)
        (far / "relative").symlink_to("../../a tree/allotment")
        (self.folder / "far" / "chain").symlink_to("away/relative")
        (far / "absolute").symlink_to(self.folder / "far" / "chain")
        (self.folder / "folder").symlink_to(self.root)
        for where, name in (
            (far, "relative"),
            (far, "./relative"),
            (self.folder, "far/chain"),
            (far, "../chain"),
            (Path("/"), str(far / "absolute")),
            (self.folder, "folder/allotment"),
            (self.root, "allotment"),
            (self.root / "crates", "../allotment"),
        ):
            with self.subTest(name):
                self.holds(self.run_it(command=f'bash "{name}" "{FIVE}"', cwd=where), 0, example("five-states.register"))
        (far / "relative").resolve().chmod(0o755)
        for before in (f'PATH=$PATH:"{far}"; relative', f'PATH=$PATH:"{far}"; bash relative', "CDPATH=/; bash allotment"):
            with self.subTest(before):
                self.holds(self.run_it(command=f'{before} "{FIVE}"', cwd=self.root), 0, example("five-states.register"))

    def test_the_answer_is_handed_on_byte_for_byte(self) -> None:
        for answer in (b"allotment,\n", b"allotment,no line end", b"allotment\n\n\n", b"allotment \\ %s 'x' $x\t\xe9\r\n", b"status 3\n"):
            with self.subTest(answer):
                self.holds(self.run_it(input=answer), 0, answer)

    def test_more_than_one_file(self) -> None:
        stored = (ROOT / "runs" / "allotment" / "two-files.stderr").read_text(encoding="ascii")
        done = self.run_it(FIVE, FIVE)
        self.holds(done, 2, b"", stored)
        self.assertEqual(done.stderr.decode(), stored)

    def test_a_program_that_breaks_down(self) -> None:
        executable(self.program, "#!/bin/sh\nkill -SEGV $$\n")
        self.holds(self.run_it(FIVE), 2, b"", "the program ended with status 139")

    def test_streams_that_are_closed(self) -> None:
        name = f'bash "{self.root}/allotment"'
        self.holds(self.run_it(command=f"{name} <&-"), 2, b"", "standard input is closed")
        self.holds(self.run_it(command=f'{name} "{FIVE}" <&-'), 0, example("five-states.register"))
        self.holds(self.run_it(command=f'{name} "{FIVE}" >&-'), 2, b"", "standard output is closed")
        self.holds(self.run_it(command=f'{name} "{FIVE}" 2>&-'), 0, example("five-states.register"))
        self.holds(self.run_it(command=f"echo refused,2,1 | {name} 2>&-"), 1, b"refused,2,1\n")

    def test_output_that_is_not_taken(self) -> None:
        with open("/dev/full", "wb") as full:
            done = self.run_it(FIVE, stdout=full)
        self.assertEqual((done.returncode, done.stderr), (2, b"standard output: No space left on device\n"))
        done = self.run_it(command=f'(sleep 0.3; bash "{self.root}/allotment" "{FIVE}"; echo status $? >&2) | true')
        self.assertEqual(done.stderr, b"standard output: Broken pipe\nstatus 2\n")

    def test_no_room_to_keep_standard_input(self) -> None:
        done = self.run_it(input=b"allotment\n", variables={"TMPDIR": str(self.folder / "nowhere")})
        self.assertEqual((done.returncode, done.stdout), (2, b""))
        self.assertIn("nowhere", done.stderr.decode())


@unittest.skipUnless(PROGRAM.exists(), NO_PROGRAM)
class Listing(Tree):
    """With the proved program: what it prints, the words, and the status."""

    def setUp(self) -> None:
        super().setUp()
        self.program.parent.mkdir(parents=True)
        shutil.copy2(PROGRAM, self.program)
        self.program.touch()
        self.runs = ROOT / "runs" / "allotment"

    def stored(self, name: str) -> bytes:
        path = self.runs / name
        return path.read_bytes() if path.exists() else b""

    def test_every_example(self) -> None:
        for path in sorted(EXAMPLES.glob("*.listing")):
            with self.subTest(path.name):
                register = path.with_suffix(".register")
                refused = path.read_bytes().startswith(b"refused,")
                for done in (self.run_it(str(register)), self.run_it(input=register.read_bytes())):
                    self.assertEqual((done.returncode, done.stdout), (1 if refused else 0, path.read_bytes()))
                    self.assertEqual(bool(done.stderr), refused)

    def test_as_the_stored_runs(self) -> None:
        too_long = "a" * 5000
        for name, status, words, given in (
            ("no-argument", 0, [], example("five-states.register")),
            ("file", 0, [FIVE], b""),
            ("two-files", 2, [FIVE, FIVE], b""),
            ("no-input", 1, [], b""),
            ("as-long-as-may-be", 1, [], b"a" * 65536),
            ("too-long", 1, [], b"a" * 65537),
            ("far-too-long", 1, [], b"a" * 200000),
            ("no-such-file", 2, ["no-such-file"], b""),
            ("argument-too-long", 2, [too_long], b""),
            ("folder", 2, ["examples"], b""),
        ):
            with self.subTest(name):
                done = self.run_it(*words, input=given, cwd=ROOT)
                self.assertEqual((done.returncode, done.stdout), (status, self.stored(f"{name}.stdout")), done.stderr)
                if status == 2:
                    self.assertEqual(done.stderr, self.stored(f"{name}.stderr"))
        with open("/dev/full", "wb") as full:
            done = self.run_it(FIVE, stdout=full)
        self.assertEqual((done.returncode, done.stderr), (2, self.stored("nothing-taken.stderr")))

    def test_quotes_around_names(self) -> None:
        for name, told in ((b'"B"', True), (b'"B', False)):
            done = self.run_it(input=b'register,hill,5,2\nA "b",26\n%s,27\ntotal,53\n' % name)
            listing = b'allotment,hill,5,2\nA "b",26,2,22.642,over\n%s,27,3,-15.094,over\ntotal,53,5\n' % name
            self.assertEqual((done.returncode, done.stdout), (0, listing))
            self.assertEqual(done.stderr.startswith(b"standard input: quotes around names are read as part of them"), told)
            self.assertEqual(bool(done.stderr), told)

    def test_refusals_in_words(self) -> None:
        name = f'bash "{self.root}/allotment"'
        register = EXAMPLES / "false-total.register"
        words = "Wrong: The closing total is 200, but the populations add up to 201: the total is lower by 1."
        place = f"{register}, line 7: refused, number 7\n    7 | total,200\n"
        self.holds(self.run_it(str(register)), 1, b"refused,7,7\n", place + words, "\nMend:  ")
        self.holds(self.run_it(input=register.read_bytes()), 1, b"refused,7,7\n", "standard input, line 7: refused, number 7", words)
        # A pipe in place of a file, and a register that comes in pieces.
        self.holds(self.run_it(command=f'{name} <(cat "{register}")'), 1, b"refused,7,7\n", "line 7: refused", words)
        self.holds(self.run_it(command=f'(head -c 20; sleep 0.2; cat) <"{register}" | {name}'), 1, b"refused,7,7\n", words)
        self.holds(self.run_it(command=f'{name} /dev/stdin <"{register}"'), 1, b"refused,7,7\n", "/dev/stdin, line 7", words)
        self.holds(self.run_it(command=f'cat "{register}" | {name} /dev/stdin'), 1, b"refused,7,7\n", "/dev/stdin, line 7", words)
        done = self.run_it(input="register,leximin,20,1\nBékés,5\ntotal,5\n".encode(), variables={"LC_ALL": "C"})
        self.holds(done, 1, b"refused,2,2\n", "    2 | Bé⟨C3 A9⟩ké⟨C3 A9⟩s,5\n", "letters beyond the plain ones")

    def test_refusals_without_python(self) -> None:
        done = self.run_it(input="register,leximin,20,1\nBékés,5\ntotal,5\n".encode(), python=False)
        self.holds(
            done,
            1,
            b"refused,2,2\n",
            "standard input, line 2: refused, number 2\n    2 | BM-CM-)kM-CM-)s,5\nWrong: The line is missing, unended or ill-formed",
            "\nMend:  Correct the fields",
        )
        (self.kit / "python3").symlink_to(os.path.realpath(sys.executable))
        done = self.run_it(input=b"register,leximin,1,2\nA,5\nB,5\ntotal,10\n", python=False)
        self.holds(done, 1, b"refused,15,0\n", "standard input: refused, number 15\nWrong: The house has fewer seats")
        # A Python that cannot say it, and a line that is far too long.
        executable(self.kit / "python3", "#!/bin/sh\nexit 1\n")
        self.holds(self.run_it(input=b"a" * 65000 + b"\n"), 1, b"refused,2,1\n", "    1 | aaaa", "Wrong: The line is missing")

    def test_python_is_not_led_astray(self) -> None:
        """Neither a module in the folder that it is called from nor Python's own variables change what is said."""
        (self.folder / "desk.py").write_text("raise SystemExit('astray')", encoding="ascii")
        register = EXAMPLES / "name-twice.register"
        done = self.run_it(str(register), cwd=self.folder, variables={"PYTHONPATH": str(self.folder), "PYTHONSTARTUP": "/nowhere"})
        self.holds(done, 1, b"refused,5,5\n", 'The name "B" was used on line 3 already')


@unittest.skipUnless(library_path().exists(), NO_LIBRARY)
class OfficeAllot(unittest.TestCase):
    """`office allot` without the command around it, which builds the library where it is missing."""

    DRIVER = """\
import argparse, sys
from office import allot
parser = argparse.ArgumentParser()
allot.add_arguments(parser)
sys.exit(allot.run(parser.parse_args()))
"""

    def allot(self, *paths: str, **more) -> subprocess.CompletedProcess:
        environment = {**os.environ, "PYTHONPATH": str(ROOT / "python"), "PYTHONIOENCODING": "utf-8", "PYTHONDONTWRITEBYTECODE": "1"}
        if "input" not in more:
            more.setdefault("stdin", subprocess.DEVNULL)
        more.setdefault("stdout", subprocess.PIPE)
        command = [sys.executable, "-c", self.DRIVER, *paths]
        return subprocess.run(command, env=environment, stderr=subprocess.PIPE, cwd=ROOT, timeout=60, **more)

    def test_every_example(self) -> None:
        paths = sorted(EXAMPLES.glob("*.listing"))
        done = self.allot(*(str(path.with_suffix(".register")) for path in paths))
        self.assertEqual(done.stdout, b"".join(path.read_bytes() for path in paths))
        self.assertEqual(done.returncode, 1)
        told = re.findall(r"([a-z-]+)\.register, line (\d+)", done.stderr.decode())
        self.assertEqual(told, [("cut-short", "5"), ("false-total", "7"), ("name-twice", "5")])

    def test_standard_input(self) -> None:
        for paths in ([], ["-"]):
            done = self.allot(*paths, input=example("five-states.register"))
            self.assertEqual((done.returncode, done.stdout, done.stderr), (0, example("five-states.listing"), b""))
            done = self.allot(*paths, input=example("name-twice.register"))
            self.assertEqual((done.returncode, done.stdout), (1, b"refused,5,5\n"))
            self.assertTrue(done.stderr.decode().startswith("standard input, line 5: refused, number 5\n"))

    def test_it_goes_on_and_the_worst_status_wins(self) -> None:
        twice = "examples/name-twice.register"
        for paths, status in (
            ([FIVE], 0),
            ([twice, FIVE], 1),
            ([FIVE, twice], 1),
            (["no-such-file", FIVE], 2),
            (["no-such-file", twice, FIVE], 2),
            ([twice, "examples", FIVE], 2),
        ):
            with self.subTest(paths):
                done = self.allot(*paths)
                expected = b"".join({FIVE: example("five-states.listing"), twice: b"refused,5,5\n"}.get(path, b"") for path in paths)
                self.assertEqual((done.returncode, done.stdout), (status, expected))
                for path in paths:
                    self.assertEqual(path in done.stderr.decode(), path != FIVE)

    def test_too_long(self) -> None:
        for length in (65537, 300_000):
            done = self.allot(input=b"a" * length)
            self.assertEqual((done.returncode, done.stdout), (1, b"refused,1,0\n"))
            self.assertIn("standard input: refused, number 1", done.stderr.decode())

    def test_output_that_is_not_taken(self) -> None:
        with open("/dev/full", "wb") as full:
            done = self.allot(FIVE, FIVE, FIVE, stdout=full)
        self.assertEqual((done.returncode, done.stderr), (2, b"office: standard output: No space left on device\n"))
        reader, writer = os.pipe()
        os.close(reader)
        with os.fdopen(writer, "wb") as nobody:
            done = self.allot(FIVE, FIVE, FIVE, stdout=nobody)
        self.assertEqual((done.returncode, done.stderr), (2, b"office: standard output: Broken pipe\n"))


if __name__ == "__main__":
    unittest.main()
