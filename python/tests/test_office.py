"""The command `office` as people start it: help, exit status, links, names, and building on first use."""

from __future__ import annotations

import contextlib
import io
import os
import subprocess
import sys
import tempfile
import unittest
from pathlib import Path
from unittest import mock

import desk
from office import building, cli, names
from office.files import Unreadable

from .places import EXAMPLES, ROOT, example

OFFICE = str(ROOT / "office")


def office(*words: str, **more) -> subprocess.CompletedProcess:
    """Runs the command as a program of its own."""
    more.setdefault("stdin", subprocess.DEVNULL)
    return subprocess.run([sys.executable, OFFICE, *words], stdout=more.pop("stdout", subprocess.PIPE), stderr=subprocess.PIPE, **more)


class Help(unittest.TestCase):
    def test_version(self) -> None:
        done = office("--version")
        self.assertEqual((done.returncode, done.stdout.decode()), (0, f"office {desk.__version__}\n"))

    def test_help_names_every_command_and_shows_examples(self) -> None:
        done = office("--help")
        self.assertEqual(done.returncode, 0)
        text = done.stdout.decode()
        for command in cli.COMMANDS:
            self.assertRegex(text, rf"(?m)^    {command} ")
        self.assertIn("office make --method leximin --house 106", text)

    def test_each_command_has_help_with_examples(self) -> None:
        for command in cli.COMMANDS:
            with self.subTest(command=command):
                done = office(command, "--help")
                self.assertEqual(done.returncode, 0)
                self.assertIn(f"office {command} ", done.stdout.decode().partition("examples")[2])

    def test_nothing_asked(self) -> None:
        self.assertEqual(office().returncode, 2)
        self.assertEqual(office("melt").returncode, 2)
        self.assertEqual(office("allot", "--colour").returncode, 2)


class ExitStatus(unittest.TestCase):
    """0 done, 1 refused, 2 usage or unreadable, for every command that reads a register."""

    commands = (["allot"], ["compare"], ["houses"], ["explain"], ["page"])

    def each(self, file: str):
        for words in self.commands:
            after = ["20", "22"] if words == ["houses"] else []
            with self.subTest(command=words[0]):
                yield office(*words, file, *after)

    def test_done(self) -> None:
        for done in self.each(str(EXAMPLES / "five-states.register")):
            self.assertEqual((done.returncode, done.stderr.decode()), (0, ""))
            self.assertTrue(done.stdout)

    def test_refused(self) -> None:
        for done in self.each(str(EXAMPLES / "false-total.register")):
            self.assertEqual(done.returncode, 1)
            self.assertIn("line 7", done.stderr.decode())

    def test_unreadable(self) -> None:
        for file in ("no-such-file", str(EXAMPLES)):
            for done in self.each(file):
                self.assertEqual((done.returncode, done.stdout), (2, b""))
                self.assertIn(file, done.stderr.decode())

    def test_nothing_can_be_written(self) -> None:
        for words in (["allot"], ["explain"], ["page"]):
            with open("/dev/full", "wb") as full:
                done = office(*words, str(EXAMPLES / "five-states.register"), stdout=full)
            self.assertEqual(done.returncode, 2, words)
            self.assertEqual(len(done.stderr.decode().splitlines()), 1, done.stderr.decode())

    def test_a_reader_that_has_seen_enough(self) -> None:
        command = f"{sys.executable} {OFFICE} houses {EXAMPLES / 'hungary-counties.register'} 100 2000 | head -n 2"
        done = subprocess.run(["bash", "-c", command], stdout=subprocess.PIPE, stderr=subprocess.PIPE, stdin=subprocess.DEVNULL)
        self.assertNotIn(b"Traceback", done.stderr)

    def test_standard_input(self) -> None:
        with open(EXAMPLES / "five-states.register", "rb") as register:
            done = office("allot", "-", stdin=register)
        self.assertEqual((done.returncode, done.stdout), (0, example("five-states.listing")))

    def test_through_a_link_from_another_folder(self) -> None:
        with tempfile.TemporaryDirectory() as folder:
            os.symlink(OFFICE, f"{folder}/desk-of-the-office")
            command = [sys.executable, "desk-of-the-office", "allot", str(EXAMPLES / "five-states.register")]
            done = subprocess.run(command, cwd=folder, capture_output=True, stdin=subprocess.DEVNULL)
        self.assertEqual((done.returncode, done.stdout), (0, example("five-states.listing")))

    def test_a_plain_locale(self) -> None:
        environment = {**os.environ, "LC_ALL": "C", "PYTHONUTF8": "0", "PYTHONCOERCECLOCALE": "0"}
        with tempfile.TemporaryDirectory() as folder:
            register = Path(folder) / "x.register"
            register.write_bytes(b"register,hill,3,1\nBekes,5\ntotal,5\n")
            register.with_suffix(".names").write_text("Bekes,Békés\n", encoding="utf-8")
            done = office("compare", str(register), env=environment)
        self.assertEqual(done.returncode, 0, done.stderr)
        self.assertIn("Békés", done.stdout.decode("utf-8"))


class Quotes(unittest.TestCase):
    """Quotes around names are no fault, and are told of, since whoever wrote them may have meant otherwise."""

    def told(self, *states: str) -> list[str]:
        with tempfile.TemporaryDirectory() as folder:
            register = Path(folder) / "x.register"
            register.write_bytes(desk.register_text("hill", 9, states, range(1, len(states) + 1)))
            runs = [office(command, str(register), cwd=folder) for command in ("allot", "compare", "explain")]
            told = [run.stderr.decode().replace(f"{register}: ", "") for run in runs]
        self.assertEqual([run.returncode for run in runs], [0, 0, 0], told)
        self.assertEqual(told, told[:1] * 3)
        return told[0].splitlines()

    def test_told(self) -> None:
        (one,) = self.told("A", '"B"')
        self.assertTrue(one.startswith("the quotes around the name on line 3 are read as part of it, since a register has no quoting; "))
        (several,) = self.told('"A"', "B", '"C"')
        self.assertTrue(several.startswith("the quotes around names on 2 lines, the first of them line 2, are read as part of these, "))

    def test_quotes_elsewhere_are_left_alone(self) -> None:
        self.assertEqual(self.told('The "old" town', '"', '"B', 'C"'), [])


class Names(unittest.TestCase):
    """Names with accents, put back from a file beside the register or from one that is named."""

    def setUp(self) -> None:
        folder = tempfile.TemporaryDirectory()
        self.addCleanup(folder.cleanup)
        self.register = Path(folder.name) / "x.register"
        self.register.write_bytes(b"register,hill,3,2\nBekes,5\nVas,6\ntotal,11\n")
        self.read = desk.read(self.register.read_bytes())

    def shown(self, text: str | None, asked: bool) -> tuple[tuple[str, ...], str]:
        file = self.register.with_suffix(".txt" if asked else ".names")
        if text is not None:
            file.write_text(text, encoding="utf-8")
        told = io.StringIO()
        with contextlib.redirect_stderr(told):
            shown = names.shown_names(mock.Mock(names=str(file) if asked else None), str(self.register), self.read)
        return shown, told.getvalue()

    def test_put_back(self) -> None:
        for asked in (True, False):
            self.assertEqual(self.shown('Bekes,"Békés, vármegye"\n', asked), (("Békés, vármegye", "Vas"), ""))
        self.assertEqual(self.shown("\ufeffBekes,Békés\r\n\r\n", True), (("Békés", "Vas"), ""))

    def test_none(self) -> None:
        self.assertEqual(self.shown(None, False), (("Bekes", "Vas"), ""))

    def test_what_does_not_fit_stops_where_it_was_asked_for(self) -> None:
        for text in ("Zala,Zala\n", "Bekes\n", "Bekes,Békés\nBekes,Bekes\n", "Bekes, \n"):
            with self.assertRaises(Unreadable) as caught:
                self.shown(text, True)
            self.assertIn("row", str(caught.exception))
            shown, told = self.shown(text, False)
            self.assertEqual(shown, ("Bekes", "Vas"))
            self.assertIn("the register's own names are shown", told)

    def test_written_names_are_read(self) -> None:
        pairs = [("Bekes", 'B"é", kés'), ("Vas", "Vás")]
        names.write_names(str(self.register.with_suffix(".names")), pairs)
        self.assertEqual(self.shown(None, False)[0], tuple(shown for _, shown in pairs))


class Building(unittest.TestCase):
    """The library is built on first use, and again once a source has changed; how far it is, is told."""

    makefile = """\
.PHONY: shared
shared: target/lib/libdesk.so
target/lib/libdesk.so: source
\t@echo 'rt: chose --jobs 2 for apportionment'
\t@echo 'fn apportionment::within: proved'
\t@echo 'rt: chose --jobs 4 for wide'
\t@echo 'rt: chose --jobs 2 for desk'
\t@test ! -e broken || { echo 'the fact does not hold'; exit 1; }
\t@mkdir -p target/lib && touch $@
"""

    def setUp(self) -> None:
        folder = tempfile.TemporaryDirectory()
        self.addCleanup(folder.cleanup)
        self.root = Path(folder.name)
        (self.root / "Makefile").write_text(self.makefile)
        (self.root / "source").write_text("")
        (self.root / "crates.txt").write_text("# map: names\napportionment:\nwide:\nother: wide\ndesk staticlib: apportionment wide io\n")
        for name, value in (("ROOT", self.root), ("LOG", self.root / "target" / "build.log")):
            patch = mock.patch.object(building, name, value)
            patch.start()
            self.addCleanup(patch.stop)
        tools = mock.patch.object(building.shutil, "which", lambda tool: None if tool in self.missing else "/bin/" + tool)
        tools.start()
        self.addCleanup(tools.stop)
        environment = {name: value for name, value in os.environ.items() if name not in ("DESK_LIBRARY", "MAKEFLAGS", "MAKELEVEL")}
        patch = mock.patch.dict(os.environ, environment, clear=True)
        patch.start()
        self.addCleanup(patch.stop)
        self.missing: set[str] = set()

    def built(self) -> str:
        told = io.StringIO()
        with contextlib.redirect_stderr(told):
            building.ensure_library()
        return told.getvalue()

    def test_progress_and_once_only(self) -> None:
        told = self.built()
        self.assertRegex(told, r"crate 1 of 3, \d+ s\ncrate 2 of 3, \d+ s\ncrate 3 of 3, \d+ s\nBuilt in \d+ s\.\n$")
        self.assertEqual(self.built(), "")

    def test_changed_sources_are_noticed(self) -> None:
        self.built()
        newer = (self.root / "target/lib/libdesk.so").stat().st_mtime + 10
        os.utime(self.root / "source", (newer, newer))
        self.assertIn("Built in", self.built())

    def test_what_is_missing_is_named(self) -> None:
        for tool in ("rt", "cc", "make"):
            self.missing = {tool}
            with self.assertRaises(building.CannotBuild) as caught:
                self.built()
            self.assertIn(f"`{tool}`", str(caught.exception))

    def test_a_failed_build_shows_its_end(self) -> None:
        (self.root / "broken").write_text("")
        with self.assertRaises(building.CannotBuild) as caught:
            self.built()
        self.assertIn("the fact does not hold", str(caught.exception))

    def test_an_installed_library_is_taken_as_it_is(self) -> None:
        os.environ["DESK_LIBRARY"] = "/nowhere/libdesk.so"
        self.assertEqual(self.built(), "")

    def test_crates_below(self) -> None:
        text = (ROOT / "crates.txt").read_text(encoding="utf-8")
        below = building.crates_below("desk", text)
        self.assertIn("claims", below)
        self.assertNotIn("work", below)
        self.assertNotIn("io", below)
        self.assertLess(below.index("claims"), below.index("placing"))
        self.assertEqual(below[-1], "desk")


if __name__ == "__main__":
    unittest.main()
