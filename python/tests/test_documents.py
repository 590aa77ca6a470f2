"""README and the documents do as they say: each of their commands is run, what they print is compared, and their links lead somewhere."""

from __future__ import annotations

import os
import re
import shutil
import subprocess
import tempfile
import unittest
from pathlib import Path

import desk

from .places import ROOT

DOCUMENTS = ["README.md", "docs/OFFICE.md", "docs/PROGRAMS.md", "docs/PROGRAMMERS.md", "docs/REFUSALS.md", "docs/PROMISES.md", "rust/README.md"]
# Commands that are run elsewhere: what they begin with, and where.
RUN_ELSEWHERE = {
    "bash .ci/": "the gate, which runs these tests",
    "make": ".ci/install, and .ci/runs for the programs",
    "cargo ": ".ci/compare",
}


def fenced(document: str) -> list[tuple[str, str, str]]:
    """The fenced blocks of a document: the word after the fence, the text, and the last line of prose before it."""
    found, prose, lines = [], "", iter((ROOT / document).read_text(encoding="utf-8").splitlines())
    for line in lines:
        if line.startswith("```"):
            text = []
            for inner in lines:
                if inner.startswith("```"):
                    break
                text.append(inner + "\n")
            found.append((line[3:], "".join(text), prose))
            prose = ""
        elif line.strip():
            prose = line
    return found


def commands(document: str) -> list[tuple[str, dict[str, str]]]:
    """The commands of a document, and what each is said to write, where that is said: a block after the word `prints` is its standard
    output, and one after `says` its standard error."""
    found: list[tuple[str, dict[str, str]]] = []
    for word, text, prose in fenced(document):
        if word == "sh":
            found += [(re.sub(r"\s+#.*", "", line), {}) for line in text.splitlines() if line.strip()]
        elif found and prose.endswith(("prints", "says")):
            found[-1][1]["stdout" if prose.endswith("prints") else "stderr"] = text
    return found


def elsewhere(command: str) -> bool:
    return any(command.startswith(start) for start in RUN_ELSEWHERE)


class CommandsRun(unittest.TestCase):
    """Commands are run in a folder that has all of the repository's own and takes what they write."""

    def setUp(self) -> None:
        self.folder = Path(tempfile.mkdtemp())
        self.addCleanup(shutil.rmtree, self.folder)
        for entry in ROOT.iterdir():
            if entry.name != ".git":
                (self.folder / entry.name).symlink_to(entry)

    def run_all(self, document: str) -> None:
        found = commands(document)
        self.assertTrue(found)
        for command, expected in found:
            if elsewhere(command):
                continue
            tool = command.split()[0]
            if not tool.startswith(("./", "target/", "PYTHONPATH=", "bash")) and not shutil.which(tool):
                print(f"{document}: left out, since {tool} is not on this machine: {command}")
                continue
            with self.subTest(document=document, command=command):
                done = subprocess.run(["bash", "-c", command], cwd=self.folder, capture_output=True, stdin=subprocess.DEVNULL)
                # A refusal is shown by what it says, and ends with 1.
                refused = done.stdout.startswith(b"refused,") and "stderr" in expected
                self.assertEqual(done.returncode, int(refused), done.stderr.decode("utf-8", "replace"))
                for stream, text in expected.items():
                    self.assertEqual(getattr(done, stream).decode("utf-8").split("\n"), text.split("\n"))

    def test_readme(self) -> None:
        self.run_all("README.md")
        # The two commands on the first page give the example's own register and a page.
        made = (self.folder / "counties.register").read_bytes()
        self.assertEqual(made, (ROOT / "examples" / "hungary-counties.register").read_bytes())
        self.assertTrue((self.folder / "counties.html").read_text(encoding="utf-8").startswith("<!DOCTYPE html>"))

    def test_office(self) -> None:
        self.run_all("docs/OFFICE.md")

    def test_programs(self) -> None:
        self.run_all("docs/PROGRAMS.md")

    def test_programmers(self) -> None:
        self.run_all("docs/PROGRAMMERS.md")


class DocumentsAgree(unittest.TestCase):
    def test_links_lead_somewhere(self) -> None:
        for document in DOCUMENTS:
            text = (ROOT / document).read_text(encoding="utf-8")
            for target in re.findall(r"\]\(([^)#]+)\)", text):
                if not re.match(r"[a-z]+:", target):
                    self.assertTrue(((ROOT / document).parent / target).exists(), f"{document} leads to {target}")

    def test_readme_shows_the_example(self) -> None:
        blocks = [text.encode() for word, text, _ in fenced("README.md") if word == ""]
        for ending in ("register", "listing"):
            self.assertIn((ROOT / "examples" / f"five-states.{ending}").read_bytes(), blocks)

    def test_table_of_refusals(self) -> None:
        text = (ROOT / "docs" / "REFUSALS.md").read_text(encoding="utf-8")
        rows = re.findall(r"^\| (\d+) \| `([A-Z_]+)` \| (.+?) \| (.+?) \|$", text, re.MULTILINE)
        told = {int(number): (name, wrong, mend) for number, name, wrong, mend in rows}
        self.assertEqual(told, {number: (one.name, one.wrong, one.mend) for number, one in desk.REFUSALS.items()})

    def test_limits_in_words_are_the_limits(self) -> None:
        words = "\n".join(refusal.wrong + refusal.mend for refusal in desk.REFUSALS.values())
        limits = [desk.STATES_LIMIT, desk.HOUSE_LIMIT, desk.SUM_LIMIT, desk.REGISTER_LIMIT, desk.LISTING_ROOM, desk.CLEAN_ROOM]
        numbers = {int(number.replace(",", "")) for number in re.findall(r"\d[\d,]{2,}", words)}
        self.assertEqual(numbers, set(limits))
        for method in desk.METHODS:
            self.assertIn(method.word, desk.REFUSALS[4].mend)


if __name__ == "__main__":
    unittest.main()
