"""`office make`: real exports give the register that they hold, and whatever is in doubt is stopped at, in words that say where and why."""

from __future__ import annotations

import argparse
import contextlib
import csv
import io
import itertools
import os
import random
import re
import subprocess
import sys
import tempfile
import unittest
from pathlib import Path
from unittest import mock

import desk
from office import make, spreadsheet
from office.files import Unreadable

from .places import ROOT, example

EXPORTS = Path(__file__).parent / "exports"
COUNTIES = example("hungary-counties.register")
NBSP, NARROW = "\u00a0", "\u202f"


def bare(text: str) -> str:
    """The lines of a register's states, parted by blanks."""
    return " ".join(text.splitlines()[1:-1])


class Making(unittest.TestCase):
    """Each test works in an empty directory, where the export is `counties.csv`."""

    def setUp(self) -> None:
        room = tempfile.TemporaryDirectory()
        before = os.getcwd()
        self.addCleanup(room.cleanup)
        self.addCleanup(os.chdir, before)
        os.chdir(room.name)

    def make(self, data: bytes | str, *options: str, method: str = "leximin", house: str = "30") -> tuple[int, str, str]:
        """Exit status, standard output and standard error of `office make` on an export with this content."""
        Path("counties.csv").write_bytes(data.encode("utf-8") if isinstance(data, str) else data)
        return self.run_make("counties.csv", *options, method=method, house=house)

    def run_make(self, path: str, *options: str, method: str = "leximin", house: str = "30") -> tuple[int, str, str]:
        parser = argparse.ArgumentParser()
        make.add_arguments(parser)
        arguments = parser.parse_args(["--method", method, "--house", house, path, *options])
        out, told = io.StringIO(), io.StringIO()
        with contextlib.redirect_stdout(out), contextlib.redirect_stderr(told):
            status = make.run(arguments)
        return status, out.getvalue(), told.getvalue()

    def states(self, data: bytes | str, *options: str) -> str:
        """The states' lines of the register made, parted by blanks; what was told otherwise."""
        status, out, told = self.make(data, *options)
        return bare(out) if status == 0 else told

    def assert_words(self, told: str, words: str) -> None:
        """That a message has these words in this order; `...` stands for any others."""
        wanted = ".*".join(re.escape(part) for part in words.split("..."))
        self.assertRegex(told, re.compile(wanted, re.DOTALL))

    def assert_stops(self, data: bytes | str, words: str, *options: str) -> None:
        """That it stops with one line that begins so after the file's name, prints no register, and writes nothing."""
        words = f"counties.csv{',' if re.match('(row|column) [0-9A-Z]+[,:]', words) else ':'} {words}"
        for output in ((), ("-o", "new.register")):
            status, out, told = self.make(data, *options, *output)
            self.assertEqual((status, out, told.count("\n")), (2, "", 1), told)
            self.assertEqual(os.listdir(), ["counties.csv"])
            self.assert_words(told, words)
            self.assertTrue(told.startswith(words.partition("...")[0]), told)


class RealExports(Making):
    """Files that LibreOffice exported, and Excel's forms (exports/README.md)."""

    read = (
        ("semicolon.csv", (), "read as UTF-8, parted by semicolons\n"),
        ("quoted-thousands.csv", (), 'parted by commas\n...thousands marks were taken out: "1,407,470" is read as 1407470\n'),
        ("all-quoted.csv", (), "parted by commas\n"),
        ("tab.txt", (), "parted by tabs\n"),
        ("utf-16.txt", (), "read as UTF-16, parted by tabs\n"),
        ("cp1250.csv", ("--encoding", "cp1250"), "read as cp1250, parted by semicolons\n"),
        ("latin-2.csv", ("--encoding", "latin-2"), "read as latin-2, parted by semicolons\n"),
        ("thousands-english.csv", (), 'parted by semicolons\n..."1,407,470" is read as 1407470\n'),
        ("thousands-german.csv", (), '"1.407.470" is read as 1407470\n'),
        ("thousands-hungarian.csv", (), '"1<U+00A0>407<U+00A0>470" is read as 1407470\n'),
        ("thousands-swiss.csv", (), '"1\'407\'470" is read as 1407470\n'),
        ("excel-utf-8.csv", (), "read as UTF-8, parted by semicolons\n"),
        ("excel-unicode-text.txt", (), "read as UTF-16, parted by tabs\n"),
        ("published.csv", ("--population-column", "C"), 'column B "Megye", populations from column C "Népesség"; left out columns A, D\n'),
        ("published.csv", ("--population-column", "népesség"), 'left out rows 1, 3, "Választókorú népesség megyénként"'),
        ("published.csv", ("--population-column", "3"), 'left out row 26, "Forrás: Biró, ...": below the total, without a number\n'),
    )
    stopped = (
        ("cp1250.csv", 'row 1: the byte E9 in "N\\xe9pess\\xe9g" cannot be read as UTF-8: ...--encoding cp1250...cp1252...latin-2'),
        ("latin-2.csv", 'row 1: the byte E9 in "N\\xe9pess\\xe9g" cannot be read as UTF-8: '),
        ("decimals.csv", 'row 2, column B: "1,407,470.00" is no whole number: ...if these are decimals, show the column as whole'),
        ("scientific.csv", 'row 2, column B: "1.41E+06" is no whole number: the spreadsheet has shortened it; '),
        ("broken-sum.csv", 'row 22, column B: "#NAME?" is no whole number: it is the spreadsheet\'s own error; '),
        ("published.csv", 'several columns hold numbers: A "Sorszám"...; C "Népesség" ("1,407,470", ...; D "Arány"...-column C or'),
    )

    def test_every_export_is_tried(self) -> None:
        tried = {name for name, *_ in self.read + self.stopped}
        self.assertEqual(tried, {path.name for path in EXPORTS.iterdir() if path.suffix in (".csv", ".txt")})

    def test_read(self) -> None:
        written = [line.split(";")[0] for line in (EXPORTS / "semicolon.csv").read_text(encoding="utf-8").splitlines()[1:-1]]
        for name, options, words in self.read:
            with self.subTest(export=name, options=options):
                status, out, told = self.run_make(str(EXPORTS / name), *options, "-o", "made.register", house="106")
                self.assertEqual((status, out), (0, ""), told)
                self.assertEqual(Path("made.register").read_bytes(), COUNTIES)
                self.assert_words(told, words)
                self.assert_words(
                    told,
                    "Bács-Kiskun is written Bacs-Kiskun, Békés is written Bekes, ...Győr-Moson-Sopron is written Gyor-Moson-Sopron, ",
                )
                self.assert_words(told, "Nógrád is written Nograd and 2 more\n")
                self.assert_words(told, "\"Összesen\", \"8...a total, equal to the sum of the rows above\n")
                self.assertTrue(told.endswith("made.register: 20 states, 8,205,967 inhabitants, leximin, a house of 106\n"), told)
                with open("made.names", encoding="utf-8", newline="") as file:
                    self.assertEqual([row[1] for row in csv.reader(file)], written)

    def test_stopped_at(self) -> None:
        for name, words in self.stopped:
            with self.subTest(export=name):
                status, out, told = self.run_make(str(EXPORTS / name), "-o", "made.register")
                self.assertEqual((status, out, os.listdir()), (2, "", []))
                self.assert_words(told, f"{EXPORTS / name}{',' if words.startswith('row') else ':'} {words}")

    def test_the_command_itself(self) -> None:
        command = [sys.executable, str(ROOT / "office"), "make", "--method", "leximin", "--house", "106"]
        given = (EXPORTS / "excel-utf-8.csv").read_bytes()
        done = subprocess.run([*command, "-"], input=given, stdout=subprocess.PIPE, stderr=subprocess.PIPE)
        self.assertEqual((done.returncode, done.stdout), (0, COUNTIES))
        self.assert_words(done.stderr.decode("utf-8"), "standard input: read as UTF-8...\nstandard output: 20 states, ")
        done = subprocess.run([*command, str(EXPORTS / "cp1250.csv")], stdout=subprocess.PIPE, stderr=subprocess.PIPE)
        self.assertEqual((done.returncode, done.stdout), (2, b""))


class Reading(Making):
    """Encodings, line ends, quotes and marks between fields."""

    def test_line_ends_and_a_file_not_ended(self) -> None:
        for end in ("\n", "\r\n", "\r"):
            for last in (end, "", 2 * end):
                self.assertEqual(self.states(f"A,5{end}B,12{last}"), "A,5 B,12", repr((end, last)))

    def test_encodings(self) -> None:
        text = "Győr,5\nBékés,12\n"
        for encoding in ("utf-8", "utf-8-sig", "utf-16"):
            self.assertEqual(self.states(text.encode(encoding)), "Gyor,5 Bekes,12")
        self.assertEqual(self.states(b"\xfe\xff" + text.encode("utf-16-be")), "Gyor,5 Bekes,12")
        for codec, wanted in (("cp1250", "cp1250 Windows-1250"), ("latin2", "latin-2 LATIN-2 iso-8859-2"), ("utf-16-le", "utf-16-le")):
            for encoding in wanted.split():
                self.assertEqual(self.states(text.encode(codec), "--encoding", encoding), "Gyor,5 Bekes,12")
        for codec in ("utf-8", "utf-8-sig"):
            self.assertEqual(self.states(text.encode(codec), "--encoding", "utf-8"), "Gyor,5 Bekes,12")
        self.assertEqual(self.states("Ångström,5\nB,12\n".encode("cp1252"), "--encoding", "cp1252"), "Angstrom,5 B,12")

    def test_bytes_of_no_encoding(self) -> None:
        self.assert_stops(
            "A,5\r\nB,6\r\nGyőr;12\r\n".encode("cp1250"),
            'row 3: the byte F5 in "Gy\\xf5r" cannot be read as UTF-8: save it as CSV UTF-8, or ...--encoding cp1250 ',
        )
        self.assert_stops(b"\xff\xfeA\x00,\x005\x00\n\x00B", "row 2: the byte 42 in ...cannot be read as UTF-16: ")
        self.assert_stops(
            b"A,5\nB\x81,12\n",
            "row 2: the byte 81 in ... as CP1250: the file is in another encoding",
            "--encoding",
            "cp1250",
        )
        self.assert_stops("A,5\nB,6\n".encode("utf-16-le"), "row 1: a zero byte stands there, as in UTF-16...--encoding utf-16-le")
        self.assert_stops("A,5\nB,6\n", "--encoding klingon is not known here: there are cp1250, ", "--encoding", "klingon")
        self.assert_stops("A,5\nB,6\n", "--encoding hex is not known here: ", "--encoding", "hex")
        for mark in (b"\xef\xbb\xbf", b"\xff\xfe"):
            self.assert_stops(
                mark + b"A,5\n",
                "the file begins with the byte order mark of UTF-...: leave --encoding cp1250 out",
                "--encoding",
                "cp1250",
            )
        _, _, told = self.make("Győr,5\nB,12\n", "--encoding", "cp1250")
        self.assert_words(told, "every byte fits UTF-8 too, so look at the names: --encoding cp1250 was used as asked\n")

    def test_no_export_at_all(self) -> None:
        self.assert_stops(b"", "the file is empty\n")
        self.assert_stops(b"PK\x03\x04\x14\x00", "this is a workbook itself: ...save the sheet as CSV UTF-8")
        self.assert_stops(b"\xd0\xcf\x11\xe0\xa1", "this is a workbook itself: ")
        self.assert_stops(COUNTIES, "this is a register already: give it to the other commands as it is\n")
        for text in ("\n\n", "hello\nworld\n", "A,\nB,\n", "A 5\nB 6\n", "5\n6\n"):
            self.assert_stops(text, "no row has a name and a number parted by a comma, a semicolon or a tab\n")
        self.assertRaises(Unreadable, self.run_make, "no-such-file.csv")

    def test_quotes(self) -> None:
        self.assertEqual(self.states('"A ""old"" town","5"\nB "c",12\n'), 'A "old" town,5 B "c",12')
        self.assertEqual(self.states('"County\nor city","Count\nof 2010"\nA,5\nB,12\n'), "A,5 B,12")
        words = "row 3: the quotes do not open and close as CSV has them"
        self.assert_stops('A,5\nB,6\n"C,12\nD,7\n', words)
        self.assert_stops('A,5\nB,6\n"C"d,12\nD,7\n', words)

    def test_marks_between_fields(self) -> None:
        for mark, word in ((",", "commas"), (";", "semicolons"), ("\t", "tabs")):
            status, out, told = self.make(f"A{mark}5\nB{mark}12\n")
            self.assertEqual(bare(out), "A,5 B,12")
            self.assert_words(told, f"counties.csv: read as UTF-8, parted by {word}\n")
        # Commas in numbers alone are thousands marks or decimals, whichever way each row could be read.
        self.assertEqual(self.states("A;973,668\nB;242,236\nC;900,236\n", "--thousands", "comma"), "A,973668 B,242236 C,900236")
        self.assertEqual(self.states("A\t973,668\nB\t1,242,236\nC\t100,236\n"), "A,973668 B,1242236 C,100236")
        self.assert_stops("A;973,5\nB;242,2\n", 'row 1, column B: "973,5" is no whole number: ')
        self.assertEqual(self.states("Pest, county\t5\nZala, county\t12\n"), "Pest county,5 Zala county,12")
        self.assertEqual(self.states("A\t12,361\nB\t13,000\nC, county\t950\n", "--thousands", "comma"), "A,12361 B,13000 C county,950")

    def test_marks_in_doubt(self) -> None:
        words = "the fields may be parted by commas or by semicolons: say which with --delimiter comma or --delimiter semicolon\n"
        self.assert_stops("1;A,5\n2;B,12\n", words)
        self.assert_stops("A;12,361\nC, county;950\n", words)
        self.assert_stops("A;973,668\nB;;242,236\n", words)
        self.assert_stops(
            "1;A\t5\n2;B\t12\n",
            "the fields may be parted by semicolons or by tabs: say which with --delimiter semicolon or ",
        )
        self.assertEqual(self.states("A;x,5\nB;y,12\n", "--delimiter", "comma"), "A;x,5 B;y,12")
        self.assert_stops("A,5\nB,6\n", "no column holds whole numbers beside names\n", "--delimiter", "tab")

    def test_fields_that_do_not_match(self) -> None:
        words = "row 2: 4 fields parted by commas, where row 1 has 3: put a name or number that holds a comma in quotes, or "
        self.assert_stops("A,973,668\nB,1,242,236\nC,100,236\n", words)
        self.assert_stops("A,5\nB,1,242\n", "row 2: 3 fields parted by commas, where row 1 has 2: ", "--delimiter", "comma")
        # That the last row alone could be parted by semicolons does not make it the mark.
        self.assert_stops("A,1,407,470\nB,242,236\nC;100,236\n", "row 2: 3 fields parted by commas, where row 1 has 4: ")
        # Excel at times leaves marks out before empty cells at the end of a row.
        self.assertEqual(self.states("A,5,,\nB,12\nC,8,\n"), "A,5 B,12 C,8")
        self.assertEqual(self.states("County,Count,Note\nA,5,new\nB,12,\nC,8,\n"), "A,5 B,12 C,8")

    def test_a_line_that_names_the_mark(self) -> None:
        self.assertEqual(self.states("sep=;\r\nA;5\r\nB;12\r\n"), "A,5 B,12")
        self.assertEqual(self.states("sep=\t\nA\t5\nB\t12\n"), "A,5 B,12")
        self.assertEqual(self.states('\ufeff"SEP=,"\nA;x,5\nB;y,12\n'), "A;x,5 B;y,12")
        self.assert_stops("sep=|\nA|5\n", 'row 1: "sep=|" names a mark that is not read here: ')
        self.assert_stops("sep=;\nA;5\nB;x\nC;7\n", 'row 3, column B: "x" is no whole number')


class Columns(Making):
    def test_found(self) -> None:
        self.assertEqual(self.states("5,A\n12,B\n"), "A,5 B,12")
        self.assertEqual(self.states("A,Eger,5\nB,Pest,12\n"), "A,5 B,12")
        self.assertEqual(self.states(",A,,5,,\n,B,,12,,\n"), "A,5 B,12")
        self.assertEqual(self.states("Note,County,Count\n,A,5\n,B,12\n"), "A,5 B,12")
        _, _, told = self.make("County,Town,Count,Note\nA,Eger,5,x\nB,Pest,12,y\n")
        self.assert_words(told, 'counties.csv: names from column A "County", populations from column C "Count"; left out columns B, D\n')

    def test_several_columns_of_numbers(self) -> None:
        numbered = "No,County,Count\n1,A,5\n2,B,12\n3,C,8\n4,D,9\n"
        words = 'several columns hold numbers: A "No" ("1", "2", "3", ...); C "Count" ("5", "12", "8", ...). '
        self.assert_stops(numbered, words + "Say which one has the populations: --population-column A or --population-column C\n")
        for wanted in ("C", "c", "3", "Count", " count "):
            self.assertEqual(self.states(numbered, "--population-column", wanted), "A,5 B,12 C,8 D,9", wanted)
        # The populations may be the ones that are damaged or not whole, and the whole numbers something else.
        for damaged in ("5.5", "1.2E+06", "12%", "-5"):
            self.assert_stops(f"A,{damaged},93\nB,{damaged},525\n", "several columns hold numbers: B ")
        self.assert_stops("A,5,93\nB,12*,525\n", "several columns hold numbers: B ")
        self.assert_stops("A,5,93\nB,12*,525\n", 'row 2, column B: "12*" is no whole number', "--population-column", "B")

    def test_columns_asked_for(self) -> None:
        self.assertEqual(self.states("A,Eger,5\nB,Pest,12\n", "--name-column", "B"), "Eger,5 Pest,12")
        self.assertEqual(self.states("1,5\n2,12\n", "--name-column", "A"), "1,5 2,12")
        self.assertEqual(self.states("X,2011,2021\nA,5,6\nB,12,14\n", "--population-column", "2021", "--rows", "2-"), "A,6 B,14")
        self.assert_stops(
            "A,5\nB,12\n",
            "column B cannot hold both the names and the populations\n",
            "--name-column",
            "B",
            "--population-column",
            "2",
        )
        words = '--population-column people: no column is called so; there are A "County" ("A", "B"); B "Count" ("5", "12")\n'
        self.assert_stops("County,Count\nA,5\nB,12\n", words, "--population-column", "people")
        words = "--population-column B: several columns are called so; there are A "
        self.assert_stops("B,A\n5,X\n12,Y\n", words, "--population-column", "B")
        self.assert_stops("C,Count,Count\nA,5,6\nB,12,14\n", "--population-column Count: several columns ", "--population-column", "Count")
        self.assert_stops("A,x,5\nB,y,12\n", "column B: no number stands in this column\n", "--population-column", "B")

    def test_numbers_for_names(self) -> None:
        self.assert_stops("5,6\n12,14\n", "no column holds names beside the numbers: ...--name-column", "--population-column", "A")
        words = 'row 2, column A: "1" is a number and no name: leave the row out with --rows ..., or give --name-column A if it names '
        self.assert_stops("County,Count\n1,2\nA,5\nB,12\n", words, "--population-column", "B")
        self.assertEqual(self.states("County,Count\n1,2\nA,5\nB,12\n", "--name-column", "A"), "1,2 A,5 B,12")


class Numbers(Making):
    def test_thousands_marks(self) -> None:
        for mark in (",", ".", " ", NBSP, NARROW, "'", "’", "_"):
            text = f"A;1{mark}407{mark}470\nB;12{mark}345\nC;999\n"
            self.assertEqual(self.states(text), "A,1407470 B,12345 C,999", repr(mark))
        self.assertEqual(self.states(f"A;{NBSP}5 \nB; 12\n"), "A,5 B,12")

    def test_marks_that_are_not_well_formed(self) -> None:
        for cell in "12.5|1,40,747|1407,470|1,407.470|1,4070|0.123|0,123|1,,407|1.407.47|1 407  470|1407470.00|012,345".split("|"):
            self.assert_stops(f"A;5\nB;{cell}\nC;8\n", f'row 2, column B: "{cell}" is no whole number: ...if these are decimals, ')

    def test_one_mark_in_the_whole_column(self) -> None:
        words = 'row 2, column B: "{}" has not the same thousands marks as "{}" in row 1: show the whole column alike and export again\n'
        for pair in ("1,407,470 242.236", "1,407,470 242236", "1407470 242,236", f"1{NBSP}407 1_407", "1,407 1000"):
            first, second = pair.split(" ")
            self.assert_stops(f"A;{first}\nB;{second}\nC;8\n", words.format(second, first.replace(NBSP, "<U+00A0>")))
        self.assertEqual(self.states("A;1,000\nB;999\nC;8\n", "--thousands", "comma"), "A,1000 B,999 C,8")

    def test_marks_that_decimals_have_too(self) -> None:
        for word, mark in spreadsheet.DECIMALS.items():
            words = f'row 2, column B: "1{mark}407" may be 1407 with a thousands mark, or have decimals, and no number has two marks to tell by: '
            text = f"A\t8\nB\t1{mark}407\nC\t2{mark}500\n"
            self.assert_stops(text, f"{words}give --thousands {word} if it is the former\n")
            self.assertEqual(self.states(text, "--thousands", word), "A,8 B,1407 C,2500")
            other = "dot" if word == "comma" else "comma"
            self.assert_stops(text, f"{words}give --thousands {word} ", "--thousands", other)
            # Two marks in one number, be it the total, are no decimals.
            self.assertEqual(self.states(f"A\t1{mark}407{mark}470\nB\t2{mark}500\n"), "A,1407470 B,2500")
            self.assertEqual(self.states(f"A\t700{mark}000\nB\t600{mark}000\nTotal\t1{mark}300{mark}000\n"), "A,700000 B,600000")
        for mark in (NBSP, "'", "_"):
            self.assertEqual(self.states(f"A\t1{mark}407\nB\t2{mark}500\n"), "A,1407 B,2500")

    def test_what_is_no_whole_number(self) -> None:
        for cell, words in (
            ("1.2E+06", "the spreadsheet has shortened it; show the column as whole numbers"),
            ("12e5", "the spreadsheet has shortened it; "),
            ("-5", "a population has no sign; mend the number, or take another column"),
            ("−5", "a population has no sign"),
            ("+5", "a population has no sign"),
            ("12%", "a share is no population; take another column"),
            ("12 %", "a share is no population"),
            ("#REF!", "it is the spreadsheet's own error; mend it there, or make the column wider"),
            ("#####", "it is the spreadsheet's own error; "),
            ("Err:502", "it is the spreadsheet's own error; "),
            ("１２", "only the digits 0 to 9 are read, "),
            ("٥", "only the digits 0 to 9 are read, "),
            ("12¹", "only the digits 0 to 9 are read, no raised ones "),
            ("12345*", "only digits and thousands marks are read; take out letters, units and footnote marks"),
            ("12345 a)", "only digits and thousands marks are read; "),
            ("1200 fő", "only digits and thousands marks are read; "),
            ("n/a", "only digits and thousands marks are read; "),
            ("-", "only digits and thousands marks are read; "),
            ("–", "only digits and thousands marks are read; "),
            ("=12", "only digits and thousands marks are read; "),
            ("'12", "only digits and thousands marks are read; "),
        ):
            # In the middle, first without and below a heading, and last.
            self.assert_stops(f"A;5\nB;{cell}\nC;8\n", f'row 2, column B: "{cell}" is no whole number: {words}')
            self.assert_stops(f"County;Count\nA;{cell}\nC;8\nD;9\n", f'row 2, column B: "{cell}" is no whole number: ')
            self.assert_stops(f"A;5\nB;8\nC;{cell}\n", f'row 3, column B: "{cell}" is no whole number: ')
            self.assert_stops(f"A;{cell}\nB;12\nC;8\n", f'row 1, column B: "{cell}" is no whole number: ')

    def test_a_missing_number(self) -> None:
        words = "row {}, column B: the cell is empty: a state needs a whole number there"
        self.assert_stops("County,Count\nA,5\nB,\nC,8\n", words.format(3) + "\n")
        self.assert_stops("County,Count\nA,\nB,12\nC,8\n", words.format(2) + ". If the row is a title or a heading, give --rows 3-\n")
        self.assert_stops("A,\nB,12\nC,8\n", words.format(1) + ". If the row is a title or a heading, give --rows 2-\n")
        self.assert_stops("County,Count\nA,5\nB,12\nC,\n", words.format(4) + ". If the row is a note, give --rows 2-3\n")
        self.assert_stops("County,Count\nA,5\nB,12\nC\n", words.format(4))

    def test_leading_zeros(self) -> None:
        status, out, told = self.make("A,005\nB,0012\nC,30\n")
        self.assertEqual(bare(out), "A,5 B,12 C,30")
        self.assert_words(told, 'leading zeros were taken off: "005" is read as 5, "0012" is read as 12\n')

    def test_limits(self) -> None:
        words = 'row 2, column B: "{}": a population is from 1 to 4,294,967,295\n'
        for cell in ("0", "000", "4294967296", "99999999999", "9" * 40, "4,294,967,296"):
            self.assert_stops(f"A;5\nB;{cell}\n", words.format(cell))
        self.assert_stops(f"A;5\nB;{'9' * 5000}\n", f'row 2, column B: "{"9" * 40}...": a population is from 1 to ')
        self.assertEqual(self.states("A,1\nB,4294967294\n"), "A,1 B,4294967294")
        self.assertEqual(self.states("A;4,294,967,295\n"), "A,4294967295")
        words = 'row 3: with the 2 of "C" the sum is 4,294,967,296, and the desk goes up to 4,294,967,295\n'
        self.assert_stops("A,4294967290\nB,4\nC,2\nD,7\n", words)

    def test_eight_hundred_states(self) -> None:
        text = "".join(f"S{place},{7 + place % 5}\n" for place in range(801))
        self.assert_stops(text, 'row 801: "S800" is one state too many: a register has at most 800, and here are 801\n')
        status, out, _ = self.make(text[: text.index("S800")], house="30000")
        self.assertEqual((status, len(desk.read(out.encode()).names)), (0, 800))


class Rows(Making):
    """Titles, headings, blank rows, notes."""

    def test_left_out_and_said(self) -> None:
        text = "Counties of 2010,\n,\nCounty,Count\nA,5\n,\n,,\nB,12\nTotal,17\n,\nSource: the census,\nNote 1,first of June\n"
        status, out, told = self.make(text)
        self.assertEqual(bare(out), "A,5 B,12")
        self.assert_words(
            told,
            'counties.csv: left out rows 1, 3, "Counties of 2010", "County", "Count": a title or the heading\n'
            'counties.csv: left out row 8, "Total", "17": a total, equal to the sum of the rows above\n'
            'counties.csv: left out rows 10, 11, "Source: the census", "Note 1", "first of June": below the total, without a number\n'
            "counties.csv: left out 4 blank rows\n",
        )
        status, out, told = self.make("A,5,\n,,x\n\nB,12,\n")
        self.assertEqual(bare(out), "A,5 B,12")
        self.assert_words(told, 'left out row 2, "x": neither a name nor a number\ncounties.csv: left out 1 blank row\n')

    def test_one_state(self) -> None:
        self.assert_words(self.make("A,1\n")[2], "standard output: 1 state, 1 inhabitant, leximin, a house of 30\n")

    def test_nothing_to_say(self) -> None:
        status, out, told = self.make("A,5\nB,12\n")
        read = "counties.csv: read as UTF-8, parted by commas\ncounties.csv: names from column A, populations from column B\n"
        self.assertEqual(told, read + "standard output: 2 states, 17 inhabitants, leximin, a house of 30\n")
        self.assertEqual(out, "register,leximin,30,2\nA,5\nB,12\ntotal,17\n")

    def test_a_heading_that_may_be_a_state(self) -> None:
        self.assertEqual(self.states("County,Inhabitants of 2010\nA,5\nB,12\n"), "A,5 B,12")
        self.assertEqual(self.states("County,Count\n,persons\nA,5\nB,12\n"), "A,5 B,12")
        self.assert_stops("County,Count\nA,some\nB,12\nC,9\n", 'row 2, column B: "some" is no whole number: ')
        self.assertEqual(self.states("County,1 October 2011\nA,5\nB,12\n"), "A,5 B,12")
        self.assertEqual(self.states("County,Népesség 2011.10.01.\nA,5\nB,12\n"), "A,5 B,12")
        for cell in ("n.a.", "N/A", "NaN", "?", "--", "x", "1407470 people", "1,407 people", "950 people"):
            self.assert_stops(f'A,"{cell}"\nB,12\nC,9\n', f'row 1, column B: "{cell}" is no whole number: ...give --rows 2-\n')

    def test_a_year_that_may_be_a_population(self) -> None:
        words = 'row 1, column B: "2021" may be a year in a heading, or a population: give --rows 2- if it is a year, --rows 1- if it is a '
        self.assert_stops('County,2021\nA,"3,005"\nB,"5,012"\n', words + "population\n")
        self.assertEqual(self.states("County,2021\nA,5\nB,12\n", "--rows", "2-"), "A,5 B,12")
        self.assertEqual(self.states("County,2021\nA,500\nB,1200\n", "--rows", "1-"), "County,2021 A,500 B,1200")
        self.assertEqual(self.states('A,"2,021"\nB,"5,012"\n', "--thousands", "comma"), "A,2021 B,5012")
        self.assertEqual(self.states("A,1799\nB,2021\nC,2000\n"), "A,1799 B,2021 C,2000")

    def test_rows_asked_for(self) -> None:
        text = "Title, with a comma, or two\nCounty,Count\nA,5\nB,12\nC,17\nnote,1,2,3\n"
        status, out, told = self.make(text, "--rows", "3-4")
        self.assertEqual(bare(out), "A,5 B,12")
        self.assert_words(
            told,
            'left out rows 1, 2, 5, 6, "Title", "with a comma", "County", "Count", "C", "17", "note", "1": not among the rows asked for\n',
        )
        self.assertEqual(self.states(text, "--rows", "3-5", "--total-row", "yes"), "A,5 B,12")
        self.assert_stops(text, 'row 2, column B: "Count" is no whole number: ', "--rows", "2-5", "--total-row", "no")
        self.assert_stops("A,5\nB,12\n", "no row has a name and a number ", "--rows", "9-12")

    def test_a_number_without_a_name(self) -> None:
        words = 'row 2, column B: "12" stands there without a name: fill the name in, or leave the row out with --rows FIRST-LAST\n'
        self.assert_stops("A,5\n,12\nC,8\n", words)
        self.assert_stops("A,5\nB,12\n,18\n", 'row 3, column B: "18" stands there without a name: ')


class Totals(Making):
    def test_words_for_totals(self) -> None:
        for word in (
            "Total|TOTALS|Total:|Sum|Grand total|All|Összesen|ÖSSZESEN:|Mindösszesen|Ország összesen|Gesamt|Insgesamt|Summe|Totale|Somme|"
            "Suma|Celkem|Razem|Ogółem|Ukupno|Skupaj|Spolu|Total general|Totaal|Totalt|I alt|Summa|Yhteensä|Toplam|Итого|Σύνολο|"
            "Total (20 counties)"
        ).split("|"):
            self.assertEqual(self.states(f"A,5\nB,12\n{word},17\n"), "A,5 B,12", word)
            self.assert_stops(
                f"A,5\nB,12\n{word},19\n",
                f'row 3, column B: "{word}" is 19, but the rows above add up to 17, a difference of 2: '
                "mend the number at fault, or give --total-row no if it is a state\n",
            )
        for word in ("Totalia", "Allerton", "Sumy", "All Saints", "Gesamtstadt"):
            self.assertEqual(self.states(f"A,50\nB,12\n{word},17\n"), f"A,50 B,12 {word},17")

    def test_a_total_without_a_name(self) -> None:
        status, out, told = self.make("A,5\nB,12\n,17\n")
        self.assertEqual(bare(out), "A,5 B,12")
        self.assert_words(
            told,
            'column B\ncounties.csv: left out row 3, "17": a total, equal to the sum of the rows above\nstandard output: ',
        )
        self.assertEqual(self.states("A,5\n,5\n"), "A,5")

    def test_a_sum_that_is_not_called_a_total(self) -> None:
        words = (
            'row 3, column B: "Hungary" has 17, and all other rows together have 17: '
            "give --total-row yes if it is a total, --total-row no if it is a state\n"
        )
        self.assert_stops("A,5\nB,12\nHungary,17\n", words)
        self.assertEqual(self.states("A,5\nB,12\nHungary,17\n", "--total-row", "yes"), "A,5 B,12")
        self.assertEqual(self.states("A,5\nB,12\nHungary,17\n", "--total-row", "no"), "A,5 B,12 Hungary,17")
        # Two states may be of one size.
        self.assertEqual(self.states("A,5\nB,5\n"), "A,5 B,5")

    def test_a_total_asked_for_must_be_the_sum(self) -> None:
        self.assert_stops(
            "A,5\nB,12\nC,18\n",
            'row 3, column B: "C" is 18, but the rows above add up to 17, a difference of 1: ',
            "--total-row",
            "yes",
        )
        self.assertEqual(self.states("A,5\nB,12\nTotal,19\n", "--total-row", "no"), "A,5 B,12 Total,19")

    def test_a_total_elsewhere(self) -> None:
        words = 'row 2, column A: "Total" is called a total, and rows with numbers stand below it: '
        self.assert_stops("A,5\nTotal,5\nB,12\n", words)
        self.assertEqual(self.states("A,5\nTotal,5\nB,12\n", "--total-row", "no"), "A,5 Total,5 B,12")
        words = 'row 1, column B: "Hungary" has 17, and all other rows together have 17: leave it out of the table if it is a total, or '
        self.assert_stops("Hungary,17\nA,5\nB,12\n", words)

    def test_nearly_the_sum(self) -> None:
        five = "A,500\nB,300\nC,900\nD,700\nE,600\n"
        words = 'row 6, column B: "Hungary" has 3,030, and all other rows together have 3,000: leave it out of the table if it is a total'
        self.assert_stops(five + "Hungary,3030\n", words + ", or give --total-row no if it is a state\n")
        self.assert_stops("Hungary,2970\n" + five, 'row 1, column B: "Hungary" has 2,970, and all other rows together have 3,000: ')
        self.assertEqual(self.states(five + "F,3031\n"), "A,500 B,300 C,900 D,700 E,600 F,3031")
        self.assertEqual(self.states("A,800\nC,900\nD,700\nE,600\nF,3010\n"), "A,800 C,900 D,700 E,600 F,3010")
        self.assertEqual(self.states("A,1000\nB,999\nC,8\n"), "A,1000 B,999 C,8")

    def test_subtotals(self) -> None:
        words = ' are each the sum of the rows next to them: leave subtotals out, or give --total-row no if they are states\n'
        self.assert_stops("A,5\nB,12\nWest,17\nC,8\nEast,8\n", 'row 3, column B: "West", "East"' + words)
        self.assert_stops("West,17\nA,5\nB,12\nEast,8\nC,8\n", 'row 1, column B: "East", "West"' + words)
        self.assertEqual(self.states("A,5\nB,12\nC,17\nD,9\nE,8\n"), "A,5 B,12 C,17 D,9 E,8")
        self.assertEqual(self.states("A,5\nB,12\nC,17\nD,8\nE,8\n", "--total-row", "no"), "A,5 B,12 C,17 D,8 E,8")
        self.assert_stops(
            "A,5\nB,12\nWest,17\nC,8\nEast,8\nTotal,25\n",
            "row 6, column B: ...a difference of 25: are there subtotals among them? ",
        )

    def test_below_the_total(self) -> None:
        self.assert_stops(
            "A,5\nB,12\nTotal,17\nC,9\n",
            'row 3, column A: "Total" is called a total, and rows with numbers stand below it: ',
        )
        for cell in ("9*", "#REF!", "12345 people"):
            self.assert_stops(f"A,5\nB,12\nTotal,17\nC,{cell}\n", f'row 4, column B: "{cell}" is no whole number: ...give --rows 1-3\n')
        self.assert_stops("A,5\nB,12\nTotal,\n", "row 3, column B: the cell is empty: ")


class Names(Making):
    def test_plain_forms(self) -> None:
        for written, plain in (
            ("Győr-Moson-Sopron", "Gyor-Moson-Sopron"),
            ("Straße", "Strasse"),
            ("Łódź", "Lodz"),
            ("Đakovo", "Dakovo"),
            ("Tromsø", "Tromso"),
            ("Ærø", "AEro"),
            ("Œuvre", "OEuvre"),
            ("Iğdır", "Igdir"),
            ("Þingvellir", "Thingvellir"),
            ("Dalvík við", "Dalvik vid"),
            ("İzmir", "Izmir"),
            ("Côte d’Or", "Cote d'Or"),
            ("„Nagy” Pest", '"Nagy" Pest'),
            ("Bács–Kiskun", "Bacs-Kiskun"),
            ("A—B", "A-B"),
            ("O´Brien", "O'Brien"),
            ("e\u0301l", "el"),
            ("ﬁ", "fi"),
            ("Ｐest", "Pest"),
            ('"Washington, D.C."', "Washington D.C."),
            ('"Pest,Buda"', "Pest Buda"),
        ):
            status, out, told = self.make(f"{written};5\nB;12\n")
            self.assertEqual(bare(out), f"{plain},5 B,12", told)
            written = written.strip('"')
            self.assertIn(f"counties.csv: {written} is written {plain}\n", told)

    def test_signs_that_stay(self) -> None:
        for name in ("St. John's", "A & B", "Pest?", "A/B (new)", "total", "1st district", "~#%{}|"):
            if name != "total":
                self.assertEqual(self.states(f"{name};5\nB;12\n"), f"{name},5 B,12")
        self.assertEqual(self.states('"a ""b"" c",5\nB,12\n'), 'a "b" c,5 B,12')

    def test_blanks(self) -> None:
        status, out, told = self.make(f" A ;5\nB{NBSP}{NBSP}c;12\nD;8\nE  f;9\n")
        self.assertEqual(bare(out), "A,5 B c,12 D,8 E f,9")
        self.assert_words(told, "blanks around or within names were put right: rows 1, 2, 4\n")
        self.assertNotIn("is written", told)

    def test_long_names(self) -> None:
        long = "Királyság és nagyfejedelemség és még"
        status, out, told = self.make(f"{long},5\n{'x' * 31} yz,12\n{'z' * 32},8\n")
        self.assertEqual(bare(out), f"Kiralysag es nagyfejedelemseg es,5 {'x' * 31},12 {'z' * 32},8")
        self.assert_words(told, "names were cut to 32 letters: rows 1, 2\n")
        self.assert_words(told, f"{long} is written Kiralysag es nagyfejedelemseg es, ")

    def test_ten_examples(self) -> None:
        for letters, end in (("ABCDEFGHIJ", ""), ("ABCDEFGHIJK", " and 1 more"), ("ABCDEFGHIJKLM", " and 3 more")):
            text = "".join(f"{letter}é,{7 + place % 3}\n" for place, letter in enumerate(letters))
            self.assert_words(self.make(text)[2], f"Aé is written Ae, ...Jé is written Je{end}\n")

    def test_no_plain_form(self) -> None:
        for name, odd in zip(("Москва", "Αθήνα", "東京", "Gy\ufffdr", "Pest†", "서울", "Şəki"), "МΑ東\ufffd†\u1109ə"):
            words = f'row 2, column A: "{name}": "{odd}" has no plain form, and a register has plain letters, digits and signs only\n'
            self.assert_stops(f"A,5\n{name},12\n", words)

    def test_control_characters(self) -> None:
        for odd in "\x07\t\n\x7f\x85\u200b\u200e":
            words = f'row 2, column A: "Pe<U+{ord(odd):04X}>st": "<U+{ord(odd):04X}>" is a control character, '
            self.assert_stops(f'A,5\n"Pe{odd}st",12\n', words)

    def test_no_name_left(self) -> None:
        self.assert_stops('A,5\n",",12\nC,8\n', 'row 2, column A: "," leaves nothing for a name\n')

    def test_a_name_twice(self) -> None:
        words = 'row 3, column A: "{}" and "{}" in row 1 are both written "{}": a register needs different names\n'
        self.assert_stops("Győr,5\nB,12\nGyor,8\n", words.format("Gyor", "Győr", "Gyor"))
        self.assert_stops("A,5\nB,12\nA ,8\n", words.format("A", "A", "A"))
        same = "x" * 32
        self.assert_stops(f"{same}1,5\nB,12\n{same}2,8\n", words.format(same + "2", same + "1", same))
        self.assertEqual(self.states("Pest,5\nPEST,12\n"), "Pest,5 PEST,12")

    def test_letters_that_may_be_lost(self) -> None:
        self.assert_words(
            self.make("A,5\nGy?r,12\n")[2],
            "a question mark may stand for a letter that the export has lost: Gy?r in row 2\n",
        )


class Files(Making):
    text = "Győr,5\nB,12\n"

    def test_register_and_names(self) -> None:
        status, out, told = self.make(self.text, "-o", "x.register")
        self.assertEqual((status, out), (0, ""))
        self.assertEqual(Path("x.register").read_bytes(), b"register,leximin,30,2\nGyor,5\nB,12\ntotal,17\n")
        self.assertEqual(Path("x.names").read_bytes(), "Gyor,Győr\nB,B\n".encode())
        self.assert_words(
            told,
            "\nx.names: the names as the spreadsheet has them, which the other commands put back\nx.register: 2 states, ",
        )
        self.assertEqual(sorted(os.listdir()), ["counties.csv", "x.names", "x.register"])

    def test_names_elsewhere(self) -> None:
        self.make(self.text, "-o", "x.register", "--names", "y.csv")
        self.assertEqual(sorted(os.listdir()), ["counties.csv", "x.register", "y.csv"])
        os.remove("y.csv")
        status, out, told = self.make(self.text, "--names", "y.csv")
        self.assertEqual(bare(out), "Gyor,5 B,12")
        self.assertEqual(Path("y.csv").read_bytes(), "Gyor,Győr\nB,B\n".encode())

    def test_no_name_changed(self) -> None:
        self.make("A,5\nB,12\n", "-o", "x.register")
        self.assertEqual(sorted(os.listdir()), ["counties.csv", "x.register"])
        self.make("A,5\nB,12\n", "--names", "y.csv")
        self.assertEqual(Path("y.csv").read_bytes(), b"A,A\nB,B\n")
        self.make(self.text, "-o", "x.register")
        _, _, told = self.make("Gyor,5\nB,12\n", "-o", "x.register")
        self.assert_words(told, "warning: x.names is from an earlier time; no name was changed now, so take it away\n")

    def test_standard_output(self) -> None:
        for options in ((), ("-o", "-")):
            status, out, told = self.make(self.text, *options)
            self.assertEqual(bare(out), "Gyor,5 B,12")
            self.assert_words(told, "the names as the spreadsheet has them are kept with -o or --names\nstandard output: 2 states, ")
            self.assertEqual(os.listdir(), ["counties.csv"])

    def test_never_its_own_input(self) -> None:
        Path("counties.csv").write_text(self.text, encoding="utf-8")
        os.link("counties.csv", "same.register")
        os.symlink("counties.csv", "link.register")
        for path in ("counties.csv", "./counties.csv", "same.register", "link.register"):
            for options in (("-o", path), ("--names", path)):
                status, out, told = self.run_make("counties.csv", *options)
                self.assertEqual((status, out, told), (2, "", f"{path}: that is the file to be read: name another one to write\n"))
        with open("counties.csv", encoding="utf-8") as file, mock.patch("sys.stdin", file):
            status, out, told = self.run_make("-", "-o", "counties.csv")
        self.assertEqual((status, told), (2, "counties.csv: that is the file to be read: name another one to write\n"))
        self.assertEqual(Path("counties.csv").read_text(encoding="utf-8"), self.text)

    def test_register_and_names_apart(self) -> None:
        status, _, told = self.make(self.text, "-o", "x.names")
        self.assertEqual((status, os.listdir()), (2, ["counties.csv"]))
        self.assert_words(told, "x.names: register and names cannot go to the same file: name another one with --names\n")

    def test_a_fault_leaves_what_was_there(self) -> None:
        Path("x.register").write_bytes(b"before")
        self.make("A,5\nB,x\nC,8\n", "-o", "x.register")
        self.assertEqual(Path("x.register").read_bytes(), b"before")
        for fault in ("office.names.write_names", "os.replace"):
            with mock.patch(fault, side_effect=OSError(28, "No space left on device")):
                status, out, told = self.make(self.text, "-o", "x.register")
            self.assertEqual((status, out), (2, ""))
            self.assert_words(told, "cannot be written: No space left on device\n")
            self.assertEqual(Path("x.register").read_bytes(), b"before")
            self.assertEqual(sorted(os.listdir()), ["counties.csv", "x.register"])
        with mock.patch("os.access", return_value=False):
            status, _, told = self.make("A,5\nB,12\n", "-o", "x.register")
        self.assertEqual((status, told), (2, "x.register: cannot be written: it is write-protected\n"))
        self.assertEqual(Path("x.register").read_bytes(), b"before")
        status, _, told = self.make(self.text, "-o", "nowhere/x.register")
        self.assertEqual((status, told), (2, "nowhere/x.register: cannot be written: No such file or directory\n"))

    def test_written_again(self) -> None:
        Path("kept.register").write_bytes(b"before")
        os.chmod("kept.register", 0o640)
        os.symlink("kept.register", "x.register")
        self.assertEqual(self.make("A,5\nB,12\n", "-o", "x.register")[0], 0)
        self.assertTrue(os.path.islink("x.register"))
        self.assertEqual(Path("kept.register").read_bytes(), b"register,leximin,30,2\nA,5\nB,12\ntotal,17\n")
        self.assertEqual(os.stat("kept.register").st_mode & 0o777, 0o640)
        self.assertEqual(self.make("A,5\nB,12\n", "-o", os.devnull)[0], 0)
        self.assertFalse(os.path.isfile(os.devnull))


class Desk(Making):
    """What the proved desk is asked before anything is written."""

    def test_methods_and_houses(self) -> None:
        for method in desk.METHODS:
            status, out, told = self.make("A,5\nB,12\n", method=method.word, house="30000")
            self.assertEqual((status, desk.read(out.encode())), (0, desk.Register(method, 30000, 17, ("A", "B"), (5, 12))))
            self.assertNotIn("warning", told)
        self.assertEqual(self.make("A,5\n", house="1")[:2], (0, "register,leximin,1,1\nA,5\ntotal,5\n"))

    def test_fewer_seats_than_states(self) -> None:
        for method in desk.METHODS:
            status, out, told = self.make("A,5\nB,12\nC,8\n", method=method.word, house="2")
            self.assertEqual((status, bare(out)), (0, "A,5 B,12 C,8"))
            warned = "warning: the desk will refuse 15: the house has fewer seats than there are states" in told
            self.assertEqual(warned, method.word in ("leximin", "adams", "dean", "hill"))
            self.assertEqual("2 seats for 3 states" in told, warned)

    def test_houses_that_are_none(self) -> None:
        for house in ("0", "30001", "-5", "1e2", "1_000", "１２", "", "9" * 5000):
            with self.assertRaises(SystemExit) as stopped, contextlib.redirect_stderr(io.StringIO()) as told:
                self.make("A,5\nB,12\n", f"--house={house}")
            self.assertEqual(stopped.exception.code, 2)
            self.assertIn("a house has 1 to 30,000 seats", told.getvalue())

    def test_rows_that_are_none(self) -> None:
        for rows in ("0-5", "5-4", "5", "-5", "a-b", "1-2-3", "１-２"):
            with self.assertRaises(SystemExit), contextlib.redirect_stderr(io.StringIO()) as told:
                self.make("A,5\nB,12\n", f"--rows={rows}")
            self.assertIn("rows are counted from 1, as in 4-23 or 4-", told.getvalue())

    def test_a_register_that_the_desk_does_not_take(self) -> None:
        told = "a fault of office make, nothing was written: the desk "
        for wrong in ("leximin,30,2\nA,5\n", "leximin,30,1\nA,5\ntotal,5\n", "adams,30,2\nA,5\nB,12\ntotal,17\n"):
            with mock.patch("desk.register_text", return_value=f"register,{wrong}".encode()), self.assertRaisesRegex(RuntimeError, told):
                self.make("A,5\nB,12\n", "-o", "x.register")
            self.assertEqual(os.listdir(), ["counties.csv"])


class EveryForm(Making):
    """The same table in every form gives the same register."""

    def test_forms(self) -> None:
        chance = random.Random(21)
        names = ["Győr", "Bács-Kiskun", "Fejér, county", 'The "old" town', "O’Brien", "Pest", "Łódź", "12th district"]
        for mark, thousands, end, encoding, heading, total in itertools.product(
            ",;\t", ("", ",", ".", NBSP, "'"), ("\n", "\r\n", "\r"), ("utf-8", "utf-8-sig", "utf-16"), (True, False), (True, False)
        ):
            counts = [chance.choice((7, 950, 12_345, 1_407_470)) + chance.randrange(40) for _ in names]
            out = io.StringIO(newline="")
            writer = csv.writer(out, delimiter=mark, lineterminator=end)
            writer.writerows([["County", "Count"]] if heading else [])
            writer.writerows([name, f"{count:,}".replace(",", thousands)] for name, count in zip(names, counts))
            writer.writerows([["Összesen", f"{sum(counts):,}".replace(",", thousands)]] if total else [])
            plain = ["Gyor", "Bacs-Kiskun", "Fejer county", 'The "old" town', "O'Brien", "Pest", "Lodz", "12th district"]
            told_by = [word for word, known in spreadsheet.DECIMALS.items() if known == thousands]
            words = ["--thousands", *told_by] if told_by else []
            status, made, told = self.make(out.getvalue().encode(encoding), "--total-row", "yes" if total else "no", *words)
            self.assertEqual(made, desk.register_text("leximin", 30, plain, counts).decode(), (told, out.getvalue()))

    def test_what_is_made_is_read_whatever_comes(self) -> None:
        """Bytes by chance, made of what exports are made of: a register that the desk takes, or one line that says why not."""
        chance = random.Random(2100)
        parts = [*"AB5é?-%,,;\t\n\n\r \"", "Pest", "Total", "12", "1,407", "999", "0", "\r\n", NBSP, "sep=;", "#REF!"]
        made = 0
        for _ in range(2000):
            text = "".join(chance.choice(parts) for _ in range(chance.randrange(1, 24)))
            status, out, told = self.make(text)
            if status == 0:
                made += 1
                self.assertEqual(desk.clean(out.encode()), out.encode())
            else:
                self.assertEqual((status, out, told.count("\n")), (2, "", 1), (text, told))
        self.assertGreater(made, 50)


class Words(unittest.TestCase):
    def test_letters_of_columns(self) -> None:
        self.assertEqual(
            [spreadsheet.letter(column) for column in (0, 25, 26, 51, 52, 701, 702)],
            ["A", "Z", "AA", "AZ", "BA", "ZZ", "AAA"],
        )

    def test_content(self) -> None:
        self.assertEqual(spreadsheet.quoted("a\nb\u00a0c"), '"a<U+000A>b<U+00A0>c"')
        self.assertEqual(spreadsheet.quoted("x" * 40), f'"{"x" * 40}"')
        self.assertEqual(spreadsheet.quoted("x" * 41), f'"{"x" * 40}..."')

    def test_rows(self) -> None:
        for numbers, words in (([3], "row 3"), ([3, 4], "rows 3, 4"), ([3, 4, 5], "rows 3 to 5"), ([3, 5, 6], "rows 3, 5, 6")):
            self.assertEqual(spreadsheet.rows_named([spreadsheet.Row(number, (), ()) for number in numbers]), words)

    def test_where_a_fault_is(self) -> None:
        self.assertEqual(str(spreadsheet.CannotMake("why", 7, 1, "x.csv")), "x.csv, row 7, column B: why")
        self.assertEqual(str(spreadsheet.CannotMake("why")), "why")


if __name__ == "__main__":
    unittest.main()
