"""Refusals in words: every damaged variant has its own sentence, the number and the line are the library's, and what is said is true."""

from __future__ import annotations

import io
import re
import unittest

import desk
from desk.library import library_path
from office import faults, files
from office.faults_lines import CLOSING_DUE
from office.faults_shown import visible
from office.faults_sums import SEATS_FOR_ALL
from office.faults_text import File

from .places import EXAMPLES, example

FIVE = example("five-states.register")
NO_LIBRARY = f"left out: {library_path()} is not built, and the number and the line are its to say"
MARK = b"\xef\xbb\xbf"


def put(old: bytes, new: bytes, register: bytes = FIVE) -> bytes:
    """The register with a piece of it exchanged."""
    assert old in register, old
    return register.replace(old, new, 1)


def head(new: str | bytes) -> bytes:
    """The five states under another first line."""
    return put(b"register,leximin,20,5", new if isinstance(new, bytes) else new.encode())


def state(new: str | bytes) -> bytes:
    """The five states with another line 3."""
    return put(b"B,27", new if isinstance(new, bytes) else new.encode())


def closing(new: str | bytes) -> bytes:
    """The five states with another closing line."""
    return put(b"total,201", new if isinstance(new, bytes) else new.encode())


def office_file(*names: bytes) -> bytes:
    """The beginning of a zip archive with files of these names."""
    return b"".join(b"PK\x03\x04\x14\0\0\0\x08\0" + b"\0" * 20 + name for name in names)


# Damaged variants, each with a sentence of its own: what it is, the file, the library's number and line, and a piece of the sentence.
VARIANTS = [
    # files that are something else
    ("no bytes", b"", 2, 1, "The file is empty"),
    ("NUL bytes alone", b"\0" * 500, 2, 1, "NUL bytes and nothing else"),
    ("UTF-16", FIVE.decode().encode("utf-16"), 2, 1, "the mark of UTF-16"),
    ("UTF-16 without its mark", FIVE.decode().encode("utf-16-le"), 2, 1, "looks like UTF-16"),
    ("UTF-32", FIVE.decode().encode("utf-32"), 2, 1, "UTF-32"),
    ("xlsx", office_file(b"[Content_Types].xml", b"xl/workbook.xml"), 2, 1, "(.xlsx)"),
    ("ods", office_file(b"mimetypeapplication/vnd.oasis.opendocument.spreadsheet"), 2, 1, "(.ods)"),
    ("another zip", office_file(b"counties.txt"), 2, 1, "zip archive"),
    ("xls", b"\xd0\xcf\x11\xe0\xa1\xb1\x1a\xe1" + b"\0" * 99, 2, 1, "older Microsoft Office"),
    ("gzip", b"\x1f\x8b\x08\0abc", 2, 1, "gzip"),
    ("PDF", b"%PDF-1.4\n%\xe2\xe3", 2, 1, "PDF"),
    ("a picture", b"\x89PNG\r\n\x1a\n123", 2, 1, "picture"),
    ("RTF", b"{\\rtf1\\ansi register}", 2, 1, "word processor (RTF)"),
    ("HTML", b"<!DOCTYPE html>\n<html>", 2, 1, "web page"),
    ("XML", b"<?xml version='1.0'?>\n<table/>", 2, 1, "XML"),
    ("JSON", b'{"counties": 3}\n', 2, 1, "JSON"),
    ("a listing", example("five-states.listing"), 2, 1, "is a listing"),
    ("a refusal", b"refused,2,4\n", 2, 1, "is a refusal"),
    ("leximin's work", b"work,leximin,14,3\nstart,A,69,3,11.419\n", 2, 1, "leximin's work"),
    # the first line
    ("a byte order mark", MARK + FIVE, 2, 1, "begins with a byte order mark"),
    ("capital Register", head("Register,leximin,20,5"), 2, 1, "small letters"),
    ("a blank before register", b" " + FIVE, 2, 1, 'beside the word "register"'),
    ("register misspelt", head("regsiter,leximin,20,5"), 2, 1, '"regsiter", where the word "register" is due'),
    ("no word register", head("leximin,20,5"), 2, 1, "begins with a method"),
    ("a heading", b"County,Population\nA,26\nB,27\n", 2, 1, "heading of a table"),
    ("no head", b"A,26\nB,27\ntotal,53\n", 2, 1, "looks like a state's line"),
    ("another text", b"Dear colleague\n", 2, 1, "begins with"),
    ("sep=", b"sep=;\nA;26\n", 2, 1, '"sep=;"'),
    ("a note first", b"# made by hand\n" + FIVE, 2, 1, "a note"),
    ("a title first", b"Census of 2010\n" + FIVE, 2, 1, "something else"),
    ("empty lines first", b"\n\n" + FIVE, 2, 1, "begins only on line 3"),
    ("line 1 empty and no head", b"\nA,26\n", 2, 1, "Line 1 is empty, where"),
    ("line 1 of blanks", b"   \nA,26\n", 2, 1, "blanks alone"),
    ("head in quotes", head('"register","leximin","20","5"'), 2, 1, "first word is in quotes"),
    ("head with semicolons", FIVE.replace(b",", b";"), 2, 1, "by semicolons"),
    ("head with tabs", FIVE.replace(b",", b"\t"), 2, 1, "by tabs"),
    ("head with bars", FIVE.replace(b",", b"|"), 2, 1, "by vertical bars"),
    ("head with blanks", head("register leximin 20 5"), 2, 1, "by blanks"),
    ("head with one semicolon", head("register;leximin,20,5"), 2, 1, "a semicolon instead"),
    ("head of one word", head("register"), 2, 1, "alone"),
    ("head of two words", head("register,leximin"), 2, 1, "two are missing"),
    ("house missing", head("register,leximin,5"), 2, 1, "the house is missing"),
    ("count missing", head("register,leximin,20"), 2, 1, "the count of states may be missing"),
    ("house or count missing", b"register,leximin,20\nA,26\n", 2, 1, "the house or the count of states is missing"),
    ("no number but blanks", head("register,leximin,"), 2, 1, "three fields"),
    ("method missing", head("register,20,5"), 2, 1, "two numbers"),
    ("method empty", head("register,,20,5"), 2, 1, "nothing stands between"),
    ("method of blanks", head("register,  ,20,5"), 2, 1, "blanks stand in its place"),
    ("method with a blank in it", head("register,largest remainders,20,5"), 2, 1, "has a blank in it"),
    ("method with a blank beside it", head("register, leximin,20,5"), 2, 1, "A blank stands beside the method"),
    ("method with a tab", head("register,leximin\t,20,5"), 2, 1, "has a tab"),
    ("method with an accent", head("register,leximín,20,5"), 2, 1, "The method on line 1 has letters beyond"),
    ("method too long", head(f"register,{'l' * 33},20,5"), 2, 1, "33 bytes"),
    ("method second", head("register,20,leximin,5"), 2, 1, "another order"),
    ("house with a thousands comma", head("register,leximin,1,000,5"), 2, 1, "comma as a thousands mark"),
    ("house with a point", head("register,leximin,1.000,5"), 2, 1, "The house has a point in it"),
    ("house with blanks", head("register,leximin,1 000,5"), 2, 1, "The house has blanks as thousands marks"),
    ("house after a blank", head("register,leximin, 20,5"), 2, 1, "The house has a blank before"),
    ("house empty", head("register,leximin,,5"), 2, 1, "The house is missing"),
    ("house in letters", head("register,leximin,twenty,5"), 2, 1, "The house is no number"),
    ("house negative", head("register,leximin,-20,5"), 2, 1, "The house is negative"),
    ("count before a blank", head("register,leximin,20,5 "), 2, 1, "The count of states has a blank after"),
    ("count empty", head("register,leximin,20,"), 2, 1, "The count of states is missing: the field"),
    ("commas after the head", head("register,leximin,20,5,,"), 2, 1, "Line 1 ends in 2 commas too many"),
    ("a fifth field", head("register,leximin,20,5,Hungary"), 2, 1, "5 fields"),
    ("two lines run together", put(b"5\nA", b"5A"), 2, 1, "Line 1 and line 2 seem to have run together"),
    ("method with capitals", head("register,Leximin,20,5"), 4, 1, "small letters"),
    ("method in quotes", head('register,"leximin",20,5'), 4, 1, "signs in it or around it"),
    ("method by another name", head("register,Hamilton,20,5"), 4, 1, '"remainders"'),
    ("method misspelt", head("register,leximim,20,5"), 4, 1, "spelt alike"),
    ("method as a number", head("register,0,20,5"), 4, 1, "as a number"),
    ("method unknown", head("register,proportional,20,5"), 4, 1, "is unknown"),
    ("house 0", head("register,leximin,0,5"), 3, 1, "The house is 0"),
    ("house too large", head("register,leximin,30001,5"), 3, 1, "The house is 30,001"),
    ("count 0", head("register,leximin,20,0"), 3, 1, "The count of states is 0"),
    ("count too large", head("register,leximin,20,801"), 3, 1, "The count of states is 801"),
    # the count of states
    ("count too high", head("register,leximin,20,6"), 2, 8, "too high: line 1 counts 6 states, and 5 lines stand between it and"),
    ("count too low", head("register,leximin,20,4"), 2, 6, "too low: line 1 counts 4 states, and 5 lines stand between it and"),
    ("count too low, no closing line", b"register,leximin,20,1\nA,26\nB,27\nC,28\n", 2, 3, "too low, or the closing line is missing"),
    ("a state in place of the closing line", b"register,leximin,20,1\nA,26\nB,27\n", 2, 3, "The last line, of"),
    ("no states", b"register,leximin,20,5\ntotal,201\n", 2, 3, "The states are missing"),
    # where a file ends
    ("head alone", b"register,leximin,20,5\n", 2, 2, "ends after its first line"),
    ("head alone, unended", b"register,leximin,20,5", 2, 1, "ends in line 1"),
    ("cut between lines", b"register,leximin,20,5\nA,26\nB,27\n", 2, 4, "ends too early"),
    ("cut in a line", example("cut-short.register"), 2, 5, "ends in line 5"),
    ("cut in the closing line", FIVE[:-5], 2, 7, "ends in line 7"),
    ("no newline at the end", FIVE[:-1], 2, 7, "nobody can tell"),
    ("closing line missing", FIVE[:-10], 2, 7, "The closing line is missing"),
    # bytes of a line
    ("CR alone at every line's end", FIVE.replace(b"\n", b"\r"), 2, 1, "old Macintosh"),
    ("CR alone once", put(b"26\n", b"26\r"), 2, 2, "A carriage return"),
    ("CR CR LF", FIVE.replace(b"\n", b"\r\r\n"), 2, 1, "CR CR LF"),
    ("NUL bytes in a line", state("B,2\0\x007"), 2, 3, "2 NUL bytes"),
    ("a control character", state("B\x07,27"), 2, 3, "⟨07⟩"),
    ("control-Z for a state", b"register,leximin,20,5\nA,26\n\x1a", 2, 3, "nothing but the sign by which DOS"),
    # fields of a state's line
    ("semicolon", state("B;27"), 2, 3, "a semicolon instead of a comma"),
    ("tab", state("B\t27"), 2, 3, "a tab instead of a comma"),
    ("bar", state("B|27"), 2, 3, "a vertical bar instead of a comma"),
    ("blank", state("B 27"), 2, 3, "a blank before its number"),
    ("colon", state("B: 27"), 2, 3, '":" before its number'),
    ("commas at the end", state("B,27,,,"), 2, 3, "3 commas too many"),
    ("a comma at the end", state("B,27,"), 2, 3, "one comma too many"),
    ("commas alone", state(",,"), 2, 3, "nothing but commas stands where the line of state 2"),
    ("name and commas", state("B,,"), 2, 3, "commas alone stand after"),
    ("name alone", state("B"), 2, 3, "has no comma"),
    ("number alone", state("27"), 2, 3, "a number alone"),
    ("number before name", state("27,B"), 2, 3, "The number stands before the name"),
    ("a running number", state("2,B,27"), 2, 3, "a number of its own"),
    ("a listing's line", state("B,27,3,-10.448,high"), 2, 3, "one of a listing"),
    ("further columns", state("B,27,Pest,yes"), 2, 3, "4 fields, and two are due, the name"),
    ("columns of another kind", state("B,Pest,yes"), 2, 3, "The state's line has 3 fields"),
    ("two states run together", put(b"27\nC", b"27C"), 2, 3, "Two lines seem to have run together"),
    ("a comma in the name", state("B, county of,27"), 2, 3, "a comma inside the name"),
    ("a quoted comma in the name", state('"B, county",27'), 2, 3, "knows no quotes"),
    ("an empty line", put(b"B,27", b"\nB,27"), 2, 3, "An empty line stands where the line of state 2 is due."),
    ("an empty line at the end", b"register,leximin,20,5\nA,26\n\n\n", 2, 3, "and nothing follows it"),
    ("a line of blanks", put(b"B,27", b"   \nB,27"), 2, 3, "only looks empty"),
    ("a note", put(b"B,27", b"# as of 2010\nB,27"), 2, 3, "A note stands"),
    ("a second head", put(b"B,27", b"register,hill,3,2"), 2, 3, "A second head"),
    # names
    ("accents", state("Békés,27"), 2, 3, "letters beyond the plain ones: é⟨C3 A9⟩."),
    ("accents of Latin-2", state("Győr,27".encode("iso8859-2")), 2, 3, "another encoding than UTF-8: ⟨F5⟩ (perhaps õ or ő)"),
    ("no-break blank", state("B\u00a0county,27"), 2, 3, "a blank that is no plain one"),
    ("no-break blank of Latin-1", state(b"B\xa0county,27"), 2, 3, "no-break blank"),
    ("accents apart from letters", state("Be\u0301ke\u0301s,27"), 2, 3, "signs of their own"),
    ("a typographic dash", state("B\u2013C,27"), 2, 3, "word processor"),
    ("encoded twice", state("Békés,27".encode().decode("latin-1")), 2, 3, "encoded twice"),
    ("a lost letter", state("B\ufffdk\ufffds,27"), 2, 3, "lost on conversion"),
    ("another script", state("Београд,27"), 2, 3, "another script"),
    ("a byte order mark in a name", state(MARK + b"B,27"), 2, 3, "stands in the name"),
    ("name empty", state(",27"), 2, 3, "begins with its comma"),
    ("name of blanks", state("  ,27"), 2, 3, "only blanks stand before the comma"),
    ("name too long", state("B" * 33 + ",27"), 2, 3, "The name has 33 bytes"),
    ("blank before the name", state(" B,27"), 2, 3, "A blank stands before the name"),
    ("blank after the name", state("B ,27"), 2, 3, "A blank stands after the name"),
    ("blanks around the name", state(" B ,27"), 2, 3, "A blank stands before and after the name"),
    ("tab in the name", state("\tB,27"), 2, 3, "The name has a tab"),
    # populations
    ("population empty", state("B,"), 2, 3, "The population is missing: the field is empty"),
    ("population of blanks", state("B,  "), 2, 3, "The population is missing: the field has blanks only"),
    ("population in quotes", state('"B","27"'), 2, 3, "The population is in quotes:"),
    ("quoted thousands", state('B,"1,027"'), 2, 3, "in quotes, and has commas"),
    ("thousands by commas", state("B,1,407,470"), 2, 3, "commas as thousands marks"),
    ("thousands by points", state("B,1.407.470"), 2, 3, "points as thousands marks"),
    ("thousands by blanks", state("B,1 407 470"), 2, 3, "The population has blanks as thousands marks"),
    ("thousands by apostrophes", state("B,1'407'470"), 2, 3, " apostrophes as thousands marks"),
    ("thousands by typographic apostrophes", state("B,1\u2019407\u2019470"), 2, 3, "typographic apostrophes"),
    ("thousands by underscores", state("B,1_407_470"), 2, 3, "underscores"),
    ("thousands by no-break blanks", state("B,1\u00a0407\u00a0470"), 2, 3, " no-break blanks as"),
    ("thousands by narrow blanks", state("B,1\u202f407\u202f470"), 2, 3, "narrow no-break blanks"),
    ("thousands by thin blanks", state("B,1\u2009407"), 2, 3, "thin blanks"),
    ("one point", state("B,1.407"), 2, 3, "The population has a point in it"),
    ("a fraction", state("B,27.0"), 2, 3, "may be a fraction"),
    ("a decimal comma", state("B,27,0"), 2, 3, "decimal comma"),
    ("negative", state("B,-27"), 2, 3, "The population is negative"),
    ("a typographic minus", state("B,\u221227"), 2, 3, "dash or minus sign"),
    ("in brackets", state("B,(27)"), 2, 3, "in brackets"),
    ("plus sign", state("B,+27"), 2, 3, "plus sign"),
    ("exponent", state("B,1.41E+06"), 2, 3, "exponent"),
    ("letters for digits", state("B,2O7"), 2, 3, "look like digits"),
    ("a formula", state("B,=SUM(B2:B5)"), 2, 3, "formula"),
    ("an error of a spreadsheet", state("B,#VALUE!"), 2, 3, "cannot show"),
    ("a percentage", state("B,27%"), 2, 3, "percentage"),
    ("not given", state("B,n/a"), 2, 3, "is not given"),
    ("a star after it", state("B,27*"), 2, 3, "after its digits"),
    ("a word before it", state("B,ca. 27"), 2, 3, "before its digits"),
    ("digits of another script", state("B,٢٧"), 2, 3, "digits of another script"),
    ("a hidden sign", state("B,2\u200b7"), 2, 3, "hidden signs"),
    ("an accent in it", state("B,27é"), 2, 3, "signs beyond the plain ones"),
    ("a tab in it", state("B,\t27"), 2, 3, "The population has a tab"),
    ("two numbers", state("B,27/28"), 2, 3, "more than digits"),
    ("a word", state("B,many"), 2, 3, "The population is no number"),
    ("blank before it", state("B, 27"), 2, 3, "The population has a blank before"),
    ("blank after it", state("B,27 "), 2, 3, "The population has a blank after"),
    ("blanks around it", state("B, 27 "), 2, 3, "on both sides"),
    ("eleven digits", state("B,12345678901"), 2, 3, "The population has 11 digits, and ten"),
    ("eleven digits with zeros", state("B,00000000027"), 2, 3, "9 leading zeros"),
    ("population 0", state("B,0"), 3, 3, 'The population of "B" is 0'),
    ("population too large", state("B,4294967296"), 3, 3, 'The population of "B" is 4,294,967,296'),
    ("a name twice", example("name-twice.register"), 5, 5, '"B" was used on line 3 already, with 27 as population there and 29 here'),
    ("a line twice", put(b"D,29", b"B,27"), 5, 5, "is there twice with the same population, on line 3 and on line 5"),
    ("sum too large", put(b"A,26", b"A,4294967200"), 6, 6, "add up to 4,294,967,375, and 4,294,967,295 is the most; the largest is"),
    # the closing line
    ("Total", closing("Total,201"), 2, 7, '"Total", and that word has to be in small letters'),
    ("Sum", closing("Sum,201"), 2, 7, '"Sum", and the word there has to be "total"'),
    ("total in quotes", closing('"total",201'), 2, 7, "has quotes"),
    ("total and a blank", closing("total ,201"), 2, 7, 'beside the word "total"'),
    ("the country's name", closing("Hungary,201"), 2, 7, 'what the populations add up to, but begins with "Hungary"'),
    ("another word", closing("Hungary 201"), 2, 7, 'The closing line is due here, and begins with "total"'),
    ("total empty", closing("total,"), 2, 7, "The closing total is missing: the field is empty"),
    ("total alone", closing("total"), 2, 7, "The closing total is missing: the line"),
    ("total and a semicolon", closing("total;201"), 2, 7, "The closing line has a semicolon"),
    ("total by commas", closing("total,1,201"), 2, 7, "The closing total has commas as thousands marks"),
    ("total in quotes itself", closing('total,"201"'), 2, 7, "The closing total is in quotes"),
    ("a listing's closing line", closing("total,201,20"), 2, 7, "two numbers, as that of a listing"),
    ("commas after the total", closing("total,201,,,"), 2, 7, "The closing line ends in 3 commas"),
    ("empty line for the closing one", put(b"total", b"\ntotal"), 2, 7, f"An empty line stands {CLOSING_DUE}."),
    ("total 0", closing("total,0"), 3, 7, "The closing total is 0"),
    ("total too large", closing("total,4294967296"), 3, 7, "The closing total is 4,294,967,296"),
    ("total differs", closing("total,213"), 7, 7, "is 213, but the populations add up to 201: the total is higher by 12."),
    ("total lacks a state", closing("total,174"), 7, 7, 'lower by 27. So many has "B" on line 3'),
    ("total has a state twice", closing("total,229"), 7, 7, 'higher by 28. So many has "C" on line 4'),
    ("total twice the sum", closing("total,402"), 7, 7, "twice the sum"),
    ("total cut", closing("total,20"), 7, 7, "digits may be missing at its end"),
    ("total with a digit too many", closing("total,2010"), 7, 7, "digits too many at its end"),
    ("total with another digit", closing("total,207"), 7, 7, "differ in one digit, number 3"),
    ("total with digits exchanged", closing("total,210"), 7, 7, "digits number 2 and 3 may have been exchanged"),
    ("a population with digits exchanged", closing("total,246"), 7, 7, 'It would be right with 72 in place of 27 for "B" on line 3'),
    ("a difference of 9", closing("total,192"), 7, 7, "divided by 9"),
    # after the closing line
    ("an empty last line", FIVE + b"\n", 2, 8, "An empty line follows"),
    ("empty last lines", FIVE + b"\n\r\n\n", 2, 8, "3 empty lines follow"),
    ("blanks at the end", FIVE + b"   ", 2, 8, "Blanks or tabs follow"),
    ("CR at the end", FIVE + b"\r", 2, 8, "Carriage returns follow"),
    ("control-Z at the end", FIVE + b"\x1a", 2, 8, "(control-Z)"),
    ("NUL bytes at the end", FIVE + b"\0" * 7, 2, 8, "NUL bytes follow the closing line, 7"),
    ("commas at the end of the file", FIVE + b",,,\n,,,\n", 2, 8, "nothing but commas follow"),
    ("a second register", FIVE + FIVE, 2, 8, "A second register begins on line 8"),
    ("a second closing line", FIVE + b"total,201\n", 2, 8, "A second closing line"),
    ("a state after the closing line", FIVE + b"F,20\n", 2, 8, "What looks like a state's line follows"),
    ("a note after the closing line", FIVE + b"# source: census\n", 2, 8, "A note follows"),
    ("a source after the closing line", FIVE + b"Source: census 2010, page 4\n", 2, 8, "Something follows"),
    # the whole file
    ("too long", b"a" * 65537, 1, 0, "36,061"),
    ("too long, several registers", FIVE * 1200, 1, 0, "another one begins on line 8"),
    ("too long, empty lines", FIVE + b"\n" * 70000, 1, 0, "go on and on after line 7"),
    ("too long, NUL bytes", b"\0" * 70000, 1, 0, "each is NUL"),
    ("too long, a workbook", office_file(b"xl/workbook.xml") + b"." * 70000, 1, 0, "(.xlsx), and not a register. It also has more bytes"),
    ("fewer seats than states", head("register,leximin,4,5"), 15, 0, "The house has 4 seats and the register 5 states, and leximin"),
]

# Further variants, told in sentences that others have too.
ALIKE = [
    ("UTF-16, the other way round", FIVE.decode().encode("utf-16-be"), 2, 1, "looks like UTF-16"),
    ("a heading with semicolons", b"County;Population\nA;26\nB;27\n", 2, 1, "heading of a table"),
    ("a wrong first word", head("kimutatas,leximin,20,5"), 2, 1, 'where the word "register" is due'),
    ("CR CR LF on line 3", put(b"27\n", b"27\r\r\n"), 2, 3, "CR CR LF"),
    ("control-Z for the closing line", FIVE[:-10] + b"\x1a", 2, 7, "nothing but the sign by which DOS"),
    ("accents of Latin-1", state(b"B\xe9k\xe9s,27"), 2, 3, "⟨E9⟩ (perhaps é)."),
    ("a blank of no width", state("B\u200b,27"), 2, 3, "not shown at all"),
    ("thousands by no-break blanks of Latin-1", state(b"B,1\xa0407"), 2, 3, " no-break blanks as"),
    ("a column too narrow", state("B,#####"), 2, 3, "cannot show"),
    ("a word after it", state("B,27 voters"), 2, 3, "after its digits"),
    ("the total's word in Hungarian", closing("összesen,201"), 2, 7, "ö⟨C3 B6⟩sszesen"),
    ("the total's word in Hungarian, Latin-2", closing("Összesen,201".encode("iso8859-2")), 2, 7, "⟨D6⟩sszesen"),
    ("a colon after the total's word", closing("total:,201"), 2, 7, '"total:"'),
    ("count far too high", head("register,leximin,20,8"), 2, 8, "line 1 counts 8 states, and 5 lines stand"),
    ("count too high, and an empty line", head("register,leximin,20,6") + b"\n", 2, 8, "too high"),
    ("D'Hondt", head("register,d'hondt,20,5"), 4, 1, '"jefferson"'),
]

# Several faults on one line: all of them are told.
TOGETHER = [
    (MARK + FIVE.replace(b",", b";"), 2, 1, ("byte order mark", "by semicolons")),
    (MARK + head("Register,leximin,20,5"), 2, 1, ("byte order mark", "small letters")),
    (head("register,lexi min,1 000,5 "), 2, 1, ("has a blank in it", "the house has blanks", "the count of states has a blank after")),
    (state('Békés,"27"'), 2, 3, ("letters beyond", "in quotes")),
    (state(" B,1.407.470"), 2, 3, ("blank stands before the name", "points as thousands marks")),
    (closing("Total;201"), 2, 7, ("small letters", "a semicolon instead")),
    (closing('"Total","8,034,395"'), 2, 7, ("small letters", "in quotes, and has commas")),
    (put(b",20,5", b",20,6", closing("Total,1 201")), 2, 7, ("too high", "small letters", "blanks as thousands marks")),
    (head("register,leximin,0,801"), 3, 1, ("The house is 0", "the count of states is 801")),
]


def refusal_of(data: bytes) -> tuple[int, int]:
    """The library's answer: the refusal's number and line, 0 and 0 for none."""
    try:
        desk.listing(data[: desk.REGISTER_LIMIT + 1])
    except desk.Refused as refused:
        return refused.number, refused.line
    return 0, 0


def bare(sentence: str) -> str:
    """A sentence without what it has from the file: pieces in quotes, bytes and numbers."""
    return re.sub(r"“[^”]*”|\"[^\"]*\"|\S*⟨[^⟩]*⟩|[0-9][0-9,]*", "_", sentence)


class EachVariant(unittest.TestCase):
    def test_there_are_enough(self) -> None:
        self.assertGreaterEqual(len(VARIANTS), 41)
        names = [variant[0] for variant in VARIANTS + ALIKE]
        self.assertEqual(len(set(names)), len(names))

    @unittest.skipUnless(library_path().exists(), NO_LIBRARY)
    def test_number_and_line_are_the_librarys(self) -> None:
        for name, data, number, line, _ in VARIANTS + ALIKE:
            with self.subTest(name):
                self.assertEqual(refusal_of(data), (number, line))

    def test_each_is_recognised(self) -> None:
        for name, data, number, line, piece in VARIANTS + ALIKE:
            with self.subTest(name):
                fault = faults.fault_of(data[: desk.REGISTER_LIMIT + 1], number, line)
                self.assertIn(piece, fault.wrong)
                self.assertEqual(fault.line, line)
                self.assertNotEqual(fault.wrong, faults.general(number).wrong)
                self.assertRegex(fault.wrong, r"^[A-Z0-9].*\.$")
                self.assertRegex(fault.mend, r"^[A-Z].*\.$")

    def test_each_has_its_own_sentence(self) -> None:
        said: dict[str, str] = {}
        for name, data, number, line, _ in VARIANTS:
            sentence = bare(faults.fault_of(data, number, line).wrong)
            self.assertNotIn(sentence, said, f"{name}, and {said.get(sentence)}")
            said[sentence] = name

    @unittest.skipUnless(library_path().exists(), NO_LIBRARY)
    def test_several_on_one_line(self) -> None:
        for data, number, line, pieces in TOGETHER:
            with self.subTest(pieces=pieces):
                self.assertEqual(refusal_of(data), (number, line))
                wrong = faults.fault_of(data, number, line).wrong
                for piece in pieces:
                    self.assertIn(piece, wrong)

    @unittest.skipUnless(library_path().exists(), NO_LIBRARY)
    def test_a_mended_file_is_read(self) -> None:
        """What the words say to do makes the register whole again."""
        for data, mend in (
            (MARK + FIVE, lambda data: data[3:]),
            (head("register,leximin,20,6"), lambda data: data.replace(b",6", b",5")),
            (head("register,leximin,20,4"), lambda data: data.replace(b",4", b",5")),
            (state("B,27,,,"), lambda data: data.replace(b",,,", b"")),
            (closing("Total,201"), lambda data: data.replace(b"T", b"t")),
            (FIVE[:-1], lambda data: data + b"\n"),
            (FIVE + b"\n\n", lambda data: data[:-2]),
        ):
            self.assertNotEqual(refusal_of(data), (0, 0))
            self.assertEqual(refusal_of(mend(data)), (0, 0))


class WhatIsSaidIsTrue(unittest.TestCase):
    def test_other_lines_with_accents_are_named(self) -> None:
        data = FIVE.replace(b"B,", "Bács,".encode()).replace(b"D,", "Dőr,".encode()).replace(b"E,", "É,".encode())
        fault = faults.fault_of(data, 2, 3)
        self.assertIn("Lines 5 and 6 have such bytes too.", fault.wrong)
        self.assertIn('as in "Bacs"', fault.mend)
        many = b"register,leximin,20,9\n" + b"".join(f"É{n},5\n".encode() for n in range(9)) + b"total,45\n"
        self.assertIn("Lines 3, 4, 5 and 5 others have such bytes too.", faults.fault_of(many, 2, 2).wrong)

    @unittest.skipUnless(library_path().exists(), NO_LIBRARY)
    def test_methods_with_a_seat_for_every_state(self) -> None:
        for method in desk.METHODS:
            register = desk.register_text(method, 1, ["A", "B"], [1, 2])
            self.assertEqual(refusal_of(register), (15, 0) if method.word in SEATS_FOR_ALL else (0, 0))

    def test_fewer_seats_than_states(self) -> None:
        fault = faults.fault_of(head("register,dean,4,5"), 15, 0)
        self.assertIn("dean gives each state a seat", fault.wrong)
        self.assertIn("webster, jefferson, remainders or quota", fault.mend)
        # Leximin's work is shown whatever the method.
        fault = faults.fault_of(head("register,webster,4,5"), 15, 0)
        self.assertIn("leximin, which is asked for here", fault.wrong)
        # A house that was asked for besides the register's own: nothing of the register's own is said.
        self.assertEqual(faults.fault_of(FIVE, 15, 0).wrong, faults.general(15).wrong)

    def test_the_longest_register(self) -> None:
        self.assertEqual(desk.STATES_LIMIT * (desk.NAME_LIMIT + 13) + 43 + 18, 36061)

    def test_other_refusals_are_told_in_general(self) -> None:
        for number in desk.REFUSALS:
            fault = faults.fault_of(FIVE, number, 0)
            self.assertTrue(fault.wrong and fault.mend)
        self.assertEqual(faults.fault_of(FIVE, 21, 0).wrong, "The placing is not one that opening and moves give.")
        # A number and a line that do not belong to the file, as where it was changed meanwhile.
        for number in (*desk.REFUSALS, 0, 20, 99):
            for line in (0, 1, 2, 3, 6, 7, 8, 9, 10_000):
                fault = faults.fault_of(FIVE, number, line)
                self.assertTrue(fault.wrong and fault.mend)
                self.assertEqual(fault.line, line)


class Damage(unittest.TestCase):
    """Every example, damaged at every byte."""

    PIECES = (b"\0", b"\t", b"\r", b"\n", b" ", b",", b";", b'"', b"9", b"-", b"\x1a", b"\xe9", "é".encode(), MARK, b"A", b"total")

    @classmethod
    def damaged(cls, data: bytes, step: int):
        for at in range(0, len(data) + 1, step):
            yield data[:at]
            yield data[at:]
            yield data[:at] + data[at + 1 :]
            yield data[:at] + data[at + 7 :]
            for piece in cls.PIECES:
                yield data[:at] + piece + data[at:]
                yield data[:at] + piece + data[at + 1 :]

    @unittest.skipUnless(library_path().exists(), NO_LIBRARY)
    def test_whatever_is_refused_is_told(self) -> None:
        told = 0
        for path in sorted(EXAMPLES.glob("*.register")):
            data = path.read_bytes()
            step = 1 if len(data) < 300 else 5 if len(data) < 2000 else 500
            for damaged in self.damaged(data, step):
                number, line = refusal_of(damaged)
                if number:
                    self.held(damaged, number, line)
                    told += 1
        self.assertGreater(told, 10_000)

    @unittest.skipUnless(library_path().exists(), NO_LIBRARY)
    def test_variants_damaged_again(self) -> None:
        for _, data, _, _, _ in VARIANTS:
            if len(data) < 200:
                for damaged in self.damaged(data, 11):
                    number, line = refusal_of(damaged)
                    if number:
                        self.held(damaged, number, line)

    def held(self, data: bytes, number: int, line: int) -> None:
        """Words are found without an error, they say what the library said, and the figures and pieces in them are the file's."""
        words = faults.diagnosis(File(data), number, line)
        fault = faults.fault_of(data, number, line)
        self.assertIsNotNone(words, data)
        self.assertTrue(fault.wrong and fault.mend, data)
        self.assertEqual(fault.line, line)
        self.assertEqual(fault.shown is None, line == 0)
        self.assertLess(len(fault.wrong), 600, data)
        lines = data.split(b"\n")
        for first, second in re.findall(r'“([^”]*)”|"([^"]*)"', fault.wrong):
            piece = first or second
            if piece and not re.search("[⟨⇥␣␍…]", piece) and piece not in ("register", "total", *(method.word for method in desk.METHODS)):
                self.assertIn(piece.encode(), data)
        for found in re.findall(r"line (\d+)", fault.wrong):
            self.assertLessEqual(int(found), len(lines) + 1, data)
        found = re.search(r"line 1 counts (\S+) states?, and (\S+) lines? stands? between it and the closing line, line (\d+)", fault.wrong)
        if found:
            counted, there, place = (1 if word == "one" else int(word) for word in found.groups())
            self.assertEqual(int(lines[0].split(b",")[3]), counted, data)
            self.assertEqual(there, place - 2)
            self.assertRegex(lines[place - 1].lower(), rb"^\W*(total|sum|.*sszesen)", data)
        found = re.search(r"total is ([\d,]+), but the populations add up to ([\d,]+): the total is (\w+) by ([\d,]+)", fault.wrong)
        if found:
            given, added, gap = (int(found.group(place).replace(",", "")) for place in (1, 2, 4))
            self.assertEqual(given, int(lines[line - 1].split(b",")[1]), data)
            self.assertEqual(added, sum(int(state.split(b",")[1]) for state in lines[1 : line - 1]), data)
            self.assertEqual(given - added, gap if found.group(3) == "higher" else -gap, data)

    def test_long_lines_are_told_soon(self) -> None:
        """Lines as long as a file may be, of bytes that a careless search would go through again and again."""
        for byte in b"\0\t\r\n \",.0:;=A|\xe9":
            for before, after in ((b"", b""), (b"register,leximin,20,5\nA", b"x\n"), (b"register,leximin,20,5\nA,", b"1\n")):
                data = before + bytes([byte]) * (desk.REGISTER_LIMIT - len(before) - len(after)) + after
                fault = faults.fault_of(data, 2, 2 if before else 1)
                self.assertLess(len(fault.wrong), 600)
                self.assertLess(len(fault.shown), 130)


class Shown(unittest.TestCase):
    def test_odd_bytes(self) -> None:
        for text, shown in (
            (b"A\t,26", "A⇥,26"),
            (b"A,26\r", "A,26␍"),
            (b"A\0,\x7f26\x1a", "A⟨00⟩,⟨7F⟩26⟨1A⟩"),
            ("é,ő".encode(), "é⟨C3 A9⟩,ő⟨C5 91⟩"),
            (b"B\xe9k\xe9s", "B⟨E9⟩k⟨E9⟩s"),
            (b"\xe2\x82A", "⟨E2⟩⟨82⟩A"),
            (MARK + b"A", "⟨BOM⟩A"),
            ("A\u00a0B\u0301\u200f".encode(), "A⟨C2 A0⟩B⟨CC 81⟩⟨E2 80 8F⟩"),
            ("שלום".encode()[:2], "⟨D7 A9⟩"),
            ("😀".encode(), "😀⟨F0 9F 98 80⟩"),
            (b" A B , 26 ", "␣A B␣,␣26␣"),
            (b"  ", "␣␣"),
            (b"", ""),
        ):
            self.assertEqual(visible(text), shown)

    def test_every_byte_is_shown_without_orders_to_a_terminal(self) -> None:
        for byte in range(256):
            shown = visible(b"A" + bytes([byte]) + b"B")
            self.assertTrue(shown.isprintable(), byte)
            self.assertEqual(shown == "A" + chr(byte) + "B", 32 <= byte <= 126)

    def test_long_lines_are_cut(self) -> None:
        self.assertEqual(visible(b"A" * 100), "A" * 100)
        self.assertEqual(visible(b"A" * 101), "A" * 99 + "…")
        for length in (50, 90, 99, 150, 5000):
            shown = visible(b"A" * length + b"\xe9" + b"B" * 5000)
            self.assertLessEqual(len(shown), 100)
            self.assertIn("⟨E9⟩", shown)
        self.assertEqual(visible(b"\0" * 50), "⟨00⟩" * 24 + "…")

    def test_the_line_at_fault(self) -> None:
        self.assertEqual(faults.fault_of(FIVE + b"\n", 2, 8).shown, "⟨empty⟩")
        self.assertEqual(faults.fault_of(FIVE[:-1], 2, 7).shown, "total,201⟨end of file⟩")
        self.assertEqual(faults.fault_of(FIVE[:-10], 2, 7).shown, "⟨end of file⟩")
        self.assertEqual(faults.fault_of(FIVE.replace(b"\n", b"\r\n").replace(b"27", b"2x"), 2, 3).shown, "B,2x")
        self.assertIsNone(faults.fault_of(b"a" * 65537, 1, 0).shown)


class Telling(unittest.TestCase):
    def told(self, path: str, data: bytes, number: int, line: int) -> str:
        out = io.StringIO()
        faults.tell(files.refused(path, data, desk.Refused(number, line)), out)
        return out.getvalue()

    def test_the_layout(self) -> None:
        self.assertEqual(
            self.told("counties.register", state("Békés,27"), 2, 3),
            "counties.register, line 3: refused, number 2\n"
            "    3 | Bé⟨C3 A9⟩ké⟨C3 A9⟩s,27\n"
            "Wrong: The name has letters beyond the plain ones: é⟨C3 A9⟩.\n"
            'Mend:  Write plain letters, as in "Bekes"; `office make` does that by itself.\n',
        )

    def test_no_line(self) -> None:
        self.assertEqual(
            self.told("-", b"a" * 65537, 1, 0).splitlines()[:2],
            [
                "standard input: refused, number 1",
                "Wrong: The file has more than 65,536 bytes, and no register has so many: 800 states with the longest names take 36,061.",
            ],
        )

    def test_a_refusal_without_a_file(self) -> None:
        out = io.StringIO()
        faults.tell(desk.Refused(12), out)
        self.assertEqual(out.getvalue().splitlines()[:2], ["refused, number 12", "Wrong: A population is 0."])

    def test_odd_paths(self) -> None:
        self.assertTrue(self.told("a\x1b[31m\n\udce9.register", FIVE, 2, 3).startswith("a?[31m?\ufffd.register, line 3: "))


if __name__ == "__main__":
    unittest.main()
