"""Makes the exports in this directory again, with LibreOffice (`soffice` on the path): `python3 export.py` writes each file anew.

Each sheet holds Hungary's counties of `examples/hungary-counties.register` with their real names, a heading, and a closing total that the
spreadsheet adds up itself. LibreOffice's filter options are explained in README.md.
"""

from __future__ import annotations

import re
import subprocess
import sys
import tempfile
from pathlib import Path
from xml.sax.saxutils import escape

HERE = Path(__file__).parent
REGISTER = HERE.parents[2] / "examples" / "hungary-counties.register"

ACCENTED = {
    "Bacs-Kiskun": "Bács-Kiskun",
    "Bekes": "Békés",
    "Borsod-Abauj-Zemplen": "Borsod-Abaúj-Zemplén",
    "Csongrad": "Csongrád",
    "Fejer": "Fejér",
    "Gyor-Moson-Sopron": "Győr-Moson-Sopron",
    "Hajdu-Bihar": "Hajdú-Bihar",
    "Jasz-Nagykun-Szolnok": "Jász-Nagykun-Szolnok",
    "Komarom-Esztergom": "Komárom-Esztergom",
    "Nograd": "Nógrád",
    "Szabolcs-Szatmar-Bereg": "Szabolcs-Szatmár-Bereg",
    "Veszprem": "Veszprém",
}

DOCUMENT = """<?xml version="1.0" encoding="UTF-8"?>
<office:document xmlns:office="urn:oasis:names:tc:opendocument:xmlns:office:1.0"
 xmlns:table="urn:oasis:names:tc:opendocument:xmlns:table:1.0" xmlns:text="urn:oasis:names:tc:opendocument:xmlns:text:1.0"
 xmlns:style="urn:oasis:names:tc:opendocument:xmlns:style:1.0" xmlns:number="urn:oasis:names:tc:opendocument:xmlns:datastyle:1.0"
 xmlns:of="urn:oasis:names:tc:opendocument:xmlns:of:1.2"
 office:version="1.2" office:mimetype="application/vnd.oasis.opendocument.spreadsheet">
<office:automatic-styles>
<number:number-style style:name="N1" number:language="{language}" number:country="{country}">{number}</number:number-style>
<style:style style:name="count" style:family="table-cell" style:parent-style-name="Default" style:data-style-name="N1"/>
</office:automatic-styles>
<office:body><office:spreadsheet><table:table table:name="Megyek">
{rows}
</table:table></office:spreadsheet></office:body></office:document>
"""
WHOLE = '<number:number number:decimal-places="0" number:min-integer-digits="1" number:grouping="true"/>'
DECIMALS = '<number:number number:decimal-places="2" number:min-decimal-places="2" number:min-integer-digits="1" number:grouping="true"/>'
SCIENTIFIC = '<number:scientific-number number:decimal-places="2" number:min-integer-digits="1" number:min-exponent-digits="2"/>'

# As shown or as stored, with commas, semicolons or tabs; the third number is the encoding.
COMMA_SHOWN = "44,34,76,1,,0,false,true,true,false"
SEMICOLON_SHOWN = "59,34,76,1,,0,false,true,true,false"
SEMICOLON_STORED = "59,34,76,1,,0,false,true,false,false"
TAB_SHOWN = "9,34,76,1,,0,false,true,true,false"
CP1250 = "59,34,33,1,,0,false,true,false,false"
LATIN_2 = "59,34,13,1,,0,false,true,false,false"
UTF_16 = "9,34,65535,1,,0,false,true,true,false"
ALL_QUOTED = "44,34,76,1,,0,true,true,true,false"


def counties() -> list[tuple[str, int]]:
    lines = REGISTER.read_text(encoding="ascii").splitlines()[1:-1]
    return [(ACCENTED.get(name, name), int(count)) for name, count in (line.split(",") for line in lines)]


def text(content: str) -> str:
    return f'<table:table-cell office:value-type="string"><text:p>{escape(content)}</text:p></table:table-cell>' if content else "<table:table-cell/>"


def count(number: int) -> str:
    return f'<table:table-cell table:style-name="count" office:value-type="float" office:value="{number}"/>'


def formula(content: str) -> str:
    return f'<table:table-cell table:style-name="count" table:formula="of:={content}" office:value-type="float"/>'


def added_up(column: str, first: int, last: int) -> str:
    return formula(f"SUM([.{column}{first}:.{column}{last}])")


def row(*cells: str) -> str:
    return f"<table:table-row>{''.join(cells)}</table:table-row>"


def plain_sheet() -> list[str]:
    states = [row(text(name), count(number)) for name, number in counties()]
    return [row(text("Megye"), text("Népesség")), *states, row(text("Összesen"), added_up("B", 2, 21))]


def published_sheet() -> list[str]:
    """A sheet as offices publish them: a title, a running number, a share of the whole, a total and a source."""
    whole = sum(number for _, number in counties())
    states = [
        row(count(place), text(name), count(number), text(f"{100 * number / whole:.1f}%"))
        for place, (name, number) in enumerate(counties(), start=1)
    ]
    return [
        row(text("Választókorú népesség megyénként")),
        row(text("")),
        row(text("Sorszám"), text("Megye"), text("Népesség"), text("Arány")),
        *states,
        row(text(""), text("Összesen"), added_up("C", 4, 23), text("100.0%")),
        row(text("")),
        row(text("Forrás: Biró, Kóczy, Sziklai (2013), 4. táblázat")),
    ]


def document(rows: list[str], locale: str = "en-US", number: str = WHOLE) -> str:
    language, country = locale.split("-")
    return DOCUMENT.format(language=language, country=country, number=number, rows="\n".join(rows))


EXPORTS = {
    "semicolon.csv": (document(plain_sheet()), SEMICOLON_STORED),
    "quoted-thousands.csv": (document(plain_sheet()), COMMA_SHOWN),
    "all-quoted.csv": (document(plain_sheet()), ALL_QUOTED),
    "tab.txt": (document(plain_sheet()), TAB_SHOWN),
    "utf-16.txt": (document(plain_sheet()), UTF_16),
    "cp1250.csv": (document(plain_sheet()), CP1250),
    "latin-2.csv": (document(plain_sheet()), LATIN_2),
    "thousands-english.csv": (document(plain_sheet()), SEMICOLON_SHOWN),
    "thousands-hungarian.csv": (document(plain_sheet(), "hu-HU"), SEMICOLON_SHOWN),
    "thousands-german.csv": (document(plain_sheet(), "de-DE"), SEMICOLON_SHOWN),
    "thousands-swiss.csv": (document(plain_sheet(), "de-CH"), SEMICOLON_SHOWN),
    "published.csv": (document(published_sheet()), COMMA_SHOWN),
    "decimals.csv": (document(plain_sheet(), number=DECIMALS), COMMA_SHOWN),
    "scientific.csv": (document(plain_sheet(), number=SCIENTIFIC), COMMA_SHOWN),
    "broken-sum.csv": (document([*plain_sheet()[:-1], row(text("Összesen"), formula("SZUMMA(B2:B21"))]), SEMICOLON_STORED),
}


def export(name: str, content: str, options: str, room: Path) -> bytes:
    """What LibreOffice exports from a document under these options."""
    source = room / f"{Path(name).stem}.fods"
    source.write_text(content, encoding="utf-8")
    profile = f"-env:UserInstallation={(room / 'profile').as_uri()}"
    filtered = f"csv:Text - txt - csv (StarCalc):{options}"
    command = ["soffice", "--headless", profile, "--convert-to", filtered, "--outdir", str(room / "out"), str(source)]
    subprocess.run(command, check=True, stdout=subprocess.DEVNULL, stderr=subprocess.DEVNULL)
    return (room / "out" / f"{Path(name).stem}.csv").read_bytes()


def main() -> int:
    with tempfile.TemporaryDirectory() as room:
        for name, (content, options) in EXPORTS.items():
            (HERE / name).write_bytes(export(name, content, options, Path(room)))
            print(name)
    # Excel's two forms, by hand: LibreOffice on Linux writes neither CR LF nor a mark at the front of UTF-8.
    semicolon = (HERE / "semicolon.csv").read_bytes()
    (HERE / "excel-utf-8.csv").write_bytes(b"\xef\xbb\xbf" + semicolon.replace(b"\n", b"\r\n"))
    # Excel puts every cell with a comma in quotes, with tabs too.
    tabbed = re.sub("[0-9,]+,[0-9,]+", r'"\g<0>"', (HERE / "tab.txt").read_text(encoding="utf-8"))
    (HERE / "excel-unicode-text.txt").write_bytes(b"\xff\xfe" + tabbed.replace("\n", "\r\n").encode("utf-16-le"))
    return 0


if __name__ == "__main__":
    sys.exit(main())
