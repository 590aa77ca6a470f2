#!/usr/bin/env python3
"""Counts the places of docs/DESIGN-PASS.md in crates/*/src: python3 tools/places.py [-l] [FOLDER]. -l lists them."""
import glob
import re
import sys

LISTED = "-l" in sys.argv
ROOT = next((a for a in sys.argv[1:] if a != "-l"), ".")

# Lines that match are places. Comments are left out.
BY_LINE = {
    "1": [
        ("refusals by number", r"pub (refusal|number): u64|fn \w*refus\w*\("),
        ("refusals tested by number", r"refusal(\.number)? (!=|==) (0|ACCEPTED|refusals::ACCEPTED)"),
        ("own enums like Option or Result", r"enum (Named|Answer)\b"),
        ("a flag with a value beside it", r"pub (whole|spares): bool|^\s*written: bool"),
        ("numbers for kinds", r"pub fn (number|at)\(|const (MARK_NONE|LAST|STARTS|WORDS)\b|fn mark_number\("),
    ],
    "3": [("loops that count by hand", r"^\s*while ")],
    "4": [
        (
            "equality, order, copying and conversion by hand",
            r"fn (same|copy_into|lay|lesser|greater|distance_of|left_to|movable_of|magnitude|difference|with_sign|first_letter|"
            r"mark_number|number|at|word|from|upto|past|within|wide|product|wide_less|in_one_word|seats_every_state|digit_value)\(",
        )
    ],
    "7": [("a flag that picks what to run", r"\b(up|adds|loose): bool")],
}

# Functions whose parameters hold all of these are places.
GROUPS = [
    ("out, at", ["out", "at"]),
    ("populations, total, house", ["populations", "total", "house"]),
    ("populations, sum, house", ["populations", "sum", "house"]),
    ("population, seats, total, house", ["population", "seats", "total|sum", "house"]),
    ("population, total, house", ["population", "total", "house|aim"]),
    ("method, populations, total", ["method", "populations", "total"]),
    ("method, up, populations, seats", ["method", "up", "populations", "seats"]),
    ("outers, arrivals, keys, ranking", ["outers", "arrivals", "keys", "ranking"]),
    ("keys, ranking", ["keys", "ranking"]),
    ("keys, tree", ["keys", "tree"]),
]
LISTS = [("starts, ends: parallel lists", ["starts", "ends"]), ("prints beside them", ["prints"])]

# Functions of one of these names are twins of those that are named with them.
TWINS = [
    ["better_of"], ["build"], ["replay"], ["plant"], ["wants_before"], ["gives_up_before"], ["moves_before"], ["put_states"],
    ["first_unmet", "last_met"], ["place", "withdraw"], ["copy_few", "copy_many"], ["print_listing", "print_clean"],
    ["drawn_up", "drawn_down"], ["lower_end", "upper_end"], ["not_below", "not_above"], ["lesser", "greater"],
    ["fill_wholes", "fill_outers", "fill_keys"], ["print_start", "print_move", "print_end"], ["has_zero", "each_within"],
    ["move_by_scans", "scan_moves"], ["move_by_tournament", "move_seats"], ["climbs_before", "falls_before"],
    ["put_start", "put_end"], ["read_full", "read_from"],
]


def functions(text):
    """Each function's name, line and parameter names."""
    for m in re.finditer(r"^[ \t]*(?:pub(?:\(crate\))? )?(?:extern \"C\" )?fn (\w+)(?:<[^(]*>)?\(", text, re.M):
        depth, i = 1, m.end()
        while depth:
            depth += {"(": 1, ")": -1}.get(text[i], 0)
            i += 1
        names = re.findall(r"(?:^|[(,\s])(?:mut )?(\w+)\s*:", text[m.end() : i])
        yield m.group(1), text.count("\n", 0, m.start()) + 1, names


def has(names, wanted):
    return all(any(n in w.split("|") for n in names) for w in wanted)


def main():
    found = {}

    def note(point, kind, path, line, what):
        found.setdefault(point, {}).setdefault(kind, []).append(f"{path}:{line}: {what.strip()}")

    by_name = {}
    for path in sorted(glob.glob(f"{ROOT}/crates/*/src/**/*.rt", recursive=True)):
        text = open(path).read()
        short = path[len(ROOT) + 1 :]
        for number, line in enumerate(text.split("\n"), 1):
            if line.lstrip().startswith("//"):
                continue
            for point, kinds in BY_LINE.items():
                for kind, pattern in kinds:
                    if re.search(pattern, line):
                        note(point, kind, short, number, line)
        for name, line, names in functions(text):
            by_name.setdefault(name, []).append((short, line))
            for kind, wanted in GROUPS:
                if has(names, wanted):
                    note("5", kind, short, line, name)
            for kind, wanted in LISTS:
                if has(names, wanted):
                    note("6", kind, short, line, name)
    for names in TWINS:
        places = [(n, p) for n in names for p in by_name.get(n, [])]
        if len(places) > 1:
            for n, (path, line) in places:
                note("2", " / ".join(names), path, line, n)
    answers = 0
    for path in glob.glob(f"{ROOT}/crates/*/proofs/**/Answers.antt", recursive=True):
        answers += len(re.findall(r"^pub [\w+-]+ : goal\.", open(path).read(), re.M))
    for point in sorted(found):
        kinds = found[point]
        print(f"{point}: {sum(map(len, kinds.values()))}")
        for kind, places in kinds.items():
            print(f"   {len(places):4} {kind}")
            if LISTED:
                for p in places:
                    print(f"          {p}")
    print(f"8: {answers} goals answered in proofs/")


main()
