#!/usr/bin/env python3
"""Counts the places of docs/DESIGN-PASS.md in crates/*/src: tools/design_count.py [-l] [POINT..] in the repository; -l lists them."""
import glob
import re
import sys

# Point, name, pattern on a line of a source file that is no comment and no clause.
LINES = [
    (1, "functions that answer a number for a refusal", r"fn \w*(number|refusal)\w*\(.*|fn refused\("),
    (1, "a number or a flag with values beside it", r"^ +pub (code|number|more|settled): "),
    (1, "kinds told by numbers", r"\bkind (<=?|==|!=) |(<=?|==) (message\.)?kind\b|^ *match frames::word"),
    (1, "1 or 0 for a test", r"\{ [01] \} else \{ [01] \}|\b[a-z_]+\(.*\) == 0$"),
    (2, "functions named as another one of another type", r"fn \w+_(stamps|longs?|bytes)\b|fn (fill|copy|load|first|checksum|store|set|number|sum|present|present_and_marked|mark_from|mark_present|mark_zeros)\("),
    (3, "loops with `while` and `loop`", r"^ *(while|loop)\b"),
    (4, "the larger or smaller of two, and conversions, by hand", r"if (\S+) <=? (\S+) \{ (\1|\2) \} else \{|fn (wide|long_of|is_one|both|unequal|below|word|gives)\("),
    (4, "a head copied field by field", r"operators: (head|self)\.operators,"),
    (6, "a buffer with a place beside it", r"fn \w+\(.*out: &mut \[u8\], at: usize|^    at: usize,$"),
    (6, "words of a table by a stride", r"words\[\w+ \* 4"),
    (7, "a switch on a kind of call", r"^ *(match frames::word|if (kind|frames::word\(frame, 0\)))"),
]
CLAUSES = [
    (5, "clauses with AcceptedPairs", r"AcceptedPairs"),
    (5, "clauses with ZeroTables", r"ZeroTables"),
    (5, "clauses with Tabulated, or Over, of four parameters", r"(Tabulated|Over g) "),
    (5, "clauses with Held, or Remaining", r"(Held|Remaining) g "),
    (5, "clauses with Fits, or Raising", r"(Fits|Raising) \("),
    (5, "clauses that write `lent` out", r"\blent (head|with|\()"),
]


def files():
    for path in sorted(glob.glob("crates/*/src/**/*.rt", recursive=True)):
        with open(path, encoding="utf-8") as f:
            yield path, f.read()


def lines(pattern, of_clauses):
    """The lines that the pattern finds, of the clauses or of the rest; a clause ends before the line that opens the body."""
    found, seen = [], re.compile(pattern)
    for path, text in files():
        clause = False
        for i, line in enumerate(text.splitlines(), 1):
            bare = line.strip()
            if bare.startswith(("requires", "ensures")):
                clause = True
            elif bare == "{":
                clause = False
            if clause == of_clauses and not bare.startswith(("//", "ghost use")) and seen.search(line):
                found.append(f"{path}:{i}: {bare[:110]}")
    return found


def parameters(least):
    found = []
    for path, text in files():
        for m in re.finditer(r"\bfn (\w+)(?:<[^(]*>)?\(([^)]*)\)", text):
            n = len([p for p in m.group(2).split(",") if p.strip()])
            if n >= least:
                found.append(f"{path}: {m.group(1)}: {n} parameters")
    return found


def main():
    show = "-l" in sys.argv
    wanted = [int(a) for a in sys.argv[1:] if a.isdigit()] or list(range(1, 9))
    rows = [(p, name, lines(pattern, False)) for p, name, pattern in LINES] + [(p, name, lines(pattern, True)) for p, name, pattern in CLAUSES]
    rows.append((5, "functions of seven parameters and more", parameters(7)))
    rows.append((5, "parameters of these", [x for x in parameters(7) for _ in range(int(x.split()[-2]))]))
    for p, name, found in sorted(rows, key=lambda r: r[0]):
        if p in wanted:
            print(f"{p}  {len(found):4}  {name}")
            if show and "parameters of these" not in name:
                print("".join(f"        {x}\n" for x in found), end="")


if __name__ == "__main__":
    main()
