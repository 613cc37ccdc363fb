#!/usr/bin/env python3
"""port_names.py REPO: the repository's own names in the spelling of today's Rattle, words joined by `_` and not by `-`.

Run once, after the toolchain's port.py. It turns the names that specs/, the lemma files of proofs/ and clauses declare or bind, wherever they stand: there,
in functions' proofs and in must-fail edits. Names of the library stay (KEPT, or imported by a file from elsewhere), and so do those that the toolchain makes
for a proof. With --list it writes nothing, and prints each name beside its new one and whether that stands somewhere already."""
import glob
import os
import re
import sys

TOKEN = re.compile(r"[^\s(){}\[\],.;:`«»⟦⟧@λ\"=]+")
HYPHEN = re.compile(r"[\w']+(?:-[\w'']+)+")
MADE = re.compile(r"^((Need|After|Lts|At|In|Then|Else|invariant|decreases|loop)-|returns-\d)")
# Names of the library that the repository's files cite.
KEPT = set(
    """le-ltb eq-eqb length-append get_or-set_other get_or-append lt-ltb get_or-take length-take-le get_or-set_same length-set zero-add length-take add-one
    length-drop length-replicate lt-leb le-leb take-append-drop get_or-drop drop-set-lt mul-le-mul_right length-map not-nil append-nil get_or-replicate drop-drop
    get_or-append-add take-length drop-cons add-zero take-suc suc-mul not-false sets-eq get_or-append_seam get_or-eq_default div-add-mod' zero-le
    replicate-append-replicate drop_of_length-le res-finally length-sets eqb-true pow-suc add-suc map-append mul-zero mod-lt div-lt_iff_lt-mul take-append_seam
    not-true obs-res""".split()
)


def text(path):
    with open(path, encoding="utf-8") as f:
        return f.read()


def code(line, comment):
    """A line without its comment."""
    return re.sub(r"(^|\s)" + comment + r"(\s.*)?$", "", line)


def ghost(path):
    """The lines of a source file that are antt: imports and clauses."""
    inside, out = False, []
    for line in text(path).splitlines():
        line = code(line, "//")
        if line.startswith("ghost use"):
            out.append(line)
        if re.match(r"\s*(requires|ensures)", line):
            inside = True
        if inside and line.startswith("{"):
            inside = False
        if inside:
            out.append(line)
    return out


def names_of(lines):
    return {t for l in lines for t in TOKEN.findall(l) if HYPHEN.fullmatch(t) and not MADE.match(t) and t not in KEPT}


def main(argv):
    root = argv[-1]
    crates = {os.path.basename(c) for c in glob.glob(root + "/crates/*")}
    lemmas = sorted(glob.glob(root + "/crates/*/specs/*.antt") + glob.glob(root + "/crates/*/proofs/*.antt"))
    proofs = sorted(set(glob.glob(root + "/crates/*/proofs/**/*.antt", recursive=True)) - set(lemmas))
    sources = sorted(glob.glob(root + "/crates/*/src/*.rt"))
    edits = sorted(glob.glob(root + "/crates/*/must-fail/*.edit"))
    names = set()
    for p in lemmas:
        names |= names_of(code(l, "--") for l in text(p).splitlines())
    for p in sources:
        names |= names_of(ghost(p))
    turned = {n: n.replace("-", "_") for n in names}
    if "--list" in argv:
        every = {t for p in lemmas + proofs for l in text(p).splitlines() for t in TOKEN.findall(code(l, "--"))} | {t for p in sources for t in TOKEN.findall(text(p))}
        for n in sorted(names):
            print(n, turned[n], "stands already" if turned[n] in every else "")
        return
    count = 0
    for p in lemmas + proofs + sources + edits:
        t = text(p)
        elsewhere = set()
        for m in re.finditer(r"^\s*(?:pub )?(?:ghost )?use ([\w.]+)\.\{(.*?)\}", t, re.M | re.S):
            if not (m.group(1).startswith("Rattle.") and m.group(1).split(".")[1] in crates):
                elsewhere |= set(TOKEN.findall(m.group(2)))
        u = TOKEN.sub(lambda m: m.group(0) if m.group(0) in elsewhere else turned.get(m.group(0), m.group(0)), t)
        if p in proofs:
            # the proof of the function f is f_spec
            f = os.path.basename(os.path.dirname(p)).lstrip("+")
            u = re.sub(r"(?<![\w-])" + re.escape(f.replace("_", "-")) + r"-spec(?![\w-])", f + "_spec", u)
        if u != t:
            with open(p, "w", encoding="utf-8") as f:
                f.write(u)
            count += 1
    print(f"port_names: {len(turned)} names, {count} files")


main(sys.argv[1:])
