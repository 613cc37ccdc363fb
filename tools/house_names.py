#!/usr/bin/env python3
"""house_names.py REPO: the crates of a checkout from before the house get the names of their families, so that what landed can be laid beside what stands.

Run on a checkout of the landed commit, before the toolchain's port.py and port_names.py. It renames the folders, and the crates in crates.txt, paths of code,
imports of antt, and comments. Merged later, and not here: `peel_state` into `peel_run`, `limits_cover_present` into `limits_cover_pairs`."""
import glob
import os
import re
import sys

NAMES = dict(
    line.split()
    for line in """words arrays
walks board_walks
builds call_build
crowd_covers call_crowd_cover
messages call_message
lists call_message_list
own_covers call_own_cover
peels call_peel
previews call_preview
queries call_query
input cover_input
lines cover_lines
report cover_report
text cover_text
bands crowd_bands
degrees graph_degrees
drops graph_drops
tables graph_tables
levels index_fill
members index_members
row index_row
sweeps index_sweeps
covers limits_cover
pair_covers limits_cover_pairs
present_covers limits_cover_present
entries message_entry
endings message_list_end
previewing message_on_copy
order message_order
taking message_taking
validity message_validity
delivery model_delivery
samples model_samples
changes pairs_change
shifts pairs_shift
copies part_copy
presence part_presence
stamps part_stamps
pair_peels peel_pairs
peeling peel_run
states peel_state
marks query_marks
sides query_sides
message_refusals refusal_message
peel_refusals refusal_peel
refusals refusal_table""".splitlines()
)


def main(repo):
    names = "|".join(sorted(map(re.escape, NAMES), key=len, reverse=True))

    def new(m):
        return m.group(0).replace(m.group("n"), NAMES[m.group("n")], 1)

    def hyphens(m):
        return NAMES[m.group("n")].replace("_", "-")

    library = (re.compile(r"Rattle·(?P<n>%s)(?=[.·\s])" % names), new)
    called = (re.compile(r"(?<=calls-)(?P<n>%s)(?=·)" % names), hyphens)
    path = (re.compile(r"(?<![\w:.])(?P<n>%s)(?=::)" % names), new)
    tick = (re.compile(r"(?<=`)(?P<n>%s)(?=(/[\w]+)?`|::)" % names), new)
    for p in glob.glob(repo + "/crates/**/*", recursive=True):
        if os.path.isfile(p) and p.endswith((".rt", ".antt", ".edit")):
            with open(p, encoding="utf-8") as f:
                t = f.read()
            for rule, by in [library, called] + ([tick] if p.endswith(".antt") else [path]):
                t = rule.sub(by, t)
            with open(p, "w", encoding="utf-8") as f:
                f.write(t)
    with open(repo + "/crates.txt", encoding="utf-8") as f:
        lines = f.readlines()
    with open(repo + "/crates.txt", "w", encoding="utf-8") as f:
        for line in lines:
            if ":" in line and not line.startswith("#"):
                crate, uses = line.rstrip("\n").split(":", 1)
                line = NAMES.get(crate, crate) + ":" + "".join(" " + NAMES.get(u, u) for u in uses.split()) + "\n"
            f.write(line)
    for a in NAMES:
        os.rename(f"{repo}/crates/{a}", f"{repo}/crates/__{NAMES[a]}")
    for b in NAMES.values():
        os.rename(f"{repo}/crates/__{b}", f"{repo}/crates/{b}")
    print(f"house_names: {len(NAMES)} crates")


main(sys.argv[1])
