#!/usr/bin/env python3
"""Shows what the programs listing and profiles made of a job, and puts each profile into a file of its own.

    show.py TEXT LISTING PROFILES OUT

TEXT is the job's text, LISTING and PROFILES hold what the programs wrote, and OUT is the folder for the files: 2-1.icc
is the first entry of section 2. The exit status is 1 where the job is refused, and where the three do not agree.
"""
import json
import os
import re
import shutil
import subprocess
import sys

# No compiled copy of make_job.py beside the sources.
sys.dont_write_bytecode = True
from make_job import read_text  # noqa: E402

JOB_REFUSALS = {
    41: "it ends early",
    42: "it has bytes left",
    43: "a kind, curve or intent has no meaning",
}
REFUSALS = {
    1: "the curve is PQ or HLG",
    3: "gray with |wy| below 1e-12",
    4: "RGB with a white outside 0 <= wx <= 1, 0 < wy <= 1, or one that cannot be adapted",
    5: "a number of the chromatic adaptation does not fit",
    6: "the primaries' matrix is singular",
    7: "a number of a column, or of a gray white, does not fit",
    8: "the reciprocal of gamma does not fit",
}


def read_listing(text):
    """Section, place, length and refusal of each entry, the last two 0 where they do not apply; or the job's refusal."""
    refused = re.fullmatch("job refused ([1-9][0-9]*)\n", text)
    if refused:
        return [], int(refused[1])
    first, *lines = text.split("\n")
    if not lines or lines.pop() or first != f"profiles {len(lines)}":
        sys.exit(f"the listing is not whole: it starts with {first!r}, and {len(lines)} lines follow")
    rows = []
    for line in lines:
        row = re.fullmatch("([123]) ([1-9][0-9]*) (refused )?([1-9][0-9]*)", line)
        if not row:
            sys.exit(f"this is no line of a listing: {line!r}")
        answer = int(row[4])
        rows.append((int(row[1]), int(row[2]), 0 if row[3] else answer, answer if row[3] else 0))
    return rows, 0


def split(stream, rows):
    """The profile of each row, empty where it is refused."""
    total = sum(length for _, _, length, _ in rows)
    if total != len(stream):
        sys.exit(f"the listing's lengths add up to {total}, but profiles wrote {len(stream)} bytes")
    profiles = []
    at = 0
    for section, place, length, _ in rows:
        profiles.append(stream[at : at + length])
        at += length
        # A profile starts with its own size.
        if length and int.from_bytes(profiles[-1][:4], "big") != length:
            sys.exit(f"the profile of {section} {place} has another size in its header than the listing's {length}")
    return profiles


def show_exiftool(files):
    if not shutil.which("exiftool"):
        print("skipped: exiftool's view of the files, install libimage-exiftool-perl")
        return
    ran = subprocess.run(
        ["exiftool", "-q", "-j", "-ProfileDescription", "-Validate", *files], stdout=subprocess.PIPE, check=False
    )
    print(f"exiftool opened them (status {ran.returncode}), validated them, and read these descriptions:")
    for tags in json.loads(ran.stdout or "[]"):
        file = os.path.basename(tags["SourceFile"])
        print(f"{file:9}  {tags.get('Validate', 'no answer')}  {tags.get('ProfileDescription', 'no description')}")


def main():
    if len(sys.argv) != 5:
        sys.exit(__doc__)
    text, listing, profiles, out = sys.argv[1:]
    # Section, its name, place and line of each entry, in the job's order.
    entries = [
        (number, name, place, line)
        for number, (name, section) in enumerate(read_text(text).items(), 1)
        for place, (line, _) in enumerate(section, 1)
    ]
    with open(listing, encoding="ascii", errors="replace", newline="") as file:
        rows, refused = read_listing(file.read())
    with open(profiles, "rb") as file:
        parts = split(file.read(), rows)
    if refused:
        sys.exit(f"The job is refused as a whole, {refused}: {JOB_REFUSALS.get(refused, 'an unknown number')}.")
    if [row[:2] for row in rows] != [(number, place) for number, _, place, _ in entries]:
        sys.exit("the listing's entries are not those of the text")

    files = []
    print(f"The same, with the line of the text, the profile's id, and its file in {out}:")
    print(f"{'section':8}  entry  line  bytes  {'id':32}  file")
    for (number, name, place, line), (_, _, length, refusal), profile in zip(entries, rows, parts):
        start = f"{number} {name:6}  {place:5}  {line:4}"
        if refusal:
            print(f"{start}      -  refused {refusal}: {REFUSALS.get(refusal, 'an unknown number')}")
            continue
        files.append(os.path.join(out, f"{number}-{place}.icc"))
        with open(files[-1], "wb") as file:
            file.write(profile)
        print(f"{start}  {length:5}  {profile[84:100].hex()}  {number}-{place}.icc")
    total = sum(len(profile) for profile in parts)
    print(f"Profiles: {len(files)}, of {total} bytes together, as the listing says. Refused: {len(rows) - len(files)}.")
    if files:
        show_exiftool(files)


if __name__ == "__main__":
    try:
        main()
    except OSError as what:
        sys.exit(f"show.py: {what}")
