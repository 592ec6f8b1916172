#!/usr/bin/env python3
"""Tries a program on the conformance list.

  conformance/try.py [--list FILE] [--most N] PROGRAM [ARGUMENT...]

The program reads an encoding a line on standard input and prints a line for each: the profile in
hexadecimal digits, or `refused` and the number. README.md here has the form. The first differences
are shown, ten if N is not given, each with its line in the list. The status is 0 if all lines are as
expected, 1 if one differs, 2 if nothing could be tried.
"""

import argparse
import hashlib
import pathlib
import subprocess
import sys
import tempfile
import threading

LIST = pathlib.Path(__file__).with_name("encodings.txt")
# Seconds for the whole list, and characters of a line: no profile has more than 1,200 bytes.
LIMIT = 600
LONGEST = 8192


class Case:
    """A line of the list: where it stands, the encoding, and the answer."""

    def __init__(self, group, number, line):
        encoding, equals, answer = line.partition(" = ")
        if not equals:
            raise ValueError(f"line {number} of the list has no answer: {line}")
        self.group, self.number, self.encoding = group, number, encoding
        self.words = answer.split(" ")
        if self.words[0] != "refused" and self.words[1:2] not in (["md5"], ["bytes"]):
            raise ValueError(f"line {number} of the list has no answer of a known form: {line}")

    def difference(self, found):
        """What is wrong with a line of the program's output; None where nothing is."""
        if self.words[0] == "refused":
            expected = " ".join(self.words)
            return None if found == expected else f"expected: {expected}\nfound:    {shown(found)}"
        try:
            profile = bytes.fromhex(found)
        except ValueError:
            profile = None
        length, form, value = self.words
        if profile is None or found.split() != [found]:
            return f"expected: a profile of {length} bytes\nfound:    {shown(found)}"
        if form == "md5":
            sums = f"{len(profile)} bytes, MD5 {hashlib.md5(profile).hexdigest()}"
            expected = f"{length} bytes, MD5 {value}"
            return None if sums == expected else f"expected: {expected}\nfound:    {sums}"
        return difference_of_bytes(bytes.fromhex(value), profile)


def difference_of_bytes(expected, found):
    if expected == found:
        return None
    text = ""
    if len(expected) != len(found):
        text = f"expected: {len(expected)} bytes\nfound:    {len(found)} bytes\n"
    at = next((i for i, (a, b) in enumerate(zip(expected, found)) if a != b), None)
    if at is None:
        return text + "one is the front of the other"
    return text + (
        f"first difference at byte {at} ({place(expected, at)})\n"
        f"expected there: {expected[at:at + 16].hex()}\nfound there:    {found[at:at + 16].hex()}"
    )


def place(profile, at):
    """The part of an expected profile that a byte belongs to."""
    word = lambda i: int.from_bytes(profile[i:i + 4], "big")
    if at < 128:
        return "header"
    if at < 132 + 12 * word(128):
        return "tag table"
    for line in range(132, 132 + 12 * word(128), 12):
        offset, size = word(line + 4), word(line + 8)
        if offset <= at < offset + size:
            return f"element {profile[line:line + 4].decode()}, its byte {at - offset}"
    return "padding"


def shown(line):
    return line if len(line) <= 80 else f"{line[:76]}... ({len(line)} characters)"


def cases(path):
    group = ""
    with open(path, encoding="ascii") as lines:
        for number, line in enumerate(lines, 1):
            line = line.rstrip("\n")
            if line.startswith("#"):
                group = line[1:].strip()
            else:
                yield Case(group, number, line)


def answers(program, listed):
    """The lines that the program prints, at most one more than are expected, and whether it ended well."""
    with tempfile.TemporaryFile() as encodings:
        encodings.write("".join(case.encoding + "\n" for case in listed).encode())
        encodings.seek(0)
        running = subprocess.Popen(program, stdin=encodings, stdout=subprocess.PIPE)
    clock = threading.Timer(LIMIT, running.kill)
    clock.start()
    lines = []
    while len(lines) <= len(listed) and (line := running.stdout.readline(LONGEST)):
        lines.append(line.decode("ascii", "replace").rstrip("\r\n"))
    if len(lines) > len(listed):
        running.kill()
    status = running.wait()
    clock.cancel()
    if status != 0:
        print(f"the program ended with status {status}")
    return lines, status == 0


def compare(listed, found, most):
    """Shows the first differences; answers how many lines differ, and the tally of each group."""
    wrong, groups = 0, {}
    for index, case in enumerate(listed):
        line = found[index] if index < len(found) else ""
        difference = case.difference(line)
        good, all_ = groups.get(case.group, (0, 0))
        groups[case.group] = (good + (difference is None), all_ + 1)
        if difference is not None:
            wrong += 1
            if wrong <= most:
                print(f"line {case.number} ({case.group})\n  {case.encoding}")
                print("\n".join("  " + part for part in difference.split("\n")))
    return wrong, groups


def main():
    parser = argparse.ArgumentParser(usage=__doc__.split("\n\n")[1].strip())
    parser.add_argument("--list", type=pathlib.Path, default=LIST)
    parser.add_argument("--most", type=int, default=10)
    parser.add_argument("program", nargs=argparse.REMAINDER)
    chosen = parser.parse_args()
    if not chosen.program:
        parser.error("no program")
    try:
        listed = list(cases(chosen.list))
        found, ended = answers(chosen.program, listed)
    except (OSError, ValueError) as why:
        print(f"try.py: {why}", file=sys.stderr)
        return 2
    if not listed:
        print("try.py: the list is empty", file=sys.stderr)
        return 2
    wrong, groups = compare(listed, found, chosen.most)
    if len(found) != len(listed):
        some = f"{len(found)} lines" if len(found) < len(listed) else "more lines"
        print(f"{some} printed, {len(listed)} expected")
    for name, (good, all_) in groups.items():
        print(f"{name}: {good} of {all_}")
    print(f"{len(listed) - wrong} of {len(listed)}")
    return 0 if wrong == 0 and ended and len(found) == len(listed) else 1


if __name__ == "__main__":
    sys.exit(main())
