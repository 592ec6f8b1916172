#!/usr/bin/env python3
"""Checks SUPPLIER.md: its constants, the right numbers of its tables, those of XYB and adapted gray, which constants are rounded, and the ids.

  docs/check_supplier.py [SRC]

Each constant is worked out exactly from the decimal that the Rust has and rounded to its width, and held against the bits in the table; the bits
must stand in the file of the definition. With SRC, the folder of the Rust's sources, each decimal must stand there too. The cases must be those of
conformance/encodings.txt. Each right number of a case must be in the case's profile there, the numbers of XYB in its profile, and the tags of
adapted gray in its own. Each id of a profile must be the one in that profile there, and its MD5, and the other that of the profile with maker and model put in. The status is 1 if something differs.
"""

import hashlib
import pathlib
import re
import sys
from fractions import Fraction

TOP = pathlib.Path(__file__).resolve().parent.parent
# significand, exponent and all digits of a width
WIDTHS = {"f32": (24, 8), "f64": (53, 11)}
PLACES = [f"chad {i}" for i in range(9)] + [c + a for c in "rgb" for a in "XYZ"]
GROUP = "# roundings, orders and widths: the inputs of docs/SUPPLIER.md"


def bits_of(value, width):
    """The bits of the number of a width that is nearest to a fraction, ties to even; normal numbers only."""
    digits, exponent_digits = WIDTHS[width]
    sign, value, power = value < 0, abs(value), 0
    while value >= 2 ** digits:
        value, power = value / 2, power + 1
    while value < 2 ** (digits - 1):
        value, power = value * 2, power - 1
    whole = round(value)  # of a Fraction: ties to even
    if whole == 2 ** digits:
        whole, power = whole // 2, power + 1
    field = power + digits - 1 + 2 ** (exponent_digits - 1) - 1
    return (sign << (digits + exponent_digits - 1)) + (field << (digits - 1)) + whole - 2 ** (digits - 1)


def value_of(bits, width):
    digits, exponent_digits = WIDTHS[width]
    field = bits >> (digits - 1) & (2 ** exponent_digits - 1)
    whole = bits % 2 ** (digits - 1) + 2 ** (digits - 1)
    power = field - (2 ** (exponent_digits - 1) - 1) - (digits - 1)
    return Fraction(whole) * Fraction(2) ** power * (-1 if bits >> (digits + exponent_digits - 1) else 1)


def rounded(text, width):
    return value_of(bits_of(Fraction(text.replace("_", "")), width), width)


def constant(text, width):
    """The bits of a decimal, of a quotient of two, or of a cube root."""
    if text.startswith("cbrt "):
        exact = rounded(text[5:], width)
        scale = 2 ** 90
        root = Fraction(integer_root(exact.numerator * scale ** 3 // exact.denominator), scale)
        return bits_of(root, width)
    parts = [rounded(part, width) for part in text.split(" / ")]
    return bits_of(parts[0] / parts[1] if len(parts) == 2 else parts[0], width)


def integer_root(n):
    low, high = 0, 1 << (n.bit_length() // 3 + 2)
    while high - low > 1:
        middle = (low + high) // 2
        low, high = (middle, high) if middle ** 3 <= n else (low, middle)
    return low


def rows(columns):
    """The rows of the tables of SUPPLIER.md that have these columns."""
    head = False
    for line in (TOP / "docs" / "SUPPLIER.md").read_text(encoding="utf-8").split("\n"):
        cells = [cell.strip() for cell in re.split(r"(?<!\\)\|", line)[1:-1]]
        if cells == columns:
            head = True
        elif not cells:
            head = False
        elif head and not set("".join(cells)) <= set("-"):
            yield cells


def check_constants(source):
    rust = "".join(path.read_text() for path in source.rglob("*.rs")).replace("_", "") if source else None
    count = 0
    for what, texts, width, bits, definition in rows(["what", "in the Rust", "width", "bits", "definition"]):
        crate, file = re.fullmatch(r"`(\w+)/(\w+)#\w+`", definition).groups()
        specification = (TOP / "crates" / crate / "specs" / f"{file}.antt").read_text(encoding="utf-8").replace("_", "")
        texts, bits = texts.split(", "), bits.split(", ")
        if len(texts) != len(bits):
            yield f"{what}: {len(texts)} constants, {len(bits)} patterns of bits"
        for text, pattern in zip(texts, bits):
            count += 1
            found = constant(text, width)
            if found != int(pattern, 16):
                yield f"{what}: {text} is {found:x}, not {pattern}"
            if f"0x{pattern}" not in specification:
                yield f"{what}: {pattern} is not in {crate}/{file}"
            for decimal in re.findall(r"[\d.e_]+(?:-\d+)?", text.removeprefix("-")):
                if rust is not None and decimal.replace("_", "") not in rust:
                    yield f"{what}: {decimal} is not in the Rust"
    print(f"{count} constants")


def cases():
    """The encodings of the cases and their answers, in order."""
    lines = (TOP / "conformance" / "encodings.txt").read_text().split("\n")
    start = lines.index(GROUP) + 1
    end = next(i for i in range(start, len(lines)) if lines[i].startswith("#"))
    return [line.split(" = ") for line in lines[start:end]]


def float_field(text):
    """A coordinate of the table of cases as the list has it."""
    if re.fullmatch(r"[0-9a-f]{8}", text):
        return text
    return f"{bits_of(Fraction(text), 'f32'):08x}" if Fraction(text) else "00000000"


def coordinates(text, names, count):
    """The number of a kind and its floats: a name of these, or coordinates of one's own."""
    if text in names:
        return [str(names.index(text))] + count * ["00000000"]
    return ["3"] + [float_field(part) for part in re.split("[,;] ", text)]


def check_encodings():
    """Holds the table of cases against the encodings of the list."""
    listed = [encoding for encoding, _ in cases()]
    table = list(rows(["case", "kind", "white", "primaries", "curve, intent"]))
    if len(table) != len(listed):
        yield f"{len(table)} cases in the table, {len(listed)} in the list"
    for (case, kind, white, primaries, curve), encoding in zip(table, listed):
        curve, intent = re.match(r"([\w. ]+), (\w+)", curve).groups()
        fields = ["1200", str(("gray", "RGB").index(kind) + 1)]
        fields += coordinates(white, ("D65", "E", "DCI"), 2)
        fields += coordinates(primaries, ("SRGB", "BT2100", "P3"), 6) if primaries else ["0"] + 6 * ["00000000"]
        if curve.startswith("gamma "):
            fields += ["6", float_field(curve.removeprefix("gamma "))]
        else:
            fields += [str(("BT709", "Linear", "SRGB", "PQ", "DCI").index(curve)), "00000000"]
        fields.append(str(("Perceptual", "Relative", "Saturation", "Absolute").index(intent)))
        if " ".join(fields) != encoding:
            yield f"{case} is {encoding} in the list, {' '.join(fields)} in the table"


def numbers_of(profile):
    """The fixed numbers of a profile by their names in the tables."""
    word = lambda at: int.from_bytes(profile[at:at + 4], "big", signed=True)
    lines = range(132, 132 + 12 * word(128), 12)
    offsets = {profile[at:at + 4].decode(): word(at + 4) for at in lines}
    if "kTRC" in offsets:
        return {"wX": word(offsets["wtpt"] + 8), "wZ": word(offsets["wtpt"] + 16), "gamma": word(offsets["kTRC"] + 12)}
    places = [offsets["chad"] + 8 + 4 * i for i in range(9)]
    places += [offsets[c + "XYZ"] + 8 + 4 * i for c in "rgb" for i in range(3)]
    return dict(zip(PLACES, map(word, places)))


def check_cases():
    answers, count = [answer for _, answer in cases()], 0
    for mistake, case, number, right, _, _ in rows(["mistake", "case", "number", "right", "wrong", "lines"]):
        if not case:
            continue
        count += 1
        answer = answers[int(case.removeprefix("S")) - 1]
        if answer.startswith("refused") or not number:
            found = answer if answer.startswith("refused") else "accepted"
        else:
            found = str(numbers_of(bytes.fromhex(answer.split(" ")[2]))[number])
        if found != right:
            yield f"{mistake}: {case} {number} is {found}, not {right}"
    print(f"{count} numbers of {len(answers)} cases")


def xyb_numbers(profile):
    """The numbers of an XYB profile by the names of their table."""
    number = lambda at, size, signed: int.from_bytes(profile[at:at + size], "big", signed=signed)
    lines = range(132, 132 + 12 * number(128, 4, False), 12)
    offsets = {profile[at:at + 4].decode(): number(at + 4, 4, False) for at in lines}
    a2b0 = offsets["A2B0"]
    words = lambda at, count: [number(at + 4 * i, 4, True) for i in range(count)]
    return {
        "CLUT": [number(a2b0 + 100 + 2 * i, 2, False) for i in range(24)],
        "M curves": sum((words(a2b0 + 160 + 32 * i, 5) for i in range(3)), []),
        "matrix": words(a2b0 + 244, 12),
        "`chad`": words(offsets["chad"] + 8, 9),
    }


def check_xyb():
    lines = (TOP / "conformance" / "encodings.txt").read_text().split("\n")
    answer = next(line.split(" bytes ")[1] for line in lines if line.startswith("1200 3 ") and " = 720 bytes " in line)
    count = 0
    for element, numbers in rows(["element", "numbers"]):
        count += 1
        found = xyb_numbers(bytes.fromhex(answer))[element]
        if [int(number) for number in re.split("[,;] ", numbers)] != found:
            yield f"XYB, {element}: {found}"
    print(f"{count} elements of XYB")


def check_counts():
    """Holds the counts of rounded numbers against the bits of the constants, and their sums against the numbers of a file."""
    constants = list(rows(["what", "in the Rust", "width", "bits", "definition"]))

    def rounded_of(name):
        """How many of the constants with this name or definition, as f32, are no whole number of 65536ths."""
        named = [row for row in constants if row[0] == name or row[4].endswith(f"#{name}`")]
        values = [value_of(int(pattern, 16), width) for _, _, width, bits, _ in named for pattern in bits.split(", ")]
        return sum((value_of(bits_of(value, "f32"), "f32") * 65536).denominator != 1 for value in values)

    # Linear has ones and zeros; of XYB's matrix the constants, and not the intercepts.
    due = {"SRGB": rounded_of("curve SRGB"), "BT709": rounded_of("curve BT709"), "Linear": 0, "DCI": rounded_of("curve DCI, gamma")}
    white, matrix = rounded_of("d50_floats"), rounded_of("xyb_icc_matrix")
    for curve, numbers, rounded in rows(["curve", "numbers", "rounded"]):
        if numbers != ("1" if curve == "gamma" else "5") or str(due.get(curve, "by 1 / g")) != rounded:
            yield f"curve {curve}: {numbers} numbers, {rounded} rounded"
    kind, sums = "", {}
    for name, tag, numbers, _, rounded in rows(["kind", "tag", "numbers", "made from", "rounded"]):
        kind = name or kind
        if tag == "`wtpt`" and kind != "gray" and rounded != str(white):
            yield f"{kind}, {tag}: {white} are rounded, not {rounded}"
        if "matrix" in tag and int(rounded) != matrix + 3:
            yield f"{kind}, {tag}: {matrix} of the constants are rounded"
        most, count = sums.get(kind, (0, 0))
        sums[kind] = most + int(numbers.split(" ")[0]), count + int(rounded if rounded.isdigit() else 0)
    if sums["RGB"][0] != 26 or sums["gray"][0] != 8 or sums["adapted gray"] != (17, white) or sums["XYB"] != (45, 30):
        yield f"numbers of each kind, and those that are always rounded: {sums}"
    # All nine of D65's chad are rounded, as those of XYB, which are the same; 1 / 0.5 is whole.
    d65 = next(int(rounded) for kind, tag, _, _, rounded in rows(["kind", "tag", "numbers", "made from", "rounded"]) if (tag, rounded) == ("`chad`", "9"))
    for encoding, numbers, rounded in rows(["encoding", "numbers", "rounded"]):
        curve = encoding.removeprefix("adapted gray, D65, ")
        if curve != encoding and [numbers, rounded] != ["13" if curve == "gamma 0.5" else "17", str(white + d65 + due.get(curve, 0))]:
            yield f"{encoding}: {numbers} numbers, {rounded} rounded"
    print(f"{sum(most for most, _ in sums.values())} numbers that may be rounded")


def id_of(profile):
    """The id: the MD5 with flags, intent and the id itself blank."""
    blank = bytearray(profile)
    for start, end in ((44, 48), (64, 68), (84, 100)):
        blank[start:end] = bytes(end - start)
    return hashlib.md5(blank).hexdigest()


INTENTS = ("Perceptual", "Relative", "Saturation", "Absolute")


def fields_of(encoding):
    """The named encoding of a table of ids as the fields of the list."""
    kind, *names = encoding.split(", ")
    number = lambda known: str(known.index(names.pop(0)))
    fields = [str(("gray", "RGB", "XYB", "adapted gray").index(kind) + 1)]
    fields += [number(("D65", "E", "DCI")) if kind != "XYB" else "0"] + 2 * ["00000000"]
    fields += [number(("SRGB", "BT2100", "P3")) if kind == "RGB" else "0"] + 6 * ["00000000"]
    fields += [number(("BT709", "Linear", "SRGB", "PQ", "DCI")) if kind != "XYB" else "0", "00000000"]
    return " ".join(fields + [number(INTENTS)])


def with_intent(perceptual, intent):
    """XYB of another intent: byte 67, the three letters of its name in UTF-16, and the id."""
    letters = INTENTS[intent][:3].encode("utf-16-be")
    changed = perceptual[:67] + bytes([intent]) + perceptual[68:240] + letters + perceptual[246:]
    return changed[:84] + bytes.fromhex(id_of(changed)) + changed[100:]


def profile_of(encoding, length, lines):
    """The profile of an encoding in the list, or None. XYB of other intents is made from the Perceptual one, and its MD5 must be there."""
    if encoding.startswith("XYB, ") and not encoding.endswith("Perceptual"):
        perceptual = profile_of("XYB, Perceptual", length, lines)
        profile = with_intent(perceptual, INTENTS.index(encoding.removeprefix("XYB, ")))
        known = f"= {length} md5 {hashlib.md5(profile).hexdigest()}"
        return profile if any(line.endswith(known) for line in lines) else None
    asked = f"1200 {fields_of(encoding)} = {length} bytes "
    return next((bytes.fromhex(line[len(asked):]) for line in lines if line.startswith(asked)), None)


def check_adapted():
    """Holds the tags of adapted gray against its profile in the list."""
    lines = (TOP / "conformance" / "encodings.txt").read_text().split("\n")
    profile = profile_of("adapted gray, D65, SRGB, Relative", 384, lines)
    word = lambda at: int.from_bytes(profile[at:at + 4], "big", signed=True)
    # Where the letters or numbers of an element begin, by its type.
    start = {b"mluc": 28, b"XYZ ": 8, b"sf32": 8, b"para": 12}
    found = []
    for at in range(132, 132 + 12 * word(128), 12):
        offset, size = word(at + 4), word(at + 8)
        first, end = offset + start[profile[offset:offset + 4]], offset + size
        text = profile[first:end].decode("utf-16-be") if profile[offset:offset + 4] == b"mluc" else ""
        held = text or ", ".join(str(word(place)) for place in range(first, end, 4))
        found.append([f"`{profile[at:at + 4].decode()}`", str(offset), str(size), held])
    table = list(rows(["tag", "offset", "bytes", "holds"]))
    if table != found:
        yield f"adapted gray: {found}"
    print(f"{len(table)} tags of adapted gray")


def check_ids():
    """Holds the ids of profiles, with zeros for maker and model and with ACME and PLT1, against the profiles of the list."""
    lines = (TOP / "conformance" / "encodings.txt").read_text().split("\n")
    count = 0
    for encoding, length, zeros, device in rows(["encoding", "bytes", "id with zeros", "id with ACME and PLT1"]):
        count += 1
        profile = profile_of(encoding, length, lines)
        if profile is None:
            yield f"{encoding} is not in the list with {length} bytes"
            continue
        marked = profile[:48] + b"ACMEPLT1" + profile[56:]
        if [profile[84:100].hex(), id_of(profile), id_of(marked)] != [zeros, zeros, device]:
            yield f"{encoding}: the ids are {id_of(profile)} and {id_of(marked)}"
    print(f"{count} profiles with two ids")


def main():
    source = pathlib.Path(sys.argv[1]) if len(sys.argv) > 1 else None
    wrong = list(check_constants(source)) + list(check_encodings()) + list(check_cases()) + list(check_xyb()) + list(check_counts())
    wrong += list(check_adapted()) + list(check_ids())
    for line in wrong:
        print(line)
    return 1 if wrong else 0


if __name__ == "__main__":
    sys.exit(main())
