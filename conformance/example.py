#!/usr/bin/env python3
"""The writer once more, by what docs/SCOPE.md and docs/SUPPLIER.md say: an example of a program that try.py tries.

  conformance/try.py python3 conformance/example.py

Python's floats are f64. An operation in f32 is one in f64 rounded to f32 after it, which for one operation on f32 values gives the same. Numbers in
brackets are the sections of SUPPLIER.md.
"""

import ctypes
import hashlib
import math
import struct
import sys

WHITES = ("3ea01a37 3ea872b0", "3eaaaaab 3eaaaaab", "3ea0c49c 3eb3b646")
PRIMARIES = (
    "3f23d6f4 3ea8f717 3e999a19 3f1999d2 3e199a23 3d75bfa1",
    "3f353f7d 3e958106 3e2e147b 3f4c0831 3e0624dd 3d3c6a7f",
    "3f2e147b 3ea3d70a 3e87ae14 3f30a3d7 3e19999a 3d75c28f",
)
BRADFORD = ((0.8951, 0.2664, -0.1614), (-0.7502, 1.7135, 0.0367), (0.0389, -0.0685, 1.0296))
BRADFORD_INV = ((0.9869929, -0.1470543, 0.1599627), (0.4323053, 0.5183603, 0.0492912), (-0.0085287, 0.0400428, 0.9684867))
D50 = (0.96422, 1.0, 0.82521)
D50_FIXED = (63190, 65536, 54061)
GRAY, RGB, XYB, ADAPTED_GRAY = 1, 2, 3, 4
OWN, PQ, HLG, GAMMA = 3, 3, 5, 6
CURVES = {
    0: ("709", 1, (145636, 59632, 5904, 14564, 5308)),
    1: ("Lin", 8, (65536, 65536, 0, 65536, 0)),
    2: ("SRG", 13, (157286, 62119, 3417, 5072, 2651)),
    4: ("DCI", 17, (170394, 65536, 0, 65536, 0)),
}
INTENTS = ("Per", "Rel", "Sat", "Abs")
CICP = {(0, 0): 1, (0, 1): 9, (0, 2): 12, (2, 2): 11}
XYB_CHAD = (68672, 1501, -3287, 1938, 64912, -1118, -606, 987, 49281)
XYB_CLUT = (0, 3206, 0, 0, 3206, 28873, 62329, 65535, 36662, 62329, 65535, 65535)
XYB_CLUT += (3206, 0, 0, 3206, 0, 28873, 65535, 62329, 36662, 65535, 62329, 65535)
XYB_M_CURVES = ((196608, 58248, 9212, 0, 0), (196608, 58248, 8379, 0, 0), (196608, 99027, -7979, 0, 5281))
XYB_MATRIX = (99419, -72517, 4694, -3278, 37248, -1202, -90943, 73044, 44940, -120, -124, -103)


class Refused(Exception):
    pass


# ---- floats


def f32(x):
    return ctypes.c_float(x).value


def floats(words):
    return [struct.unpack(">f", bytes.fromhex(word))[0] for word in words]


def divided(a, b):
    """IEEE 754's division: Python refuses to divide by zero."""
    if b != 0:
        return a / b
    return math.nan if a == 0 or a != a else math.copysign(math.inf, a) * math.copysign(1.0, b)


def dot(a, b):
    return a[0] * b[0] + a[1] * b[1] + a[2] * b[2]


def applied(m, v):
    return [dot(row, v) for row in m]


def product(a, b):
    return [[dot(row, [b[k][j] for k in range(3)]) for j in range(3)] for row in a]


def diagonal(v):
    return [[v[0], 0.0, 0.0], [0.0, v[1], 0.0], [0.0, 0.0, v[2]]]


def fixed(x, refusal):
    """[6]"""
    if not (math.isfinite(x) and abs(x) <= 32767.994140625):
        raise Refused(refusal)
    magnitude = math.floor(abs(x) * 65536 + 0.5)
    return -magnitude if x < 0 else magnitude


# ---- white and primaries


def gray_white(wx, wy):
    """[7]"""
    if abs(wy) < f32(1e-12):
        raise Refused(3)
    factor = f32(divided(1.0, wy))
    z = f32(f32(f32(1.0 - wx) - wy) * factor)
    return [fixed(f32(wx * factor), 7), 65536, fixed(z, 7)]


def adapted(wx, wy):
    """[1, 2] The white's XYZ, and the adaptation."""
    if not (0 <= wx <= 1 and 0 < wy <= 1):
        raise Refused(4)
    white = [divided(wx, wy), 1.0, divided(1.0 - wx - wy, wy)]
    lms = applied(BRADFORD, white)
    if not (math.isfinite(white[0]) and math.isfinite(white[2])) or 0.0 in lms:
        raise Refused(4)
    gains = [divided(d, s) for d, s in zip(applied(BRADFORD, D50), lms)]
    if not all(math.isfinite(gain) for gain in gains):
        raise Refused(4)
    return white, product(BRADFORD_INV, product(diagonal(gains), BRADFORD))


def chad(adaptation):
    """[5, 6]"""
    return (("chad",), sf32([fixed(f32(x), 5) for row in adaptation for x in row]))


def inverse(m):
    """[3]"""
    others = ((1, 2), (0, 2), (0, 1))

    def cofactor(r, c):
        (r0, r1), (c0, c1) = others[r], others[c]
        minor = m[r0][c0] * m[r1][c1] - m[r0][c1] * m[r1][c0]
        return minor if (r + c) % 2 == 0 else -minor

    cofactors = [[cofactor(r, c) for c in range(3)] for r in range(3)]
    det = dot(m[0], cofactors[0])
    if abs(det) < 1e-12:
        raise Refused(6)
    reciprocal = divided(1.0, det)
    return [[cofactors[c][r] * reciprocal for c in range(3)] for r in range(3)]


def matrix(xy, white, adaptation):
    """[3, 4]"""
    x, y = xy[0::2], xy[1::2]
    primaries = [x, y, [1.0 - a - b for a, b in zip(x, y)]]
    scales = applied(inverse(primaries), white)
    return product(adaptation, product(primaries, diagonal(scales)))


# ---- bytes [11]


def word(n):
    return struct.pack(">I", n & 0xFFFFFFFF)


def words(numbers):
    return b"".join(word(n) for n in numbers)


def mluc(text):
    return b"mluc" + words((0, 1, 12)) + b"enUS" + words((2 * len(text), 28)) + text.encode("utf-16-be")


def xyz(numbers):
    return b"XYZ " + word(0) + words(numbers)


def sf32(numbers):
    return b"sf32" + word(0) + words(numbers)


def para(function, numbers):
    return b"para" + word(0) + struct.pack(">HH", function, 0) + words(numbers)


def first(text, white):
    return [(("desc",), mluc(text)), (("cprt",), mluc("CC0")), (("wtpt",), xyz(white))]


def file(class_and_space, intent, elements):
    count = sum(len(signatures) for signatures, _ in elements)
    table, body, start = word(count), b"", 132 + 12 * count
    for signatures, element in elements:
        for signature in signatures:
            table += signature.encode() + words((start + len(body), len(element)))
        body += element + bytes(-len(element) % 4)

    def header(intent, identifier):
        return (
            word(start + len(body)) + b"jxl " + word(0x04400000) + class_and_space + b"XYZ "
            + struct.pack(">6H", 2019, 12, 1, 0, 0, 0) + b"acspAPPL" + bytes(20) + word(intent)
            + words(D50_FIXED) + b"jxl " + identifier + bytes(28)
        )

    # [12] the intent and the id count as zero
    identifier = hashlib.md5(header(0, bytes(16)) + table + body).digest()
    return header(intent, identifier) + table + body


# ---- profiles


def decimals(x):
    """[9]"""
    if math.isfinite(x):
        return f"{x:.7f}"
    return "NaN" if x != x else "inf" if x > 0 else "-inf"


def xyb(intent):
    """[10]"""
    identity = 3 * para(0, (65536,))
    a2b0 = b"mAB " + word(0) + bytes((3, 3, 0, 0)) + words((32, 244, 148, 80, 32)) + identity
    a2b0 += bytes((2, 2, 2)) + bytes(13) + bytes((2, 0, 0, 0)) + struct.pack(">24H", *XYB_CLUT)
    a2b0 += b"".join(para(3, curve) for curve in XYB_M_CURVES) + words(XYB_MATRIX)
    b2a0 = b"mBA " + word(0) + bytes((3, 3, 0, 0)) + words((32, 0, 0, 0, 0)) + identity
    elements = [(("chad",), sf32(XYB_CHAD)), (("A2B0",), a2b0), (("B2A0",), b2a0)]
    return file(b"scnrRGB ", intent, first(f"XYB_{INTENTS[intent]}", D50_FIXED) + elements)


def gray(kind, white, curve, g, intent):
    """[17] Adapted gray has the white and the `chad` of RGB."""
    white_name, wx, wy = white
    if kind == ADAPTED_GRAY:
        numbers, more = D50_FIXED, [chad(adapted(wx, wy)[1])]
    else:
        numbers, more = gray_white(wx, wy), []
    curve_name, element = curve_of(curve, g)
    text = f"Gra_{white_name}_{INTENTS[intent]}_{curve_name}"
    return file(b"mntrGRAY", intent, first(text, numbers) + more + [(("kTRC",), element)])


def curve_of(curve, g):
    """[8] Its name and its element."""
    if curve == GAMMA:
        return "g" + decimals(g), para(0, (fixed(f32(divided(1.0, g)), 8),))
    name, _, numbers = CURVES[curve]
    return name, para(3, numbers)


def rgb(kinds, white, primaries, g, intent):
    white_kind, primaries_kind, curve = kinds
    (white_name, wx, wy), (primaries_name, xy) = white, primaries
    white_xyz, adaptation = adapted(wx, wy)
    chad_element = chad(adaptation)
    m = matrix(xy, white_xyz, adaptation)
    columns = [[fixed(f32(m[r][c]), 7) for r in range(3)] for c in range(3)]
    curve_name, element = curve_of(curve, g)
    text = f"RGB_{white_name}_{primaries_name}_{INTENTS[intent]}_{curve_name}"
    text = {(0, 0, 2, 0): "sRGB", (0, 2, 2, 0): "DisplayP3"}.get((*kinds, intent), text)
    elements = first(text, D50_FIXED) + [chad_element]
    cicp = CICP.get((white_kind, primaries_kind))
    if cicp and curve != GAMMA:
        elements.append((("cicp",), b"cicp" + word(0) + bytes((cicp, CURVES[curve][1], 0, 1))))
    elements += [((color + "XYZ",), xyz(column)) for color, column in zip("rgb", columns)]
    return file(b"mntrRGB ", intent, elements + [(("rTRC", "gTRC", "bTRC"), element)])


def profile(fields):
    kind, white, primaries, curve, intent = (int(fields[at]) for at in (1, 2, 5, 12, 14))
    used = kind in (GRAY, RGB, ADAPTED_GRAY)
    if not (used or kind == XYB) or intent > 3 or used and (white > OWN or curve > GAMMA) or kind == RGB and primaries > OWN:
        raise Refused(43)
    if used and curve in (PQ, HLG):
        raise Refused(1)
    if kind == XYB:
        return xyb(intent)
    wx, wy = floats(fields[3:5] if white == OWN else WHITES[white].split())
    white_name = f"{decimals(wx)};{decimals(wy)}" if white == OWN else ("D65", "EER", "DCI")[white]
    (g,) = floats(fields[13:14])
    if kind != RGB:
        return gray(kind, (white_name, wx, wy), curve, g, intent)
    xy = floats(fields[6:12] if primaries == OWN else PRIMARIES[primaries].split())
    pairs = (f"{decimals(x)},{decimals(y)}" for x, y in zip(xy[0::2], xy[1::2]))
    name = ";".join(pairs) if primaries == OWN else ("SRG", "202", "DCI")[primaries]
    return rgb((white, primaries, curve), (white_name, wx, wy), (name, xy), g, intent)


def main():
    for line in sys.stdin:
        fields = line.split()
        try:
            written = profile(fields)
            if len(written) > int(fields[0]):
                raise Refused(9)
            print(written.hex())
        except Refused as refusal:
            print("refused", refusal)


if __name__ == "__main__":
    main()
