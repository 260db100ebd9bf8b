#!/usr/bin/env python3
"""A second reading of the hall script's casts, written from docs/RULES.md and docs/FORMATS.md alone.

    tools/reference_casts.py < SCRIPT > ANSWERS

It knows nothing of the Rattle code. The stored answers in crates/chute/stdout were made with it, so that they do not
come from the program that they test. Single precision is had by rounding each double-precision result once more, which is
exact for sums, differences, products and quotients of single-precision numbers.
"""
import re
import struct
import sys
from fractions import Fraction

MILLION = 1_000_000.0
REACH = 4_000_000.0
KINDS = ["proxy", "compound", "trimesh", "polyline", "heightfield", "voxels", "other"]
LATER = "slots params bar place attach detach lift put aim advance solve first".split()


class Trouble(Exception):
    pass


def f32(x):
    return struct.unpack("<f", struct.pack("<f", x))[0] if abs(x) < 3.5e38 or x != x or x in (INF, -INF) else (INF if x > 0 else -INF)


INF = float("inf")


def of_bits(n):
    return struct.unpack("<f", struct.pack("<I", n))[0]


def bits(x):
    return struct.unpack("<I", struct.pack("<f", x))[0]


def add(a, b):
    return f32(a + b)


def sub(a, b):
    return f32(a - b)


def mul(a, b):
    return f32(a * b)


def div(a, b):
    return f32(a / b)


def is_minus_zero(x):
    return x == 0 and bits(x) == 0x8000_0000


# ---- text

def nearest(fraction):
    """The single-precision number nearest to a fraction, ties to even, by search over the exact values."""
    if fraction == 0:
        return 0.0
    low, high = 0, 0x7F7F_FFFF
    while high - low > 1:
        middle = (low + high) // 2
        if Fraction(of_bits(middle)) <= fraction:
            low = middle
        else:
            high = middle
    below, above = fraction - Fraction(of_bits(low)), Fraction(of_bits(high)) - fraction
    if below == above:
        return of_bits(low if low % 2 == 0 else high)
    return of_bits(low if below < above else high)


def number(word):
    m = re.fullmatch(r"0x([0-9a-fA-F]{1,8})", word)
    if m:
        n = int(m.group(1), 16)
        if n & 0x7F80_0000 == 0x7F80_0000 and n & 0x7F_FFFF:
            raise Trouble("no number")
        return of_bits(n)
    m = re.fullmatch(r"(-?)([0-9]+)(?:\.([0-9]+))?", word)
    if not m:
        raise Trouble("no number")
    places = m.group(3) or ""
    digits = int(m.group(2) + places)
    if digits > 16_777_216 or len(places) > 10:
        raise Trouble("a number has too many digits, write its bits as 0x........")
    value = nearest(Fraction(digits, 10 ** len(places)))
    return -value if m.group(1) else value


def numbers(word):
    return [number(part) for part in word.split(",")]


def place(word):
    ns = numbers(word)
    if len(ns) != 3:
        raise Trouble("no place, it is three numbers: x,y,z")
    return ns


def pose(word):
    ns = numbers(word)
    if len(ns) == 3:
        return ns + [0.0, 0.0, 0.0, 1.0]
    if len(ns) != 7:
        raise Trouble("no pose, it is three numbers or seven: x,y,z or x,y,z,i,j,k,w")
    return ns


def shape_number(word):
    if not re.fullmatch(r"[0-9]{1,10}", word) or int(word) > 0xFFFF_FFFF:
        raise Trouble("no shape number")
    return int(word)


def child(word):
    if "@" not in word:
        raise Trouble("no child, it is a shape number at a pose: N@POSE")
    n, at = word.split("@", 1)
    return (shape_number(n), pose(at))


def choice(words, trouble):
    def read(word):
        if word not in words:
            raise Trouble(trouble)
        return word
    return read


def optional(read):
    return lambda word: None if word == "-" else read(word)


STATUS = choice(["hit", "failed", "overlapped", "separated"], "no status, it is hit, failed, overlapped or separated")
PAIR = choice(["solid", "pseudo"], "no pair, it is solid or pseudo")
HOST = choice(["slide", "recorded"], "no host, it is slide or recorded")
KIND = choice(KINDS, "no kind of shape")
OVERLAP = choice(["yes", "no", "-"], "no overlap, it is yes, no or -")

FORMS = {
    "hall": [str],
    "host": [HOST],
    "box": [place],
    "row": [shape_number, shape_number, STATUS, number, optional(number), OVERLAP],
    "cast": [shape_number, pose, pose, shape_number, pose, PAIR],
}


def children(words, least):
    if len(words) < least:
        raise Trouble("a word is missing")
    read = []
    for word in words:
        if len(read) == 16:
            raise Trouble("more than 16 children")
        read.append(child(word))
    return read


def fixed(words, forms):
    out = []
    for i, form in enumerate(forms):
        if i >= len(words):
            raise Trouble("a word is missing")
        out.append(form(words[i]))
    if len(words) > len(forms):
        raise Trouble("a word is left over")
    return out


# ---- geometry

def in_range(ns, limit=MILLION):
    return all(-limit <= n <= limit for n in ns)


def no_turn(p):
    return p[3:] == [0.0, 0.0, 0.0, 1.0]


def admitted(p):
    return in_range(p[:3], REACH) and no_turn(p)


def plus(a, b):
    return [add(x, y) for x, y in zip(a, b)]


def minus(a, b):
    return [sub(x, y) for x, y in zip(a, b)]


def placed(v):
    return list(v) + [0.0, 0.0, 0.0, 1.0]


def product(a, b):
    return placed(plus(a[:3], b[:3]))


def pose_at(start, end, f):
    return placed([add(s, mul(sub(e, s), f)) for s, e in zip(start[:3], end[:3])])


def meeting(low, high, least, greatest, stroke):
    """When a box that moves along a stroke meets one that stands still."""
    time, leaves = 0.0, []
    for axis in range(3):
        a = sub(least[axis], high[axis])
        b = sub(greatest[axis], low[axis])
        d = stroke[axis]
        if d > 0:
            enter, leave = div(a, d), div(b, d)
        elif d < 0:
            enter, leave = div(b, d), div(a, d)
        elif a <= 0 <= b:
            continue
        else:
            return None
        if enter > time:
            time = enter
        leaves.append(leave)
    if time > 1 or any(time > leave for leave in leaves):
        return None
    return time


class Slide:
    def __init__(self):
        self.shapes = []

    def half(self, n):
        if n < len(self.shapes) and self.shapes[n][0] == "box":
            h = self.shapes[n][1]
            if in_range(h) and all(x >= 0 for x in h):
                return h
        return None

    def children(self, n):
        if n < len(self.shapes) and self.shapes[n][0] == "compound":
            cs = self.shapes[n][1]
            if 1 <= len(cs) <= 16 and all(self.half(s) is not None and in_range(p) and no_turn(p) for s, p in cs):
                return cs
        return []

    def kind(self, n):
        if self.half(n) is not None:
            return "proxy"
        return "compound" if self.children(n) else None

    def box(self, n, at):
        h = self.half(n)
        return minus(at[:3], h), plus(at[:3], h)

    def proxy(self, fast, start, end, target, at):
        t = meeting(*self.box(fast, start), *self.box(target, at), minus(end[:3], start[:3]))
        if t is None or t > 1:
            return ("separated", 1.0)
        return ("overlapped", t) if t == 0 else ("hit", t)

    def composite(self, fast, start, end, target, at, pair):
        best = None
        for s, p in self.children(target):
            t = meeting(*self.box(fast, start), *self.box(s, product(at, p)), minus(end[:3], start[:3]))
            if t is None or (pair == "solid" and t == 0):
                continue
            if best is None or t < best:
                best = t
        if best is None:
            return None
        return ("overlapped", best) if best == 0 else ("hit", best)

    def turning(self, fast, target):
        return "unsupported"


class Recorded:
    def __init__(self):
        self.shapes = []
        self.rows = []

    def entry(self, n):
        if n < len(self.shapes):
            kind, least, greatest, cs = self.shapes[n]
            if in_range(least) and in_range(greatest) and all(a <= b for a, b in zip(least, greatest)):
                return self.shapes[n]
        return None

    def children(self, n):
        e = self.entry(n)
        if e and e[0] == "compound" and 1 <= len(e[3]) <= 16:
            if all(self.entry(s) and self.entry(s)[0] != "compound" and in_range(p) and no_turn(p) for s, p in e[3]):
                return e[3]
        return []

    def kind(self, n):
        e = self.entry(n)
        if not e or (e[0] == "compound" and not self.children(n)):
            return None
        return e[0]

    def row(self, fast, target):
        for row in self.rows:
            f, t, status, fraction, time, overlap = row
            if f == fast and t == target and 0 <= fraction <= 1 and not is_minus_zero(fraction):
                if time is None or (0 <= time <= MILLION and not is_minus_zero(time)):
                    return row
        return None

    def proxy(self, fast, start, end, target, at):
        row = self.row(fast, target)
        return ("separated", 1.0) if row is None else (row[2], row[3])

    def composite(self, fast, start, end, target, at, pair):
        return self.proxy(fast, start, end, target, at)

    def turning(self, fast, target):
        row = self.row(fast, target)
        return None if row is None else row[4]


# ---- casts

def taken(fraction, separated, pair):
    if pair == "solid":
        return 0 < fraction < 1
    return not separated and fraction <= 1


def decimals(x):
    """Rust's `{:?}` of an f32: the shortest decimals that read back as the same number."""
    if x == 0:
        return "-0.0" if is_minus_zero(x) else "0.0"
    for digits in range(1, 10):
        text = "%.*e" % (digits - 1, x)
        if f32(float(text)) == x:
            break
    mantissa, exponent = text.split("e")
    exponent = int(exponent)
    if abs(x) >= 1e16 or abs(x) < 1e-4:
        return mantissa.rstrip("0").rstrip(".") + "e" + str(exponent) if "." in mantissa else mantissa + "e" + str(exponent)
    plain = "%.*f" % (max(0, digits - 1 - exponent), x)
    return plain if "." in plain else plain + ".0"


def shown(x):
    return "%08x (%s)" % (bits(x), decimals(x))


def cast(host, order):
    fast, start, end, target, at, pair = order
    if not (in_range(start) and in_range(end) and in_range(at)):
        return ["cast refused 1: a number is out of range"], False
    if not (admitted(start) and admitted(end) and admitted(at)):
        return ["cast refused 1: a pose is not admitted"], False
    kind, target_kind = host.kind(fast), host.kind(target)
    if kind is None or target_kind is None:
        return ["cast refused 3: a shape is unknown"], False
    lines, impacts = ["cast " + pair], []
    if kind == "proxy":
        pieces = [(fast, start, end)]
    elif kind == "compound":
        pieces = [(s, product(start, p), product(end, p)) for s, p in host.children(fast) if host.kind(s) == "proxy"]
    else:
        pieces = []
    if kind == "other" or (pieces and target_kind in ("voxels", "other")):
        answer = host.turning(fast, target)
        if answer == "unsupported":
            lines.append("  whole unsupported")
        elif answer is None:
            lines.append("  whole nothing")
        else:
            lines.append("  whole time " + shown(answer))
            if taken(div(answer, 1.0), False, pair):
                impacts.append(div(answer, 1.0))
    elif not pieces:
        lines.append("  never swept")
    else:
        for i, (s, a, b) in enumerate(pieces):
            if target_kind == "proxy":
                answer = host.proxy(s, a, b, target, at)
            else:
                answer = host.composite(s, a, b, target, at, pair)
            if answer is None:
                lines.append("  piece %d nothing" % i)
                continue
            lines.append("  piece %d %s %s" % (i, answer[0], shown(answer[1])))
            if taken(answer[1], answer[0] == "separated", pair):
                impacts.append(answer[1])
    impact = min(impacts) if impacts else None
    lines.append("  impact " + ("none" if impact is None else shown(impact)))
    stands = pose_at(start, end, impact) if pair == "solid" and impact is not None else end
    lines.append("  stands " + "".join("%08x " % bits(x) for x in stands) + "(" + ",".join(decimals(x) for x in stands[:3]) + ")")
    return lines, True


def main():
    halls = granted = refused = unread = 0
    slide, recorded = Slide(), Recorded()
    chosen = "slide"
    lines = sys.stdin.buffer.read().decode("latin-1").split("\n")
    if lines and lines[-1] == "":
        lines.pop()
    for number_of_line, line in enumerate(lines, 1):
        words = [w for w in re.split(r"[ \t\r]+", line.split("#", 1)[0]) if w]
        if not words:
            continue
        verb, rest = words[0], words[1:]
        try:
            if verb in FORMS:
                values = fixed(rest, FORMS[verb])
            elif verb == "compound":
                values = children(rest, 1)
            elif verb == "listed":
                values = []
                for i, form in enumerate([KIND, place, place]):
                    if i >= len(rest):
                        raise Trouble("a word is missing")
                    values.append(form(rest[i]))
                values.append(children(rest[3:], 0))
            elif verb in LATER:
                raise Trouble("this command is not there yet")
            else:
                raise Trouble("no such command")
        except Trouble as trouble:
            print("line %d: %s" % (number_of_line, trouble))
            unread += 1
            continue
        if verb == "hall":
            halls += 1
            slide, recorded, chosen = Slide(), Recorded(), "slide"
            print("hall " + values[0])
        elif verb == "host":
            chosen = values[0]
        elif verb == "box":
            slide.shapes.append(("box", values[0]))
        elif verb == "compound":
            slide.shapes.append(("compound", values))
        elif verb == "listed":
            recorded.shapes.append(values)
        elif verb == "row":
            recorded.rows.append(values)
        else:
            answer, ok = cast(slide if chosen == "slide" else recorded, values)
            print("\n".join(answer))
            granted, refused = granted + ok, refused + (not ok)
    print("halls %d, granted %d, refused %d, lines not read %d" % (halls, granted, refused, unread))


main()
