#!/usr/bin/env python3
"""The scan program by the customer's rules, written anew from document 01 and not from the library, and random files that hold the two together.

  scan_model.py PROGRAM [COUNT [SEED]]     run COUNT random and damaged files (default 3000) through PROGRAM and compare what it writes

The model is plain on purpose: lists, loops, whole numbers.
"""

import os
import random
import struct
import subprocess
import sys
import tempfile

SLOTS = 4096
MOST = 1_000_000_000


# The rules. A refusal is an exception with its number.


class Refused(Exception):
    def __init__(self, number):
        super().__init__(number)
        self.number = number


def read(data):
    """Three sections of little-endian u32 words, each after its count: epsilon (2), fractions (even, at most 128), observations (at most 8192)."""
    if len(data) % 4:
        raise Refused(12)
    words = [int.from_bytes(data[i : i + 4], "little") for i in range(0, len(data), 4)]
    sections, at = [], 0
    for fits in (lambda n: n == 2, lambda n: n % 2 == 0 and n <= 128, lambda n: n <= 8192):
        if at >= len(words) or not fits(words[at]) or at + 1 + words[at] > len(words):
            raise Refused(12)
        sections.append(words[at + 1 : at + 1 + words[at]])
        at += 1 + words[at]
    if at != len(words):
        raise Refused(12)
    epsilon, fractions, observations = sections
    return tuple(epsilon), list(zip(fractions[::2], fractions[1::2])), observations


class Stream:
    """A Greenwald-Khanna summary: triples [v, g, delta], sorted by v."""

    def __init__(self, epsilon):
        self.num, self.den = epsilon
        if not 1 <= self.den <= 65536 or not 0 < 2 * self.num <= self.den:
            raise Refused(2)
        self.n = 0
        self.entries = []

    def p(self):
        return 2 * self.num * self.n // self.den

    def insert(self, v):
        if self.n == MOST:
            raise Refused(5)
        if len(self.entries) == SLOTS:
            raise Refused(6)
        place = next((i for i, e in enumerate(self.entries) if e[0] > v), len(self.entries))
        inner = 0 < place < len(self.entries)
        self.entries.insert(place, [v, 1, self.p() if inner else 0])
        self.n += 1
        if self.n % (self.den // (2 * self.num)) == 0:
            self.compress()

    def compress(self):
        p = self.p()
        band = lambda d: (p - d + 1).bit_length() - 1
        es = self.entries
        for i in range(len(es) - 2, 0, -1):
            if es[i][1] + es[i + 1][1] + es[i + 1][2] < p and band(es[i][2]) <= band(es[i + 1][2]):
                es[i + 1][1] += es[i][1]
                del es[i]

    def quantile(self, phi):
        num, den = phi
        if not 1 <= den <= 65536 or num > den:
            raise Refused(7)
        if self.n == 0:
            raise Refused(8)
        limit = num * self.n // den + self.num * self.n // self.den
        before = 0
        for i in range(1, len(self.entries)):
            before += self.entries[i - 1][1]
            if before + self.entries[i][1] + self.entries[i][2] > limit:
                return self.entries[i - 1][0]
        return self.entries[-1][0]


def lines(data):
    try:
        epsilon, fractions, observations = read(data)
    except Refused as e:
        return [f"file refused {e.number}"]
    try:
        stream = Stream(epsilon)
    except Refused as e:
        return [f"open refused {e.number}"]
    stopped = []
    for v in observations:
        try:
            stream.insert(v)
        except Refused as e:
            stopped = [f"insert refused {e.number}"]
            break
    out = [f"taken {stream.n}", f"held {len(stream.entries)}"] + stopped
    for a, b in fractions:
        try:
            out.append(f"{a}/{b} {stream.quantile((a, b))}")
        except Refused as e:
            out.append(f"{a}/{b} refused {e.number}")
    return out


def written(data):
    return "".join(line + "\n" for line in lines(data)).encode()


# Random files.


def pack(words):
    return struct.pack(f"<{len(words)}I", *words)


def a_fraction(rng, top):
    """Mostly an allowed one: at most `top` in a whole."""
    den = rng.choice((1, 2, 3, 4, 7, 10, 16, 49, 100, 128, 1000, 1024, 65535, 65536, rng.randrange(1, 65537)))
    kind = rng.randrange(12)
    if kind == 0:
        return rng.choice(((0, 7), (501, 1000), (1, 0), (1, 65537), (3, 2), (0, 0), (2**32 - 1, 2**32 - 1), (2**31, 2), (5, 2**32 - 1)))
    return rng.randrange(0, max(1, den * top[0] // top[1]) + (kind > 8)), den


def a_run(rng, n):
    """Observations of one of several shapes."""
    shape = rng.randrange(7)
    if shape == 0:
        return [rng.getrandbits(32) for _ in range(n)]
    if shape == 1:
        return [rng.randrange(4) for _ in range(n)]
    if shape == 2:
        return sorted(rng.randrange(1000) for _ in range(n))
    if shape == 3:
        return sorted((rng.randrange(1000) for _ in range(n)), reverse=True)
    if shape == 4:
        return [rng.choice((0, 1, 2**31, 2**32 - 1)) for _ in range(n)]
    if shape == 5:
        return [1000 + round(rng.gauss(0, 30)) for _ in range(n)]
    return [i if i % 2 else 100000 - i for i in range(n)]


def a_file(rng, turn):
    """A file that keeps the layout."""
    n = rng.choice((0, 1, 2, 3, 10, 50, 200)) if turn % 100 else rng.choice((4096, 4097, 6000, 8192))
    pairs = [a_fraction(rng, (1, 1)) for _ in range(rng.choice((0, 1, 3, 64)))]
    epsilon = (1, 65536) if turn % 200 == 0 else a_fraction(rng, (1, 2))
    run = a_run(rng, n)
    return [2, *epsilon, 2 * len(pairs), *[w for pair in pairs for w in pair], len(run), *run]


def damaged(rng, words):
    """The same file, broken (or now and then not) in one way."""
    data = pack(words)
    kind = rng.randrange(9)
    if kind == 0:
        return data[: rng.randrange(len(data) + 1)]
    if kind == 1:
        return data + rng.randbytes(rng.choice((1, 2, 3, 4, 8, 100)))
    if kind == 2:
        at = rng.randrange(len(data))
        return data[:at] + bytes([data[at] ^ (1 << rng.randrange(8))]) + data[at + 1 :]
    if kind == 3:
        at = rng.choice((0, 3, 4 + words[3]))
        value = rng.choice((0, 1, 2, 3, 127, 128, 129, 130, 8191, 8192, 8193, 2**31, 2**32 - 1, max(0, words[at] - 1), words[at] + 1, words[at] + 2))
        return pack(words[:at] + [value] + words[at + 1 :])
    if kind == 4:
        at = rng.randrange(len(words))
        return pack(words[:at] + words[at + 1 :])
    if kind == 5:
        at = rng.randrange(len(words) + 1)
        return pack(words[:at] + [rng.getrandbits(32)] + words[at:])
    if kind == 6:
        return struct.pack(f">{len(words)}I", *words)
    if kind == 7:
        return rng.randbytes(rng.choice((0, 1, 4, 12, 19, 20, 24, 100, 33300, 33301, 40000)))
    return data + data


def compare(program, count, seed):
    rng = random.Random(seed)
    kinds = {}
    for turn in range(count):
        words = a_file(rng, turn)
        data = pack(words) if turn % 5 < 2 or len(words) > 4000 else damaged(rng, words)
        wanted = written(data)
        ran = subprocess.run([program], input=data, capture_output=True, timeout=60)
        if (ran.returncode, ran.stdout, ran.stderr) != (0, wanted, b""):
            kept = os.path.join(tempfile.gettempdir(), "scan_model.failed.bin")
            with open(kept, "wb") as f:
                f.write(data)
            print(f"scan_model: file {turn} of seed {seed} differs; it is kept as {kept}\n wanted {wanted[:300]!r}\n got    {ran.stdout[:300]!r} {ran.stderr[:300]!r} status {ran.returncode}")
            return 1
        kind = next((k for k in ("file refused", "open refused", "insert refused") if k.encode() in wanted), "all taken")
        kinds[kind] = kinds.get(kind, 0) + 1
    print(f"scan_model: {count} files answered as by the rules ({', '.join(f'{k} {n}' for k, n in sorted(kinds.items()))}; seed {seed})")
    return 0


if __name__ == "__main__":
    if len(sys.argv) < 2:
        sys.exit(__doc__)
    sys.exit(compare(sys.argv[1], int(sys.argv[2]) if len(sys.argv) > 2 else 3000, int(sys.argv[3]) if len(sys.argv) > 3 else 6))
