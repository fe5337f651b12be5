#!/usr/bin/env python3
"""Random lines for the program `frames`: frames_random.py COUNT SEED.

Half of them are right, the others are damaged in one place or are any bytes at all.
"""
import random
import sys

KINDS = {
    "MONITOR": 1, "SUSPEND": 2, "RESUME": 3, "SETUP": 4, "CLOSE": 5, "YES": 8, "NO": 9,
    "FREE": 10, "BUSY-AGAIN": 11, "CONNECTED": 12, "FAILED": 13, "LET-GO": 14,
}
WIDTHS = [4, 3, 24, 24, 24, 24, 4, 8, 5]


def value(rng, width):
    return rng.choice([0, 1, (1 << width) - 1, rng.randrange(1 << width)])


def message(rng):
    name = rng.choice(list(KINDS))
    fields = [KINDS[name]] + [value(rng, width) for width in WIDTHS[1:]]
    if name != "MONITOR":
        fields[6] = fields[7] = 0
    fields[8] = rng.randint(1, 4) if name == "NO" else 0
    return name, fields


def frame(fields):
    number = 0
    for field, width in zip(fields, WIDTHS):
        number = number << width | field
    text = f"{number:030x}"
    return text


def damaged(rng, name, fields):
    fields = list(fields)
    at = rng.randrange(9)
    fields[at] = rng.choice([rng.randrange(1 << WIDTHS[at]), 1 << WIDTHS[at], rng.randrange(10 ** 15)])
    return name, fields


def blank(rng):
    return "".join(rng.choice(" \t\r") for _ in range(rng.choice([1, 1, 1, 1, 2, 3])))


def spelt(rng, words):
    line = "".join(word + blank(rng) for word in words)
    if rng.random() < 0.5:
        line = line.rstrip()
    if rng.random() < 0.1:
        line = blank(rng) + line
    return line.encode("latin-1")


def decode_line(rng):
    _, fields = message(rng)
    text = frame(fields)
    way = rng.random()
    if way < 0.3:
        digits = list(text)
        digits[rng.randrange(30)] = rng.choice("0123456789abcdefABCDEFg-")
        text = "".join(digits)
    elif way < 0.4:
        text = "".join(rng.choice("0123456789abcdef") for _ in range(rng.choice([28, 29, 30, 30, 31, 32])))
    if rng.random() < 0.3:
        text = text.upper()
    words = ["d", text]
    if rng.random() < 0.05:
        words.append("0")
    return spelt(rng, words)


def encode_line(rng):
    name, fields = message(rng)
    if rng.random() < 0.4:
        name, fields = damaged(rng, name, fields)
    numbers = [str(field) for field in fields[1:]]
    if rng.random() < 0.2:
        at = rng.randrange(8)
        numbers[at] = rng.choice(["0" * 15, "0" * 16, "000000000000003", "", "-1", "1x", numbers[at].zfill(15)])
    if rng.random() < 0.05:
        numbers = numbers[:-1] if rng.random() < 0.5 else numbers + ["0"]
    if rng.random() < 0.05:
        name = name.lower()
    return spelt(rng, ["e", name] + numbers)


def junk_line(rng):
    return bytes(byte for byte in (rng.randrange(256) for _ in range(rng.randrange(40))) if byte != 10)


def main():
    count, seed = int(sys.argv[1]), int(sys.argv[2])
    rng = random.Random(seed)
    for _ in range(count):
        make = rng.choices([decode_line, encode_line, junk_line], [5, 5, 1])[0]
        sys.stdout.buffer.write(make(rng) + b"\n")


main()
