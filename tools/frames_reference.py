#!/usr/bin/env python3
"""An independent implementation of the program `frames`, to compare it with.

It shares no code with it: lines on standard input, answers on standard output.
"""
import re
import sys

NAMES = {
    1: "MONITOR", 2: "SUSPEND", 3: "RESUME", 4: "SETUP", 5: "CLOSE", 8: "YES", 9: "NO",
    10: "FREE", 11: "BUSY-AGAIN", 12: "CONNECTED", 13: "FAILED", 14: "LET-GO",
}
NUMBERS = {name: number for number, name in NAMES.items()}
WIDTHS = [4, 3, 24, 24, 24, 24, 4, 8, 5]


def is_message(fields):
    """Whether some message has these nine fields."""
    if any(value >= 1 << width for value, width in zip(fields, WIDTHS)):
        return False
    kind, priority, service, cause = fields[0], fields[6], fields[7], fields[8]
    if kind not in NAMES:
        return False
    if kind != 1 and (priority, service) != (0, 0):
        return False
    return 1 <= cause <= 4 if kind == 9 else cause == 0


def decode(words):
    if len(words) != 1 or not re.fullmatch(rb"[0-9A-Fa-f]{30}", words[0]):
        return "1"
    bits = bin(int(words[0], 16))[2:].zfill(120)
    fields, at = [], 0
    for width in WIDTHS:
        fields.append(int(bits[at:at + width], 2))
        at += width
    if not is_message(fields):
        return "1"
    return " ".join(["0", NAMES[fields[0]]] + [str(value) for value in fields[1:]])


def encode(words):
    if len(words) != 9 or not all(re.fullmatch(rb"[0-9]{1,15}", word) for word in words[1:]):
        return "1"
    name = words[0].decode("latin-1")
    if name not in NUMBERS:
        return "1"
    fields = [NUMBERS[name]] + [int(word) for word in words[1:]]
    if not is_message(fields):
        return "1"
    bits = "".join(bin(value)[2:].zfill(width) for value, width in zip(fields, WIDTHS))
    return "0 " + "".join(f"{int(bits[i:i + 8], 2):02x}" for i in range(0, 120, 8))


def answer(line):
    words = [word for word in re.split(rb"[ \t\r]+", line) if word]
    if words[:1] == [b"d"]:
        return decode(words[1:])
    if words[:1] == [b"e"]:
        return encode(words[1:])
    return "1"


def main():
    data = sys.stdin.buffer.read()
    lines = data.split(b"\n")
    if lines[-1] == b"":
        lines.pop()
    for line in lines:
        print(answer(line))


main()
