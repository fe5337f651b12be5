#!/usr/bin/env python3
"""Prints random lines for the `pdus` program: pdus_random.py COUNT SEED.

Valid lines, and lines that are damaged, cut, lengthened or plain garbage.
"""
import random
import sys

from pdus_reference import CALLED, ELEMENTS, NAMES, encode, to_hex, walk


class Chooser:
    """Chooses the fields of a PDU at random."""

    def __init__(self, rng):
        self.rng = rng
        self.fields = []

    def element(self, name):
        width, listed = ELEMENTS[name]
        values = sorted(listed) if listed is not None else None
        if values is None:
            edge = [0, 1, 2**width - 1]
            value = self.rng.choice([*edge, self.rng.randrange(2**width), self.rng.randrange(2**width)])
        else:
            value = self.rng.choice(values)
        self.fields.append((name, value))
        return value

    def optional(self, name):
        if self.rng.random() < 0.6:
            self.element(name)

    def request_ack(self):
        accepted = self.rng.random() < 0.5
        if accepted:
            self.element("ccbsi")
        for name in ["call-identifier", "call-priority", "basic-service"]:
            self.element(name)
        self.fields.append(("accept-reject", 0 if accepted else 1))
        if not accepted:
            self.element("reject-cause")
        for name in ["called-type", *CALLED]:
            self.element(name)


def random_pdu(rng):
    pdu_type = rng.choice([*NAMES, 14, 15, 16])
    chooser = Chooser(rng)
    walk(pdu_type, chooser.element, chooser.optional, chooser.request_ack)
    return pdu_type, chooser.fields


def words_of(fields):
    return [f"{name}={value}" for name, value in fields]


def damaged_fields(rng, fields):
    fields = list(fields)
    place = rng.randrange(len(fields))
    name, value = fields[place]
    way = rng.randrange(10)
    words = words_of(fields)
    if way == 0:
        del words[place]
    elif way == 1:
        words.insert(place, words[place])
    elif way == 2:
        other = rng.randrange(len(words))
        words[place], words[other] = words[other], words[place]
    elif way == 3:
        words[place] = f"{name}={2 ** ELEMENTS[name][0] + rng.randrange(3)}"
    elif way == 4:
        words[place] = f"{name}={rng.randrange(2 ** ELEMENTS[name][0])}"
    elif way == 5:
        texts = ["=", "=x", "=-1", f"=0{value}", "=" + "0" * 16, "=1=2", ""]
        words[place] = rng.choice([name + text for text in texts] + ["=1"])
    elif way == 6:
        words.append(rng.choice(["ccbsi=1", "retain-capability=1", "retain-capability=0", "foo=1"]))
    elif way == 7:
        words[place] = f"{rng.choice(sorted(ELEMENTS))}={value}"
    else:
        unlisted_value(rng, fields, words)
    return words


def unlisted_value(rng, fields, words):
    """Gives a field that has a table a value that the table does not list."""
    places = [i for i, (name, _) in enumerate(fields) if ELEMENTS[name][1] is not None]
    if not places:
        return
    place = rng.choice(places)
    name = fields[place][0]
    width, listed = ELEMENTS[name]
    words[place] = f"{name}={rng.choice([v for v in range(2**width) if v not in listed])}"


def hex_of(data):
    return "".join(f"{byte:02X}" for byte in data) or "-"


def line_of_bits(bits):
    return f"d {to_hex(bits) or '-'} {len(bits)}"


def decode_line(rng):
    pdu_type, fields = random_pdu(rng)
    bits = encode(pdu_type, words_of(fields))
    way = rng.randrange(10)
    if way <= 1:
        return line_of_bits(bits)
    if way == 2:
        return line_of_bits(bits[: rng.randrange(len(bits))])
    if way == 3:
        return line_of_bits(bits + [rng.randrange(2) for _ in range(rng.randrange(1, 10))])
    if way == 4:
        for _ in range(rng.randrange(1, 4)):
            bits[rng.randrange(len(bits))] ^= 1
        return line_of_bits(bits)
    if way == 5:
        return f"d {to_hex(bits)} {max(0, len(bits) + rng.randrange(-10, 11))}"
    if way == 6:
        data = bytearray.fromhex(to_hex(bits))
        if len(bits) % 8:
            data[-1] |= rng.randrange(1 << (-len(bits) % 8))
        return f"d {hex_of(data)} {len(bits)}"
    if way == 7:
        bits = bits[:11] + [rng.randrange(2) for _ in range(rng.randrange(0, 150))]
        return line_of_bits(bits)
    if way == 8:
        data = bytes(rng.randrange(256) for _ in range(rng.randrange(0, 36)))
        count = rng.choice([8 * len(data), max(0, 8 * len(data) - rng.randrange(8)), rng.randrange(400), 10**15 - 1])
        return f"d {hex_of(data)} {count}"
    return monitor_ack_line(rng)


def monitor_ack_line(rng):
    """A MONITOR ACK whose optional part is anything."""
    chooser = Chooser(rng)
    walk(15, chooser.element, lambda name: None, None)
    bits = encode(15, words_of(chooser.fields))[:-1]
    return line_of_bits(bits + [rng.randrange(2) for _ in range(rng.randrange(0, 6))])


GARBAGE = [
    "",
    " ",
    "d",
    "e",
    "x",
    "d 3524",
    "d 352 12",
    "d 3524 14 1",
    "d 35zz 14",
    "d - 0",
    "d - 1",
    "d 3524 -14",
    "d 3524 00014",
    "d 3524 1234567890123456",
    "e RECALL",
    "e NOTHING ccbsi=1",
    "e recall ccbsi=1",
    "E RECALL ccbsi=1",
    "  e \t RECALL   ccbsi=1  ",
]


def garbage(rng):
    return rng.choice(GARBAGE)


def line(rng):
    way = rng.random()
    if way < 0.25:
        pdu_type, fields = random_pdu(rng)
        return " ".join(["e", NAMES[pdu_type], *words_of(fields)])
    if way < 0.45:
        pdu_type, fields = random_pdu(rng)
        return " ".join(["e", NAMES[pdu_type], *damaged_fields(rng, fields)])
    if way < 0.97:
        return decode_line(rng)
    return garbage(rng)


def main():
    count, seed = int(sys.argv[1]), int(sys.argv[2])
    rng = random.Random(seed)
    for _ in range(count):
        print(line(rng))


if __name__ == "__main__":
    main()
