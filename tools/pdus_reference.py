#!/usr/bin/env python3
"""Answers the lines of the `pdus` program, written apart from it, for comparison.

Reads lines on standard input and prints one answer for each.
"""
import sys

# element: width in bits, and the values that are listed (None: every value of the width)
ELEMENTS = {
    "ss-type": (6, {13}),
    "pdu-type": (5, {5, 6, 7, 8, 9, *range(11, 25)}),
    "call-identifier": (14, None),
    "area-selection": (4, None),
    "call-priority": (4, None),
    "clir-colr": (2, None),
    "basic-service": (8, None),
    "called-ssi": (24, None),
    "called-extension": (24, None),
    "calling-ssi": (24, None),
    "calling-extension": (24, None),
    "ccbsi": (3, None),
    "cancellation-result": (1, None),
    "reject-cause": (5, {0, 1, 2, 4, 5, 6, 7, 8, 9, *range(11, 26)}),
    "cancellation-cause": (3, None),
    "failure-cause": (3, {0, 1, 2, 3, 4, 5}),
    "request-maintained": (1, None),
    "list-request": (2, {0, 1, 2}),
    "accept-reject": (1, None),
    "list-length": (3, {0, 1, 2, 3, 4, 5}),
    "request-count": (3, {0, 1, 2, 3, 4, 5}),
    "retain-capability": (2, {1, 2}),
    "called-type": (2, {0, 1, 2}),
}

NAMES = {
    5: "CALL-INFORMATION-RETENTION",
    6: "CANCEL",
    7: "LIST",
    8: "MONITOR",
    9: "RECALL",
    11: "REQUEST",
    12: "RESUME-COMPLETION",
    13: "CANCEL-ACK",
    14: "LIST-ACK",
    15: "MONITOR-ACK",
    16: "REQUEST-ACK",
    17: "CANCELLED",
    18: "FAILED",
    19: "FREE-NOTIFICATION",
    20: "SUSPEND-COMPLETION",
    21: "USER-B-FREE",
    22: "CANCELLATION",
    23: "CCBSI",
    24: "CALL-INFORMATION-RELEASE",
}
TYPES = {name: number for number, name in NAMES.items()}

CALLED = ["called-ssi", "called-extension"]
PARTIES = ["ccbsi", "calling-ssi", "calling-extension", *CALLED]

HEAD_BITS = 11
REJECTED_REQUEST_BITS = 93


def walk(pdu_type, next_value, optional, request_ack):
    """Goes through the elements of a PDU, asking `next_value(name)` for each.

    `optional(name)` goes through an element that may be absent, and `request_ack()` through
    REQUEST ACK, whose first element goes by a later one.
    """
    name = NAMES[pdu_type]
    if name in ("CANCEL", "RECALL", "USER-B-FREE", "CCBSI"):
        next_value("ccbsi")
    elif name in ("REQUEST", "CALL-INFORMATION-RELEASE"):
        next_value("call-identifier")
    elif name == "CALL-INFORMATION-RETENTION":
        for element in ["call-identifier", "area-selection", "call-priority", "clir-colr", "basic-service", *CALLED]:
            next_value(element)
    elif name == "LIST":
        next_value("list-request")
    elif name in ("RESUME-COMPLETION", "FREE-NOTIFICATION", "SUSPEND-COMPLETION"):
        for element in PARTIES:
            next_value(element)
    elif name == "MONITOR":
        for element in [*PARTIES, "call-priority", "basic-service", "retain-capability"]:
            next_value(element)
    elif name == "CANCEL-ACK":
        next_value("ccbsi")
        if next_value("cancellation-result") == 1:
            next_value("reject-cause")
    elif name == "MONITOR-ACK":
        for element in PARTIES:
            next_value(element)
        if next_value("accept-reject") == 1:
            next_value("reject-cause")
        for element in ["call-priority", "basic-service", "area-selection"]:
            next_value(element)
        optional("retain-capability")
    elif name == "CANCELLED":
        next_value("ccbsi")
        next_value("cancellation-cause")
    elif name == "FAILED":
        next_value("ccbsi")
        next_value("failure-cause")
        next_value("request-maintained")
    elif name == "CANCELLATION":
        for element in PARTIES:
            next_value(element)
        next_value("cancellation-cause")
    elif name == "LIST-ACK":
        if next_value("accept-reject") == 1:
            next_value("reject-cause")
            return
        length = next_value("list-length")
        request = next_value("list-request")
        if request == 0:
            next_value("request-count")
        for _ in range(length):
            if request >= 1:
                next_value("ccbsi")
            if request == 2:
                for element in CALLED:
                    next_value(element)
    elif name == "REQUEST-ACK":
        request_ack()
    else:
        raise AssertionError(name)


class Fault(Exception):
    def __init__(self, number, layer, element, bit):
        self.answer = f"{number} {layer} {element or '-'} {bit}"


class Reader:
    def __init__(self, data, count):
        self.bits = [byte >> (7 - i) & 1 for byte in data for i in range(8)]
        self.count = count
        self.at = 0
        self.fields = []

    def take(self, width, element):
        if self.count - self.at < width:
            raise Fault(13, "bits", element, self.at)
        value = 0
        for bit in self.bits[self.at : self.at + width]:
            value = 2 * value + bit
        self.at += width
        return value

    def element(self, name, only=None):
        begin = self.at
        width, listed = ELEMENTS[name]
        value = self.take(width, name)
        if (listed is not None and value not in listed) or (only is not None and value != only):
            raise Fault(14, "element", name, begin)
        if name not in ("ss-type", "pdu-type"):
            self.fields.append((name, value))
        return value

    def optional(self, name):
        begin = self.at
        if self.take(1, "optional") == 0:
            return
        if self.take(1, name) == 0:
            raise Fault(14, "PDU", "optional", begin)
        self.element(name)

    def request_ack(self):
        rejected = self.count >= REJECTED_REQUEST_BITS
        if not rejected:
            self.element("ccbsi")
        for name in ["call-identifier", "call-priority", "basic-service"]:
            self.element(name)
        self.element("accept-reject", 1 if rejected else 0)
        if rejected:
            self.element("reject-cause")
        for name in ["called-type", *CALLED]:
            self.element(name)


def decode(data, count):
    if len(data) != (count + 7) // 8:
        raise Fault(13, "PDU", None, count)
    reader = Reader(data, count)
    reader.element("ss-type")
    pdu_type = reader.element("pdu-type")
    walk(pdu_type, reader.element, reader.optional, reader.request_ack)
    if reader.at != count:
        raise Fault(15, "PDU", None, reader.at)
    for place in range(count, 8 * len(data)):
        if reader.bits[place] == 1:
            raise Fault(15, "PDU", None, place)
    return pdu_type, reader.fields


class Refused(Exception):
    """The number that is answered."""


class Writer:
    def __init__(self, words):
        self.words = words
        self.place = 0
        self.bits = []

    def put(self, width, value):
        self.bits += [value >> (width - 1 - i) & 1 for i in range(width)]

    def given(self):
        """The name of the next field, if there is one."""
        if self.place == len(self.words):
            return None
        return self.words[self.place].split("=", 1)[0]

    def value(self, name):
        if self.place == len(self.words):
            raise Refused(1)
        field, sign, text = self.words[self.place].partition("=")
        if field != name or sign != "=":
            raise Refused(1)
        value = number(text)
        if value is None or value >= 2 ** ELEMENTS[name][0]:
            raise Refused(1)
        self.place += 1
        return value

    def element(self, name, only=None):
        width, listed = ELEMENTS[name]
        value = self.value(name)
        if (listed is not None and value not in listed) or (only is not None and value != only):
            raise Refused(14)
        self.put(width, value)
        return value

    def optional(self, name):
        if self.place == len(self.words):
            self.put(1, 0)
            return
        self.put(1, 1)
        self.put(1, 1)
        self.element(name)

    def request_ack(self):
        accepted = self.given() == "ccbsi"
        if accepted:
            self.element("ccbsi")
        for name in ["call-identifier", "call-priority", "basic-service"]:
            self.element(name)
        self.element("accept-reject", 0 if accepted else 1)
        if not accepted:
            self.element("reject-cause")
        for name in ["called-type", *CALLED]:
            self.element(name)


def encode(pdu_type, words):
    writer = Writer(words)
    writer.put(6, 13)
    writer.put(5, pdu_type)
    walk(pdu_type, writer.element, writer.optional, writer.request_ack)
    if writer.place != len(words):
        raise Refused(1)
    return writer.bits


def number(text):
    """A number of 1 to 15 decimal digits, or None."""
    if not 1 <= len(text) <= 15 or any(c not in "0123456789" for c in text):
        return None
    return int(text)


def from_hex(text):
    if text == "-":
        return b""
    if len(text) % 2 or not text or any(c not in "0123456789abcdefABCDEF" for c in text):
        return None
    return bytes.fromhex(text)


def to_hex(bits):
    bits = bits + [0] * (-len(bits) % 8)
    data = [sum(bit << (7 - i) for i, bit in enumerate(bits[k : k + 8])) for k in range(0, len(bits), 8)]
    return "".join(f"{byte:02x}" for byte in data)


def answer(line):
    words = [word for word in line.replace("\t", " ").replace("\r", " ").split(" ") if word]
    if any(ord(c) > 127 for c in line):
        return "1"
    if len(words) == 3 and words[0] == "d":
        data, count = from_hex(words[1]), number(words[2])
        if data is None or count is None:
            return "1"
        try:
            pdu_type, fields = decode(data, count)
        except Fault as fault:
            return fault.answer
        return " ".join(["0", NAMES[pdu_type], *(f"{name}={value}" for name, value in fields)])
    if len(words) >= 2 and words[0] == "e" and words[1] in TYPES:
        try:
            bits = encode(TYPES[words[1]], words[2:])
        except Refused as refused:
            return str(refused.args[0])
        return f"0 {to_hex(bits)} {len(bits)}"
    return "1"


def main():
    lines = sys.stdin.buffer.read().split(b"\n")
    if not lines[-1]:
        lines.pop()
    for line in lines:
        print(answer(line.decode("latin-1")))


if __name__ == "__main__":
    main()
