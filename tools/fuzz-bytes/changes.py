"""Changes of bytes that are made at random."""

from __future__ import annotations

import random

EDGES = [b"\x00", b"\x01", b"\x7f", b"\x80", b"\xff", b"\xff\xff", b"\x00\x00", b"\x7f\xff\xff\xff", b"\xff\xff\xff\xff",
         (1 << 59).to_bytes(8, "big"), ((1 << 59) + 1).to_bytes(8, "big"), b"\xff" * 8]


def changed(choose: random.Random, data: bytes, others: list[bytes]) -> bytes:
    """The bytes after one to four changes; now and then as they were."""
    for _ in range(choose.choice([0, 1, 1, 1, 2, 3, 4])):
        data = _changed_once(choose, data, others)
    return data


def _changed_once(choose: random.Random, data: bytes, others: list[bytes]) -> bytes:
    at = choose.randrange(len(data) + 1)
    end = min(len(data), at + choose.choice([1, 1, 2, 4, 8, 30]))
    match choose.choice(["turn", "set", "edge", "put in", "leave out", "repeat", "cut", "splice"]):
        case "turn" if at < len(data):
            return data[:at] + bytes([data[at] ^ 1 << choose.randrange(8)]) + data[at + 1:]
        case "set" if at < len(data):
            return data[:at] + bytes([choose.randrange(256)]) + data[at + 1:]
        case "edge":
            edge = choose.choice(EDGES)
            return data[:at] + edge + data[at + len(edge):]
        case "put in":
            return data[:at] + choose.randbytes(choose.choice([1, 1, 2, 5])) + data[at:]
        case "leave out":
            return data[:at] + data[end:]
        case "repeat":
            return data[:end] + data[at:]
        case "cut":
            return data[:at]
        case _:
            other = choose.choice(others)
            begin = choose.randrange(len(other) + 1)
            return data[:at] + other[begin:begin + choose.choice([1, 4, 20, 200])] + data[end:]
