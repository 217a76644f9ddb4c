#!/usr/bin/env python3
"""Writes days/accident.day: the accident of two summers ago, as recorded calls. days/README.md tells the story.

    python3 days/accident.py
"""

import os
import struct

HERE = os.path.dirname(os.path.abspath(__file__))
calls = []


def u16(n):
    return struct.pack(">H", n)


def record(kind, fields=b""):
    calls.append(u16(1 + len(fields)) + bytes([kind]) + fields)


def message(kind, payload):
    return b"\x03\xfc" + u16(kind) + struct.pack(">I", len(payload)) + payload


def farm(entity, quota, name):
    return u16(entity) + bytes([quota, 1]) + name.ljust(17).encode() + b"EID-0" + name[-1:].encode() + b"GID-00"


def bytes_from(row, data):
    record(3, bytes([row]) + data)


# The sheet: two farms with two testers' places each, so farm 0 has rows 0 to 2 and farm 1 rows 3 to 5.
farms = farm(0x1000, 2, "FARM A") + farm(0x2000, 2, "FARM B")
testers = u16(0x0E00) + b"\0\0" + u16(0x0E10) + b"\x01\0"
targets = u16(0x1010) + b"\0\x01" + u16(0x2010) + b"\x01\x01"
record(0, u16(2) + u16(2) + u16(2) + u16(12) + u16(78) + u16(86) + farms + testers + targets)
record(1)

# Farm B's tester connects, activates and opens a valve: 8001 to its controller 2010.
record(2, b"\x01")
bytes_from(3, message(0x0005, u16(0x0E10) + bytes(5)))
bytes_from(3, message(0x8001, u16(0x0E10) + u16(0x2010) + b"\x2f\x01\x03"))

# Farm A's tester connects and activates. Then it announces a message of 4,294,967,295 bytes and begins to send it.
record(2, b"\x00")
bytes_from(0, message(0x0005, u16(0x0E00) + bytes(5)))
bytes_from(0, b"\x03\xfc\x80\x01\xff\xff\xff\xff" + bytes(2000))
for _ in range(3):
    bytes_from(0, bytes(2000))
    record(6)

# Meanwhile farm B's controller answers, its tester shuts the valve, and is told so.
record(8, b"\x01" + u16(0x2010) + u16(0x0E10) + b"\x6f\x01\x03")
bytes_from(3, message(0x8001, u16(0x0E10) + u16(0x2010) + b"\x2f\x01\x00"))
record(8, b"\x01" + u16(0x2010) + u16(0x0E10) + b"\x6f\x01\x00")

# Farm A's tester gives up. What it had sent of its message is lost, and counted.
record(4, b"\x00")

# Farm B is asked how it is: entity status by datagram.
record(7, b"\x01" + message(0x4001, b""))

with open(os.path.join(HERE, "accident.day"), "wb") as out:
    out.write(b"".join(calls))
