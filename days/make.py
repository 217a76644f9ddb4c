#!/usr/bin/env python3
"""Writes the worked days of document 01 as a day of recorded calls, and the lines that must be printed for it.

    python3 days/make.py

writes crates/replay/data/worked.day (the calls) and crates/replay/stdout (the lines). The lines are written from document 01
by hand, entry by entry: they are not what some program printed. The gate plays the day and compares.
"""

import os
import struct

HERE = os.path.dirname(os.path.abspath(__file__))
REPLAY = os.path.join(HERE, "..", "crates", "replay")

records, lines, meters = [], [], {}


def u16(n):
    return struct.pack(">H", n)


def u32(n):
    return struct.pack(">I", n)


# ---- the file: a u16 length, a kind byte, fields

def record(kind, fields=b""):
    records.append(u16(1 + len(fields)) + bytes([kind]) + fields)


def lend_sheet(farms, testers, targets):
    """farms: (entity, q, mode); testers: (address, farm); targets: (address, farm, reachable)."""
    a = 12 + 33 * len(farms)
    b = a + 4 * len(testers)
    s = u16(len(farms)) + u16(len(testers)) + u16(len(targets)) + u16(12) + u16(a) + u16(b)
    for n, (entity, q, mode) in enumerate(farms):
        s += u16(entity) + bytes([q, mode]) + vin(n) + eid(n) + gid(n)
    for address, farm in testers:
        s += u16(address) + bytes([farm, 0])
    for address, farm, reachable in targets:
        s += u16(address) + bytes([farm, reachable])
    record(0, s)


def vin(farm):
    return b"VIN%014d" % farm


def eid(farm):
    return b"EID%03d" % farm


def gid(farm):
    return b"GID%03d" % farm


def lend_rooms(output, assembling):
    record(9, u32(output) + u32(assembling))


def damage(place, data):
    record(10, u16(place) + data)


# ---- what is expected

SEND, CLOSE, HAND_ON = 1, 2, 3


def send(row, kind, payload):
    return (row, SEND, message(kind, payload))


def close(row):
    return (row, CLOSE, b"")


def hand_on(row, payload):
    return (row, HAND_ON, payload)


def done(entries=(), row=255, taken=0):
    """Answer 0 and the output sheet: count, total length, an offset per entry, the entries."""
    offsets, body = b"", b""
    for r, kind, data in entries:
        offsets += u16(4 + 2 * len(entries) + len(body))
        body += bytes([r, kind]) + u16(len(data)) + data
    sheet = u16(len(entries)) + u16(4 + len(offsets) + len(body)) + offsets + body
    lines.append("0 %d %d %s" % (row, taken, sheet.hex()))


def refused(number):
    lines.append("%d 255 0 -" % number)


def meter(farm, taken=0, finished=0, lost=0):
    m = meters.setdefault(farm, [0, 0, 0])
    for i, n in enumerate((taken, finished, lost)):
        m[i] += n


# ---- messages

def message(kind, payload, version=b"\x03\xfc"):
    return version + u16(kind) + u32(len(payload)) + payload


def header(kind, length, version=b"\x03\xfc"):
    return version + u16(kind) + u32(length)


def activation(address, kind=0):
    return message(0x0005, u16(address) + bytes([kind]) + bytes(4))


def response(row, address, entity, code):
    return send(row, 0x0006, u16(address) + u16(entity) + bytes([code]) + bytes(4))


def alive_check(row):
    return send(row, 0x0007, b"")


def alive(address):
    return message(0x0008, u16(address))


def nack(row, code):
    return send(row, 0x0000, bytes([code]))


# ---- calls

def start():
    record(1)


def connect(farm):
    record(2, bytes([farm]))


def receive(row, data):
    record(3, bytes([row]) + data)


def peer_closed(row):
    record(4, bytes([row]))


def link_lost(farm):
    record(5, bytes([farm]))


def tick():
    record(6)


def datagram(farm, data):
    record(7, bytes([farm]) + data)


def controller(farm, target, tester, data):
    record(8, bytes([farm]) + u16(target) + u16(tester) + data)


def ticks(n):
    """Ticks at which nothing is said."""
    for _ in range(n):
        tick()
        done()


def opened(farm, row):
    connect(farm)
    done(row=row)


def heard(row, farm, data, entries, finished=0, lost=0):
    """A bytes call that takes all of its input."""
    receive(row, data)
    done(entries, taken=len(data))
    meter(farm, len(data), finished, lost)


def activated(row, farm, address, entity):
    heard(row, farm, activation(address), [response(row, address, entity, 0x10)], finished=15)


def whole_day():
    # Before the first sheet every call is refused.
    start()
    refused(1)

    # Farm 0 has rows 0 to 2, farm 1 rows 3 to 5, farm 2 rows 6 and 7.
    lend_sheet(
        [(0x0F00, 2, 0), (0x1000, 2, 1), (0x2000, 1, 2)],
        [(0x0E00, 1), (0x0E10, 2), (0x0E11, 2), (0x0E20, 0)],
        [(0x1010, 1, 1), (0x1011, 1, 0), (0x2010, 2, 1)],
    )
    start()
    done()

    # "An empty bytes call on a fresh or active row takes 0 and gives only `00 00 00 04`."
    opened(1, 3)
    heard(3, 1, b"", [])
    # "Row 3, entity 1000, tester 0E00 activates."
    activated(3, 1, 0x0E00, 0x1000)
    assert lines[-1] == "0 255 15 " + "0001001b000603010011" + "03fc000600000009" + "0e00100010" + "00000000"
    heard(3, 1, b"", [])

    # "0E00 to 1010 accepted: ack `03 FC 80 02 00 00 00 05 10 10 0E 00 00`."
    said = bytes.fromhex("0e00" "1010" "22f190")
    heard(3, 1, message(0x8001, said), [send(3, 0x8002, bytes.fromhex("10100e0000")), hand_on(3, said)], finished=15)
    assert "03fc80020000000510100e0000" in lines[-1]
    # The controller's answer goes out as 8001.
    controller(1, 0x1010, 0x0E00, bytes.fromhex("62f190"))
    done([send(3, 0x8001, bytes.fromhex("1010" "0e00" "62f190"))])

    # "`03 FD` pattern: NACK 00, close."
    opened(1, 4)
    heard(4, 1, header(0x0005, 7, b"\x03\xfd"), [nack(4, 0x00), close(4)], finished=8)
    # "Length 2,048 passes": all of it comes, 0E00 is not active on this row: 8003 with 02, close.
    opened(1, 4)
    long = u16(0x0E00) + u16(0x1010) + bytes(2044)
    heard(4, 1, header(0x8001, 2048), [])
    heard(4, 1, long, [send(4, 0x8003, bytes.fromhex("10100e0002")), close(4)], finished=2056)
    # "2,049 is NACK 02", and the payload is skipped; then "Length 4 on 8001: NACK 04", close.
    opened(1, 4)
    heard(4, 1, header(0x8001, 2049), [nack(4, 0x02)])
    heard(4, 1, bytes(2049), [], finished=2057)
    heard(4, 1, header(0x8001, 4), [nack(4, 0x04), close(4)], finished=8)
    # "Type 0007 from a tester, any length: NACK 01." The row stays open.
    opened(1, 4)
    heard(4, 1, header(0x0007, 0), [nack(4, 0x01)], finished=8)
    heard(4, 1, header(0x0007, 70000), [nack(4, 0x01)])
    heard(4, 1, bytes(30000), [])
    heard(4, 1, bytes(30000), [])
    heard(4, 1, bytes(10000), [], finished=70008)
    # A call takes one message: the bytes after it are left.
    receive(4, header(0x0007, 0) + b"\x03")
    done([nack(4, 0x01)], taken=8)
    meter(1, 8, 8)
    # "Peer closed gives one close for that row"; three bytes of a header are lost.
    heard(4, 1, b"\x03\xfc\x00", [])
    peer_closed(4)
    done([close(4)])
    meter(1, lost=3)

    # "Wrong-farm tester: 00."
    opened(1, 4)
    heard(4, 1, activation(0x0E10), [response(4, 0x0E10, 0x1000, 0x00), close(4)], finished=15)

    # "Fresh row: open after 199 ticks, closed by the 200th."
    opened(0, 0)
    ticks(199)
    tick()
    done([close(0)])

    # "q=1, A active, B asks with another address: A answers, B gets 01"
    opened(2, 6)
    activated(6, 2, 0x0E10, 0x2000)
    opened(2, 7)
    heard(7, 2, activation(0x0E11), [alive_check(6)], finished=15)
    receive(7, b"")
    refused(7)
    connect(2)
    refused(8)
    heard(6, 2, alive(0x0E10), [response(7, 0x0E11, 0x2000, 0x01), close(7)], finished=10)
    # "A silent: nothing at tick 49, at 50 A closes and B gets 10."
    opened(2, 7)
    heard(7, 2, activation(0x0E11), [alive_check(6)], finished=15)
    ticks(49)
    tick()
    done([close(6), response(7, 0x0E11, 0x2000, 0x10)])

    # "q=2, A active as 0E00, B and C both ask for 0E00, all stay silent: tick 50 A closes, B gets 10 and a check; tick 100 B
    # closes, C gets 10."
    opened(1, 4)
    opened(1, 5)
    heard(4, 1, activation(0x0E00), [alive_check(3)], finished=15)
    heard(5, 1, activation(0x0E00), [], finished=15)
    ticks(49)
    tick()
    done([close(3), response(4, 0x0E00, 0x1000, 0x10), alive_check(4)])
    ticks(49)
    tick()
    done([close(4), response(5, 0x0E00, 0x1000, 0x10)])

    # Datagrams of farm 1: identity, entity status, power mode; one too short is never answered.
    datagram(1, message(0x0001, b""))
    done([(255, SEND, message(0x0004, vin(1) + u16(0x1000) + eid(1) + gid(1) + b"\x00"))])
    datagram(1, message(0x4001, b""))
    done([(255, SEND, message(0x4002, b"\x00\x02\x01" + u32(2048)))])
    datagram(1, message(0x4003, b""))
    done([(255, SEND, message(0x4004, b"\x01"))])
    datagram(1, b"\x03\xfc")
    done()

    # The refusals, in the table's order.
    lend_rooms(4095, 32768)
    tick()
    refused(2)
    lend_rooms(65536, 32767)
    tick()
    refused(3)
    lend_rooms(4096, 32768)
    # Farm 0's check clock runs, and its line is empty.
    damage(22, b"\x00\x01")
    tick()
    refused(4)
    damage(22, b"\x00\x00")
    connect(3)
    refused(5)
    receive(8, b"")
    refused(6)
    peer_closed(255)
    refused(6)
    controller(1, 0x1010, 0x0E00, b"")
    refused(9)
    controller(1, 0x2010, 0x0E00, b"\x3e")
    refused(10)

    # "Link lost: one close per open row, lowest first."
    opened(1, 3)
    link_lost(1)
    done([close(3), close(5)])


whole_day()
for farm in range(3):
    lines.append("farm %d taken %d finished %d lost %d" % (farm, *meters.get(farm, [0, 0, 0])))
lines.append("end %d" % (len(lines) - 3))

os.makedirs(os.path.join(REPLAY, "data"), exist_ok=True)
with open(os.path.join(REPLAY, "data", "worked.day"), "wb") as f:
    f.write(b"".join(records))
with open(os.path.join(REPLAY, "stdout"), "w") as f:
    f.write("".join(line + "\n" for line in lines))
