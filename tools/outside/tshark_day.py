#!/usr/bin/env python3
"""Has tshark read what the core sends on a recorded day.

    tshark_day.py DAY LINES [CAPTURE]

DAY is a file of recorded calls, LINES what a program that replays it prints: for each call a line with number, row, bytes taken and the
output sheet in hexadecimal. Every message that is sent becomes a frame of a capture file (CAPTURE keeps it): from TCP port 13400, each
connection with its own stream, or from UDP port 13400. tshark takes the frames apart with its own DoIP dissector, and each field that it
shows is compared with what was meant. What was meant comes from the farm sheet and the call where these settle it (VIN, EID, GID,
addresses of entities, quota, mode, what a controller said, what was handed on), and else from the bytes as document 01 lays them out.

It needs tshark (Debian: tshark; 4.0.17 was used). Its UDS dissector is off, because it calls short user data malformed. tshark is asked
only how messages are laid out: it does not test lengths as ISO does.
"""
import os
import struct
import subprocess
import sys
import tempfile
from collections import Counter
from xml.etree import ElementTree

ROOT = os.path.dirname(os.path.dirname(os.path.dirname(os.path.abspath(__file__))))
sys.path.insert(0, os.path.join(ROOT, "examples", "host"))

import sheet as sheets  # noqa: E402

SEND, CLOSE, HAND_ON = 1, 2, 3


class Fault(Exception):
    pass


# ---- the day and its lines ----

def records(day):
    """(kind, fields) of each whole and readable record."""
    at = 0
    sizes = {1: 0, 2: 1, 4: 1, 5: 1, 6: 0, 9: 8}
    least = {0: 0, 3: 1, 7: 1, 8: 5, 10: 2}
    while at + 2 <= len(day):
        (length,) = struct.unpack_from(">H", day, at)
        body = day[at + 2:at + 2 + length]
        if not 1 <= length <= 32767 or len(body) < length:
            return
        kind, fields = body[0], body[1:]
        if sizes.get(kind, len(fields)) != len(fields) or len(fields) < least.get(kind, 0) or kind > 10:
            return
        yield kind, fields
        at += 2 + length


def entries(output):
    count, total = struct.unpack_from(">2H", output)
    if total != len(output):
        raise Fault(f"an output sheet of {len(output)} bytes that says {total}")
    for i in range(count):
        (at,) = struct.unpack_from(">H", output, 4 + 2 * i)
        row, kind, length = struct.unpack_from(">2BH", output, at)
        yield row, kind, output[at + 4:at + 4 + length]


def calls(day, lines):
    """(sheet, kind, fields, entries) of each accepted call."""
    lent, answers = b"", iter(lines)
    for kind, fields in records(day):
        if kind == 0:
            lent = fields
        if kind in (0, 9, 10):
            continue
        words = next(answers, "").split()
        if len(words) != 4 or not words[0].isdigit():
            raise Fault("there are fewer lines than calls")
        if words[0] == "0":
            yield lent, kind, fields, list(entries(bytes.fromhex(words[3])))
        elif words[3] != "-":
            raise Fault("a refused call with an output sheet")


# ---- what was meant ----

def farm_of(lent, row):
    for number, farm in enumerate(sheets.parts(lent)[0]):
        if row <= farm[2]:
            return number
        row -= farm[2] + 1
    raise Fault("a row beyond the sheet's rows")


def u16(data, at):
    return int.from_bytes(data[at:at + 2], "big")


def meant(lent, kind, fields, row, data, handed):
    """The fields of the message `data`, sent on `row` in this call."""
    farm = fields[0] if row == 255 else farm_of(lent, row)
    record = sheets.parts(lent)[0][farm]
    payload, message = data[8:], u16(data, 2)
    said = {"version": 3, "inverse": 0xFC, "type": message, "length": len(payload)}
    if message == 0x0000:
        said["nack_code"] = payload[0]
    elif message == 0x0004:
        said.update(vin=record[4:21], logical_address=u16(record, 0), eid=record[21:27], gid=record[27:33], futher_action=0)
    elif message == 0x0006:
        said.update(tester_logical_address=u16(payload, 0), source_address=u16(record, 0), response_code=payload[4],
                    reserved_iso=0)
    elif message == 0x4002:
        said.update(node_type=0, max_sockets=record[2], sockets=payload[2], max_data_size=2048)
    elif message == 0x4004:
        said["power_mode"] = record[3]
    elif message == 0x8001:
        if kind != 8:
            raise Fault("an 8001 that no controller sent")
        said.update(source_address=u16(fields, 1), target_address=u16(fields, 3), data=fields[5:])
    elif message == 0x8002:
        # the addresses of the message that is handed on in the same call, the other way round
        said.update(source_address=u16(handed, 2), target_address=u16(handed, 0), diag_ack_code=0)
    elif message == 0x8003:
        said.update(source_address=u16(payload, 0), target_address=u16(payload, 2), diag_nack_code=payload[4])
    elif message != 0x0007:
        raise Fault(f"a message of type {message:04x}")
    return said


def messages(day, lines):
    """(tick, stream, bytes, what was meant) of everything that is sent. A stream is a connection, or nothing for a datagram."""
    tick, connection, of_row = 0, 0, {}
    for lent, kind, fields, said in calls(day, lines):
        tick += kind == 6
        if kind == 1:
            of_row = {}
        handed = next((data for _, what, data in said if what == HAND_ON), b"")
        for row, what, data in said:
            if what == CLOSE:
                of_row.pop(row, None)
            if what != SEND:
                continue
            if row != 255 and row not in of_row:
                of_row[row] = connection = connection + 1
            yield tick, of_row.get(row), data, meant(lent, kind, fields, row, data, handed)


# ---- the capture ----

def ip(protocol, payload):
    # tshark does not ask for checksums unless it is told to
    return struct.pack(">BBHHHBBH4s4s", 0x45, 0, 20 + len(payload), 0, 0, 64, protocol, 0, b"\x0a\0\0\1", b"\x0a\0\0\2") + payload


def capture(sent):
    out = [struct.pack("<IHHiIII", 0xA1B2C3D4, 2, 4, 0, 0, 262144, 1)]
    sequence = Counter()
    for tick, stream, data, _ in sent:
        if stream is None:
            packet = ip(17, struct.pack(">4H", 13400, 49152, 8 + len(data), 0) + data)
        else:
            port = 49153 + stream % 16000
            packet = ip(6, struct.pack(">HHIIBBHHH", 13400, port, 1 + sequence[stream], 1, 0x50, 0x18, 65535, 0, 0) + data)
            sequence[stream] += len(data)
        frame = b"\2\0\0\0\0\2\2\0\0\0\0\1\x08\0" + packet
        out.append(struct.pack("<4I", tick // 100, tick % 100 * 10000, len(frame), len(frame)) + frame)
    return b"".join(out)


def read_by_tshark(file):
    """For each frame: (the protocols, what tshark complains of, the fields of DoIP: what is shown and the bytes meant by it)."""
    try:
        done = subprocess.run(["tshark", "-r", file, "--disable-protocol", "uds", "-T", "pdml"], capture_output=True)
    except FileNotFoundError:
        raise Fault("tshark is not installed (Debian: tshark)")
    if done.returncode != 0:
        raise Fault("tshark: " + done.stderr.decode(errors="replace").strip())
    for packet in ElementTree.fromstring(done.stdout).iter("packet"):
        protocols = [p.get("name") for p in packet.iter("proto")]
        complaints = [f.get("show") for f in packet.iter("field") if f.get("name") == "_ws.expert.message"]
        # with the UDS dissector off, user data is shown as plain data
        fields = {f.get("name")[5:]: (f.get("show"), bytes.fromhex(f.get("value", "")))
                  for f in packet.iter("field") if f.get("name").startswith("doip.") or f.get("name") == "data.data"}
        yield protocols, complaints, fields


# ---- comparing ----

def as_meant(value, shown, taken):
    if isinstance(value, int):
        return int(shown, 0) == value and int.from_bytes(taken, "big") == value
    return taken == value


def compare(number, wanted, protocols, complaints, fields, counts):
    if 0 in wanted.get("vin", b""):
        # a random day's VIN may have a zero byte in it, where a string ends for tshark; all its bytes are compared below
        complaints = [c for c in complaints if c != "Trailing stray characters"]
    if "doip" not in protocols or "_ws.malformed" in protocols or complaints:
        raise Fault(f"frame {number}: tshark reads {protocols} and complains of {complaints}")
    if set(fields) != set(wanted):
        raise Fault(f"frame {number}: tshark shows {sorted(fields)}, meant were {sorted(wanted)}")
    for field, value in wanted.items():
        if not as_meant(value, *fields[field]):
            raise Fault(f"frame {number}: {field} is {fields[field]} for tshark, {value!r} was meant")
    counts["fields"] += len(wanted)
    counts[f"{wanted['type']:04x}"] += 1


def main(words):
    if len(words) not in (2, 3):
        print(__doc__.strip(), file=sys.stderr)
        return 2
    with open(words[0], "rb") as day, open(words[1], encoding="ascii") as lines:
        sent = list(messages(day.read(), lines.read().splitlines()))
    counts = Counter()
    with tempfile.TemporaryDirectory() as folder:
        file = words[2] if len(words) == 3 else os.path.join(folder, "day.pcap")
        with open(file, "wb") as out:
            out.write(capture(sent))
        read = list(read_by_tshark(file))
    if len(read) != len(sent):
        raise Fault(f"{len(sent)} frames were written, tshark shows {len(read)}")
    for number, (message, frame) in enumerate(zip(sent, read), 1):
        compare(number, message[3], *frame, counts)
    kinds = ", ".join(f"{counts[k]} {k}" for k in sorted(counts) if len(k) == 4)
    print(f"{len(sent)} messages ({kinds}): {counts['fields']} fields as meant")
    return 0


if __name__ == "__main__":
    try:
        sys.exit(main(sys.argv[1:]))
    except (Fault, OSError) as fault:
        print(f"NOT {fault}")
        sys.exit(1)
    except (ValueError, IndexError, struct.error) as fault:
        print(f"NOT the lines or the day can't be read: {fault}")
        sys.exit(1)
