#!/usr/bin/env python3
"""Makes, checks and shows farm sheets.

    sheet.py make TEXT SHEET    reads a text, writes the sheet's bytes
    sheet.py check SHEET        says which rules a sheet breaks (nothing: it is good)
    sheet.py show SHEET         prints a good sheet as such a text

The text has a line for each farm, tester and target; `#` begins a comment. Addresses, EID and GID are hexadecimal, farms
are numbered from 0 in the order of their lines:

    farm 1000 quota 2 mode 1 vin DOKRAWIN000000001 eid 020000000001 gid 0200000000FF
    tester 0E00 farm 0
    target 1010 farm 0 reachable
    target 1011 farm 0 unreachable

quota: how many testers may be active at a time, 1 to 8. mode: the power mode that is told, 0 not ready, 1 ready, 2 not supported.
"""
import os
import struct
import sys

FARM, RECORD, HEAD = 33, 4, 12


class Fault(Exception):
    pass


def hexadecimal(word, size):
    try:
        value = bytes.fromhex(word)
    except ValueError:
        value = b""
    if len(value) != size:
        raise Fault(f"'{word}' is not {2 * size} hexadecimal digits")
    return value


def decimal(word, least, most):
    if not word.isascii() or not word.isdigit() or not least <= int(word) <= most:
        raise Fault(f"'{word}' is not a number from {least} to {most}")
    return int(word)


def expect(words, *pattern):
    """The words at the places that the pattern leaves open (None)."""
    if len(words) != len(pattern) or any(p not in (None, w) for w, p in zip(words, pattern)):
        raise Fault("should read: " + " ".join(p or ".." for p in pattern))
    return [w for w, p in zip(words, pattern) if p is None]


def farm_line(words):
    address, quota, mode, vin, eid, gid = expect(
        words, "farm", None, "quota", None, "mode", None, "vin", None, "eid", None, "gid", None)
    if len(vin) != 17 or not vin.isascii():
        raise Fault(f"a VIN has 17 characters, '{vin}' has {len(vin)}")
    return (hexadecimal(address, 2) + bytes([decimal(quota, 1, 8), decimal(mode, 0, 2)]) + vin.encode()
            + hexadecimal(eid, 6) + hexadecimal(gid, 6))


def tester_line(words):
    address, farm = expect(words, "tester", None, "farm", None)
    return hexadecimal(address, 2) + bytes([decimal(farm, 0, 3), 0])


def target_line(words):
    address, farm, reach = expect(words, "target", None, "farm", None, None)
    if reach not in ("reachable", "unreachable"):
        raise Fault("a target is reachable or unreachable")
    return hexadecimal(address, 2) + bytes([decimal(farm, 0, 3), reach == "reachable"])


LINES = {"farm": farm_line, "tester": tester_line, "target": target_line}


def build(text):
    """The bytes of the sheet that the text describes. Testers and targets are put in order."""
    found = {kind: [] for kind in LINES}
    for number, line in enumerate(text.splitlines(), 1):
        words = line.split("#")[0].split()
        if not words:
            continue
        try:
            if words[0] not in LINES:
                raise Fault(f"'{words[0]}' is not farm, tester or target")
            found[words[0]].append(LINES[words[0]](words))
        except Fault as fault:
            raise Fault(f"line {number}: {fault}")
    farms, testers, targets = found["farm"], sorted(found["tester"]), sorted(found["target"])
    begin = [HEAD, HEAD + FARM * len(farms), HEAD + FARM * len(farms) + RECORD * len(testers)]
    sheet = struct.pack(">6H", len(farms), len(testers), len(targets), *begin) + b"".join(farms + testers + targets)
    broken = faults(sheet)
    if broken:
        raise Fault("\n".join(broken))
    return sheet


def parts(sheet):
    """Farms, testers and targets of a sheet whose counts and length are right."""
    counts = struct.unpack(">3H", sheet[:6])
    at, found = HEAD, []
    for count, size in zip(counts, (FARM, RECORD, RECORD)):
        found.append([sheet[at + size * i:at + size * (i + 1)] for i in range(count)])
        at += size * count
    return found


def faults(sheet):
    """The rules that the sheet breaks, in words."""
    if len(sheet) < HEAD:
        return [f"a sheet has at least {HEAD} bytes, this one has {len(sheet)}"]
    farms, testers, targets, *offsets = struct.unpack(">6H", sheet[:HEAD])
    said = []
    for what, count, least, most in (("farms", farms, 1, 4), ("testers", testers, 0, 32), ("targets", targets, 0, 64)):
        if not least <= count <= most:
            said.append(f"{count} {what}: there may be {least} to {most}")
    begin = [HEAD, HEAD + FARM * farms, HEAD + FARM * farms + RECORD * testers]
    for what, is_at, should in zip(("farms", "testers", "targets"), offsets, begin):
        if is_at != should:
            said.append(f"the offset of the {what} is {is_at} and should be {should}")
    should = begin[2] + RECORD * targets
    if len(sheet) != should:
        said.append(f"the sheet has {len(sheet)} bytes and should have {should}")
    return said or record_faults(*parts(sheet))


def record_faults(farms, testers, targets):
    said = []
    for i, farm in enumerate(farms):
        if farm[:2] == b"\0\0":
            said.append(f"farm {i}: the entity address is 0")
        if not 1 <= farm[2] <= 8:
            said.append(f"farm {i}: the quota is {farm[2]} and should be 1 to 8")
        if farm[3] > 2:
            said.append(f"farm {i}: the power mode is {farm[3]} and should be 0 to 2")
    rows = sum(farm[2] + 1 for farm in farms)
    if rows > 16:
        said.append(f"the farms need {rows} rows (a quota and one more each), and there are 16")
    for what, records, last in (("tester", testers, 0), ("target", targets, 1)):
        before = b"\0\0"
        for record in records:
            name = f"{what} {record[:2].hex().upper()}"
            if record[:2] == b"\0\0":
                said.append(f"{name}: no address may be 0")
            elif record[:2] <= before:
                said.append(f"{name}: stands twice, or behind {before.hex().upper()}, which is not lower")
            before = record[:2]
            if record[2] >= len(farms):
                said.append(f"{name}: there is no farm {record[2]}")
            if record[3] > last:
                said.append(f"{name}: the last byte is {record[3]} and should be {'0 or 1' if last else 0}")
    return said


def show(sheet):
    farms, testers, targets = parts(sheet)
    lines = [f"farm {f[:2].hex().upper()} quota {f[2]} mode {f[3]} vin {f[4:21].decode('latin-1')} "
             f"eid {f[21:27].hex().upper()} gid {f[27:33].hex().upper()}" for f in farms]
    lines += [f"tester {t[:2].hex().upper()} farm {t[2]}" for t in testers]
    lines += [f"target {t[:2].hex().upper()} farm {t[2]} {'reachable' if t[3] else 'unreachable'}" for t in targets]
    return "\n".join(lines)


def read_text(name):
    try:
        with open(name, encoding="utf-8") as text:
            return text.read()
    except UnicodeDecodeError as fault:
        raise Fault(f"{name} is no text in UTF-8 (byte {fault.start})")


def store(name, sheet):
    """All of it or nothing: it is written beside its place and then put there, so that a full disk leaves an older sheet as it was. Nothing
    is put in the place of a link or a device: these are written to."""
    is_file = not os.path.islink(name) and (os.path.isfile(name) or not os.path.exists(name))
    written = name + ".new" if is_file else name
    try:
        with open(written, "wb") as out:
            out.write(sheet)
        if is_file:
            os.replace(written, name)
    except OSError as fault:
        if is_file and os.path.isfile(written):
            os.remove(written)
        raise Fault(f"{name} can't be written: {fault.strerror}")


def main(words):
    if len(words) == 3 and words[0] == "make":
        store(words[2], build(read_text(words[1])))
        return 0
    if len(words) == 2 and words[0] in ("check", "show"):
        with open(words[1], "rb") as file:
            sheet = file.read()
        broken = faults(sheet)
        if broken:
            raise Fault("\n".join(broken))
        print("good" if words[0] == "check" else show(sheet))
        return 0
    print(__doc__.strip(), file=sys.stderr)
    return 2


if __name__ == "__main__":
    try:
        sys.exit(main(sys.argv[1:]))
    except (Fault, OSError) as fault:
        print(f"sheet.py: {fault}", file=sys.stderr)
        sys.exit(1)
