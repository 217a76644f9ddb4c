#!/usr/bin/env python3
"""Adds up the stack frames in the archive: for each exported function the most stack that any path of calls could take.

    frames.py [ARCHIVE]         crates/dokrawin/out/libdokrawin.a if none is given

tools/stack/measure sees only what its calls touch; this reads the machine code (with llvm-objdump), so it holds for every input, and
may be more than any input needs. A function that calls itself again, by any way, is counted TURNS times: the settling of a line goes on
once for each row of a farm that waits, and a farm has at most nine rows, so nine turns and one more that finds the line empty.
memcpy and memset are the C library's and are not counted.
"""
import os
import re
import subprocess
import sys

TURNS = 10
ROOT = os.path.dirname(os.path.dirname(os.path.dirname(os.path.abspath(__file__))))
# all ways in which compiled code here moves the stack pointer down; others are an error
PUSH = re.compile(r"^pushq?\s")
SUB = re.compile(r"^subq?\s+\$(-?(?:0x)?[0-9a-f]+), %rsp")
UP = re.compile(r"^(popq?\s|addq?\s+\$(0x)?[0-9a-f]+, %rsp|retq?|leaq?\s+[-0-9a-fx]+\(%rsp\), %r(?!sp))")
# a function that calls nothing may use up to 128 bytes below the stack pointer as they are
BELOW = re.compile(r"-(0x[0-9a-f]+|\d+)\(%rsp")
CALL = re.compile(r"^(callq?|jmp)\s")


def functions(archive):
    """(frame in bytes with its return address, the functions that it calls) of each function."""
    try:
        done = subprocess.run(["llvm-objdump", "-d", "-r", "--no-show-raw-insn", archive], capture_output=True, text=True)
    except FileNotFoundError:
        raise SystemExit("frames.py: the command 'llvm-objdump' is not found (Debian: llvm)")
    if done.returncode != 0:
        raise SystemExit(f"frames.py: {archive} can't be read: {done.stderr.strip()}")
    text = done.stdout
    found, name, last = {}, None, ""
    for line in text.splitlines():
        head = re.match(r"^[0-9a-f]+ <(.+)>:$", line)
        if head:
            name = head[1]
            found[name] = [8, set()]
            below = 0
            continue
        if name is None:
            continue
        relocation = re.search(r"R_X86_64_(PLT32|PC32|GOTPCRELX?|REX_GOTPCRELX)\s+(\S+?)([-+]0x[0-9a-f]+)?$", line)
        if relocation and CALL.match(last):
            found[name][1].add(relocation[2].removeprefix(".text."))
        code = re.match(r"^\s*[0-9a-f]+:\s+(.*)$", line)
        if not code or relocation:
            continue
        last = code[1].strip()
        for offset in BELOW.findall(last):
            found[name][0] += max(0, int(offset, 0) - below)
            below = max(below, int(offset, 0))
        if PUSH.match(last):
            found[name][0] += 8
        elif SUB.match(last):
            found[name][0] += abs(int(SUB.match(last)[1], 0))
        elif CALL.match(last):
            if last.startswith("call") and "*" in last:
                raise SystemExit(f"frames.py: {name} calls through a pointer: {last}")
            # the name of an instance has brackets of its own, as in core::cmp::f::<u8>
            inner = re.search(r"<([^+]+)>$", last)
            if inner and (inner[1] != name or last.startswith("call")):
                found[name][1].add(inner[1])
        elif re.search(r", %rsp$", last) and not UP.match(last) and not re.match(r"^(cmp|test)", last):
            raise SystemExit(f"frames.py: {name} moves the stack pointer in a way not known here: {last}")
    return found


def deepest(found, name, path=()):
    """The most stack below a call of `name`, with the way there."""
    frame, calls = found[name]
    most, way = 0, []
    for callee in calls:
        if callee not in found or path.count(callee) + (callee == name) >= TURNS:
            continue
        below, rest = deepest(found, callee, path + (name,))
        if below > most:
            most, way = below, rest
    return frame + most, [name] + way


def main(words):
    archive = words[0] if words else os.path.join(ROOT, "crates", "dokrawin", "out", "libdokrawin.a")
    found = functions(archive)
    if not any(name.startswith("dokrawin_") for name in found):
        raise SystemExit(f"frames.py: there is no function of the core in {archive}")
    outside = {c for _, calls in found.values() for c in calls} - set(found)
    print("| call | at most, bytes | deepest way |\n|---|---|---|")
    for name in sorted(n for n in found if n.startswith("dokrawin_")):
        most, way = deepest(found, name)
        names = [f"{n} {way.count(n)} times" if way.count(n) > 1 else n for n in dict.fromkeys(way)]
        print(f"| {name[9:]} | {most} | {', '.join(names[1:])} |")
    print(f"\nof the C library: {', '.join(sorted(outside))}")
    return 0


if __name__ == "__main__":
    sys.exit(main(sys.argv[1:]))
