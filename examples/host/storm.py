#!/usr/bin/env python3
"""Testers that behave at random, against the example host.

    storm.py [SECONDS [SEED [COMMAND]]]      10 seconds, seed 1 and `run` in this folder if not given

They connect more often than there are rows, send right and wrong messages whole and in pieces, answer checks or not, close, half close
and reset, stop reading, and send datagrams of all kinds. What the host sends must be whole messages of the types that the core has. At the
end all links are lost; then nothing is in hand, so each farm's meters must balance, and the host must end as if nothing had been.
"""
import os
import random
import socket
import struct
import sys
import time
from collections import Counter

from rig import HERE, Host, activation, alive, diagnostic, message

LENGTHS = {0x0000: (1, 1), 0x0006: (9, 9), 0x0007: (0, 0), 0x8001: (5, 2048), 0x8002: (5, 5), 0x8003: (5, 5),
           0x0004: (32, 32), 0x4002: (7, 7), 0x4004: (1, 1)}
TESTERS = ((0x0E00, 0x0E01, 0x0E10, 0x0E55), (0x0E10, 0x0E11, 0x0E12, 0x0E00))
TARGETS = (0x1010, 0x1011, 0x2010, 0x3000)


class Tester:
    def __init__(self, dice, host, farm):
        self.dice, self.farm = dice, farm
        self.socket = host.connect(farm)
        self.socket.setblocking(False)
        self.address = dice.choice(TESTERS[farm])
        self.unsent, self.unread, self.deaf, self.open = b"", b"", dice.random() < 0.05, True

    def one(self):
        d = self.dice
        kind = d.randrange(12)
        if kind < 4:
            return activation(self.address, d.choice((0, 0, 0, 1, 7)))
        if kind < 8:
            return diagnostic(self.address, d.choice(TARGETS), d.randbytes(d.choice((1, 2, 3, 40, 2044))))
        if kind == 8:
            return alive(self.address)
        if kind == 9:
            return message(d.choice((0x0007, 0x1234, 0x8002, 0x0000)), d.randbytes(d.randrange(20)))
        if kind == 10:
            return message(0x8001, d.randbytes(d.choice((4, 2049, 5000))))
        return d.randbytes(d.randrange(1, 30)) if d.random() < 0.3 else alive(self.address)

    def act(self, counts):
        try:
            self.talk(self.dice.randrange(100))
            if self.open and not self.deaf:
                self.read(counts)
        except BlockingIOError:
            pass
        except OSError:
            self.end()

    def talk(self, kind):
        if kind < 60 and len(self.unsent) < 20000:
            self.unsent += self.one()
        elif kind == 60:
            self.socket.setsockopt(socket.SOL_SOCKET, socket.SO_LINGER, struct.pack("ii", 1, 0))
            self.end()
        elif kind == 61:
            self.end()
        elif kind == 62:
            self.socket.shutdown(socket.SHUT_WR)
            self.unsent = b""
        if self.open and self.unsent:
            sent = self.socket.send(self.unsent[:self.dice.choice((1, 3, 9, 100, 5000))])
            self.unsent = self.unsent[sent:]

    def read(self, counts):
        more = self.socket.recv(65536)
        if not more:
            self.end()
        self.unread += more
        while len(self.unread) >= 8:
            length = check(self.unread)
            if len(self.unread) < 8 + length:
                return
            counts[f"{int.from_bytes(self.unread[2:4], 'big'):04x}"] += 1
            if self.unread[2:4] == b"\0\x07" and self.dice.random() < 0.5:
                self.unsent += alive(self.address)
            self.unread = self.unread[8 + length:]

    def end(self):
        self.socket.close()
        self.open = False


def check(data):
    """The length of the message that begins here, after a look at its header."""
    kind, length = struct.unpack(">HI", data[2:8])
    least, most = LENGTHS.get(kind, (1, 0))
    if data[:2] != b"\x03\xfc" or not least <= length <= most:
        raise AssertionError(f"the host sent {data[:40].hex()}")
    return length


def datagram(dice, host, farm, counts):
    kind = dice.choice((0x0001, 0x0002, 0x0003, 0x0004, 0x4001, 0x4003, 0x0000, 0x0005, 0xBEEF))
    data = message(kind, dice.randbytes(dice.choice((0, 1, 6, 17))))[:dice.choice((7, 8, 100, 100))]
    answer = host.ask(farm, data, 0.01)
    if answer is not None:
        if check(answer) != len(answer) - 8:
            raise AssertionError(f"the host answered {answer.hex()}")
        counts[f"{int.from_bytes(answer[2:4], 'big'):04x}"] += 1


def storm(host, seconds, seed):
    dice, testers, counts = random.Random(seed), [], Counter()
    end = time.monotonic() + seconds
    while time.monotonic() < end:
        if len(testers) < 12 and dice.random() < 0.1:
            testers.append(Tester(dice, host, dice.randrange(2)))
            counts["connections"] += 1
        for tester in testers:
            tester.act(counts)
        testers = [t for t in testers if t.open]
        if dice.random() < 0.02:
            datagram(dice, host, dice.randrange(2), counts)
        if dice.random() < 0.0005:
            host.command(f"lost {dice.randrange(2)}")
            counts["links lost"] += 1
        if host.process.poll() is not None:
            raise AssertionError("the host has ended")
    for tester in testers:
        tester.end()
    return counts


def main(words):
    try:
        seconds, seed = float(words[0]) if words else 10.0, int(words[1]) if len(words) > 1 else 1
    except ValueError:
        seconds, seed = 0.0, 0
    if not 0 < seconds <= 86400 or len(words) > 3:
        print(__doc__.strip(), file=sys.stderr)
        return 2
    host = Host(words[2] if len(words) > 2 else os.path.join(HERE, "run"), int(seconds) + 60)
    try:
        counts = storm(host, seconds, seed)
        time.sleep(0.5)
        host.command("lost 0\nlost 1\nmeters")
        host.wait_for("farm 1 taken")
    except (AssertionError, OSError) as fault:
        print(f"NOT {fault}\n" + "\n".join(host.lines[-10:]))
        host.process.kill()
        return 1
    status, lines = host.end()
    balanced = [line.split() for line in lines if line.startswith("farm") and "taken" in line][-2:]
    print(", ".join(f"{counts[k]} {k}" for k in sorted(counts)))
    print(*("  ".join(words) for words in balanced), sep="\n")
    good = all((int(w[3]) - int(w[5]) - int(w[7])) % 2**32 == 0 for w in balanced)
    if status != 0 or not good or any(line.startswith("host:") for line in lines):
        print(f"NOT exit {status}, meters {'balance' if good else 'do not balance'}")
        return 1
    return 0


if __name__ == "__main__":
    sys.exit(main(sys.argv[1:]))
