#!/usr/bin/env python3
"""Damages a file, differently for each seed: cuts it, changes, puts in or takes out bytes, or writes nonsense in its place.

    damage.py SEED FILE DAMAGED

tools/days plays such files on the proved program and on the twin: what is left of a day, and the place at which it breaks, must be the same.
"""
import random
import sys


def cut(dice, day):
    return day[:dice.randrange(len(day) + 1)]


def change(dice, day):
    day = bytearray(day)
    for _ in range(dice.choice((1, 1, 2, 20))):
        if day:
            day[dice.randrange(len(day))] = dice.choice((0, 1, 10, 11, 127, 128, 255, dice.randrange(256)))
    return bytes(day)


def put_in(dice, day):
    at = dice.randrange(len(day) + 1)
    return day[:at] + dice.randbytes(dice.choice((1, 2, 3, 500))) + day[at:]


def take_out(dice, day):
    at = dice.randrange(len(day) + 1)
    return day[:at] + day[at + dice.choice((1, 2, 3, 500)):]


def length_at_the_end(dice, day):
    """A record that begins behind the last one: its length at the limits, its kind any, perhaps not all there."""
    length = dice.choice((0, 1, 2, 9, 11, 32767, 32768, 65535))
    body = bytes([dice.randrange(13)]) + dice.randbytes(40000)
    return day + length.to_bytes(2, "big") + body[:max(0, length + dice.choice((-1, 0, 0, 1)))]


def nonsense(dice, day):
    return dice.randbytes(dice.choice((0, 1, 2, 3, 300)))


def main(words):
    if len(words) != 3 or not words[0].isdecimal():
        print(__doc__.strip(), file=sys.stderr)
        return 2
    dice = random.Random(int(words[0]))
    with open(words[1], "rb") as file:
        day = file.read()
    with open(words[2], "wb") as out:
        out.write(dice.choice((cut, cut, change, change, change, put_in, take_out, length_at_the_end, length_at_the_end, nonsense))(dice, day))
    return 0


if __name__ == "__main__":
    try:
        sys.exit(main(sys.argv[1:]))
    except OSError as fault:
        print(f"damage.py: {fault}", file=sys.stderr)
        sys.exit(1)
