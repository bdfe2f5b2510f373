"""Dialogues for the console: chosen ones at every edge, and made ones from a seed.

A file of dialogues has for each its length in bytes on a line of its own, and then its bytes.
"""

import random

from console import respond

LINE = b"(line 0 1 (delay 1) (rate 10) (class 0) (room 1) (jitter 0) (loss 0))\n"
WORKED = b"""(points 4)
(line 0 1 (delay 1) (rate 10) (class 0) (room 1) (jitter 0) (loss 0))
(line 1 3 (delay 1) (rate 10) (class 0) (room 1) (jitter 0) (loss 0))
(line 0 2 (delay 3) (rate 2) (class 0) (room 2) (jitter 0) (loss 0))
(line 2 3 (delay 3) (rate 2) (class 0) (room 2) (jitter 0) (loss 0))
(line 0 3 (delay 5) (rate 6) (class 0) (room 1) (jitter 0) (loss 0))
(end)
"""
COMMANDS = b"""(fastest 0 3 (room 1))
(widest 0 3)
(fastest 0 3 (room 2))
(fastest 0 4 (room 1))
(fastest 4 0 (room 1))
(fastest 2 2 (room 1))
(fastest 0 3 (room 0))
(fastest 0 3 (room 1000))
(fastest 0 3 (room 1001))
(fastest 3 0 (room 1))
(widest 3 0)
(widest 1 1)
(widest 0 4)
(widest 0 4294967295)
(widest 0 4294967296)
(widest 0 00000000003)
(widest 0 0000000003)
  ( widest0 3 )

(widest 0 3
(widest 0 3))
(widest 0 3 (room 1))
(fastest 0 3)
(fastest 0 3 (delay 1))
(longest 0 3)
(book 0 3 (room 2) (limit 6) (margin 1 10))
(widest -1 3)
widest
(widest 0 3)"""


def framed(points, lines):
    return b"(points %d)\n" % points + lines + b"(end)\n"


def padded(text, length):
    """The text with spaces at its end up to a length."""
    return text + b" " * (length - len(text))


def with_number(word, value):
    """A list of one line with one of its inner numbers written anew."""
    texts = {"delay": b"1", "rate": b"10", "class": b"0", "room": b"1", "jitter": b"0", "loss": b"0"}
    texts[word] = value
    parts = b" ".join(b"(%s %s)" % (name.encode(), text) for name, text in texts.items())
    return framed(2, b"(line 0 1 " + parts + b")\n")


def edges():
    """Texts at the edges of every question, on both sides."""
    tail = b"\n(widest 0 1)\n"
    yield WORKED + b"\n" + COMMANDS
    yield WORKED
    yield b"\n" + COMMANDS
    yield b""
    for count in (511, 512, 513):
        yield framed(2, LINE * count) + tail
    for length in (65_536, 65_537):
        yield padded(framed(2, LINE), length)
        yield framed(2, LINE) + b"\n" + padded(b"(widest 0 1)", length) + b"\n(widest 0 1)\n"
    for points in (b"0", b"1", b"2", b"64", b"65", b"0000000064", b"00000000064", b"4294967298", b"9999999999"):
        yield b"(points " + points + b")\n" + LINE + b"(end)\n" + tail
    for word, most in (("delay", 1_000_000), ("rate", 10_000), ("class", 7), ("room", 1_000), ("jitter", 1_000), ("loss", 1_000)):
        for value in (b"0", b"1", b"%d" % most, b"%d" % (most + 1), b"00000000001", b"4294967296"):
            yield with_number(word, value) + tail
    for ends in (b"0 1", b"1 2", b"2 1", b"1 1", b"1 4294967297", b"9999999999 0", b"10000000000 0"):
        yield b"(points 2)\n(line " + ends + LINE[9:] + b"(end)\n" + tail
    for text in (b"(poi!nts 4)", b"(points 99!)", b"(points! 4)", b"(points4)\n(end)\n", b"(points\n4)\n(end)\n", b" \n(points 4)\n(end)\n"):
        yield text
    for text in (b"(points 4)(end)\n", b"(points 4)\n(end)", b"(points 4)\n(end)\n(end)\n", b"(points 4)\n(end)\n  \t", b"(points 4)\n(end)\n(", b"(points 4)\n(end)\n   "):
        yield text
    for text in (b"(line 0 1", b"(points 4)\n(points 4)\n(end)\n", b"(Points 4)\n", b"[points 4]\n", b"(points four)\n", b"(4 points)\n", b"(point 4)\n(end)\n", b"(pointss 4)\n(end)\n"):
        yield text
    for byte in range(256):
        yield b"(points 2)" + bytes([byte]) + b"\n(end)\n"


def damaged(rng, text):
    """The text with a few bytes dropped, doubled, changed, or a piece moved."""
    data = bytearray(text)
    for _ in range(rng.randint(1, 3)):
        if not data:
            break
        place = rng.randrange(len(data))
        kind = rng.randrange(5)
        if kind == 0:
            del data[place]
        elif kind == 1:
            data.insert(place, data[place])
        elif kind == 2:
            data[place] = rng.choice(b"()\n 09azZ!-\x00\xff")
        elif kind == 3:
            del data[place : place + rng.randint(1, 20)]
        else:
            piece = data[place : place + rng.randint(1, 12)]
            data[rng.randrange(len(data)) : 0] = piece
    return bytes(data)


def made_list(rng):
    points = rng.choice([2, 3, 5, 8, 20, 64])
    lines = b""
    for _ in range(rng.randint(0, 3 * points)):
        numbers = (rng.randrange(points), rng.randrange(points), rng.choice([0, 1, 7, 1000, 1_000_000]), rng.randrange(10_001), rng.randrange(8), rng.choice([1, 2, 3, 10, 1000]), rng.randrange(1001), rng.randrange(1001))
        lines += b"(line %d %d (delay %d) (rate %d) (class %d) (room %d) (jitter %d) (loss %d))\n" % numbers
    return points, framed(points, lines)


def made_commands(rng, points):
    for _ in range(rng.randint(1, 12)):
        start, end = rng.randrange(points + 1), rng.randrange(points + 1)
        if rng.random() < 0.5:
            command = b"(fastest %d %d (room %d))" % (start, end, rng.choice([0, 1, 1, 2, 3, 10, 1000, 1001]))
        else:
            command = b"(widest %d %d)" % (start, end)
        yield damaged(rng, command) if rng.random() < 0.2 else command


def made(seed, count):
    """So many dialogues from a seed, some of them damaged."""
    rng = random.Random(seed)
    for _ in range(count):
        points, text = made_list(rng)
        commands = b"\n".join(made_commands(rng, points))
        if rng.random() < 0.4:
            text = damaged(rng, text)
        yield text + b"\n" + commands + (b"\n" if rng.random() < 0.8 else b"")


def bound(dialogues):
    """The dialogues as one file."""
    return b"".join(b"%d\n" % len(data) + data for data in dialogues)


def unbound(data):
    """The dialogues of such a file."""
    place = 0
    while place < len(data):
        end = data.index(b"\n", place)
        length = int(data[place:end])
        yield data[end + 1 : end + 1 + length]
        place = end + 1 + length


def replayed(data):
    """What the program `replay` prints for a file of dialogues."""
    for number, dialogue in enumerate(unbound(data)):
        yield f"dialogue {number}"
        yield from respond(dialogue).splitlines()


def stored():
    return bound([*edges(), *made(20261117, 200)])
