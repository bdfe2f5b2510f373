"""The console of docs/CONSOLE.md: from the bytes of an input to the bytes of the output."""

import sweeps
from listtext import Fault, read_command, read_list
from networks import Refused

CLOSURES = bytes(512)
PLACES = 64


def parted(data):
    """The list and the commands: parted by the first empty line, which belongs to neither."""
    if data.startswith(b"\n"):
        return b"", data[1:]
    place = data.find(b"\n\n")
    if place < 0:
        return data, b""
    return data[: place + 1], data[place + 2 :]


def command_lines(data):
    lines = data.split(b"\n")
    if lines[-1] == b"":
        lines.pop()
    return lines


def answer(network, line):
    try:
        word, numbers = read_command(line)
        if word == "fastest":
            start, end, channels = numbers
            return f"(fastest {sweeps.fastest(network, CLOSURES, start, end, channels, PLACES)})"
        start, end = numbers
        return f"(widest {sweeps.widest(network, CLOSURES, start, end, PLACES)})"
    except Fault as fault:
        return str(fault)
    except Refused as refused:
        return f"(refused {refused.number})"


def respond(data):
    """All that the console prints for an input."""
    texts, commands = parted(data)
    try:
        network = read_list(texts).sealed()
    except Fault as fault:
        return f"{fault}\n"
    return "".join(answer(network, line) + "\n" for line in command_lines(commands))
