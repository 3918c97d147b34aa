"""What the program `bench` prints for bench lists, computed from the Python model of the arrival book.

    python3 tools/bench_list.py crates/bench/data/example.txt crates/bench/data/long.txt | cmp - crates/bench/stdout
"""
import re
import sys

from rule_models import Book, perform

# a compact map of 1,024 slots, and a plain store of 16,384 bytes
ROOMS = [9 * m // 10 for m in (16, 32, 64, 128, 256, 512, 1024)]
BYTES = 16384
LONGEST = 200

PRICED = re.compile(rb"([EC]) ([0-9]{1,10}) (.*)", re.DOTALL)
TAGGED = re.compile(rb"([FS]) (.*)", re.DOTALL)
TICKET = re.compile(rb"P ([0-9]{1,10})")


def call_of(line):
    """The call that a line asks for, as its name and arguments; None where it is not read."""
    if len(line) > 255:
        return None
    if line == b"D":
        return "double", ()
    if match := PRICED.fullmatch(line):
        amount = int(match[2])
        name = {b"E": "enter", b"C": "change"}[match[1]]
        return (name, (tuple(match[3]), amount)) if amount < 2**32 else None
    if match := TAGGED.fullmatch(line):
        return {b"F": "find", b"S": "strike"}[match[1]], (tuple(match[2]),)
    if (match := TICKET.fullmatch(line)) and int(match[1]) < 2**32:
        return "spell", (int(match[1]), (0,) * LONGEST)
    return None


def printed(book, line):
    call = call_of(line)
    if call is None:
        return b"unread"
    answer, buffer = perform(book, call)
    kind, rest = answer[0], answer[1:]
    if kind == "length":
        return b"spelled " + bytes(buffer[: rest[0]])
    words = {"enter": "entered", "change": "changed", "strike": "struck", "double": "doubled"}
    word = words[call[0]] if kind in ("ticket", "room") else kind
    return " ".join([word, *map(str, rest)]).encode()


def main():
    for name in sys.argv[1:]:
        with open(name, "rb") as file:
            text = file.read()
        book = Book(ROOMS[0], ROOMS[1:], BYTES)
        lines = text.removesuffix(b"\n").split(b"\n") if text else []
        out = [printed(book, line) for line in lines]
        out.append(b"nodes %d bytes %d" % (book.nodes(), book.label_bytes()))
        sys.stdout.buffer.write(b"\n".join(out) + b"\n")


main()
