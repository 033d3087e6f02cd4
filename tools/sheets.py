"""What the shipped sheets are written with: the numbers of roles, contents and verbs, and the lines of a sheet."""
import os

OWNER, HAND, FOREMAN, MASTER, SAMPLER, FITTER = range(6)
TREE, NUMBER, SCRIPT, POINTER, HELD, TEMPLATE = range(6)
FORK, GO, RUN, READ, CHANGE, ENABLE, DISABLE = range(1, 8)
ROW, SLOT = 0, 1


def roles(*codes):
    return sum(1 << c for c in codes)


def number(n):
    out = bytearray()
    while n >= 128:
        out.append(n % 128 + 128)
        n //= 128
    out.append(n)
    return bytes(out)


class Sheet:
    def __init__(self):
        self.lines = []

    def line(self, kind, *fields):
        self.lines.append(number(kind) + b"".join(number(f) for f in fields))

    def write(self, name):
        here = os.path.dirname(os.path.abspath(__file__))
        with open(os.path.join(here, "..", "crates", "console", "data", name), "wb") as out:
            out.write(b"".join(self.lines))
        print(len(self.lines), "lines,", sum(map(len, self.lines)), "bytes")
