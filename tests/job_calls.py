#!/usr/bin/env python3
"""What the test program job_calls prints, worked out by register.py.

    job_calls.py > crates/job_calls/stdout

The calls are drawn by the same simple generator as in the program; what they
answer and leave comes from docs/RULES.md by way of register.py.
"""

from register import Refused, Register, Script, Stride

CELLS, CREWS, ENTRIES, CALLS = 4, 4, 24, 240
NUMBERS = [40, 30, 20, 10, 35, 25, 15, 5, 60, 55, 58, 57, 90, 80, 70, 85, 75, 100]


class Draws:
    def __init__(self, seed):
        self.state = seed

    def draw(self, low, count):
        self.state = (self.state * 1664525 + 1013904223) % 2**32
        return low + (self.state >> 16) % count

    def one_of_four(self):
        """1 to 4, or now and then 5, which is the number of nothing."""
        drawn = self.draw(0, 25)
        return 5 if drawn == 24 else drawn % 4 + 1


def card(draws):
    return (draws.draw(1, 99), draws.draw(0, 200), draws.draw(1, 9))


def dial(draws):
    return (draws.draw(0, 200),)


def fields(value):
    return "".join(",%d" % number for number in value)


def answer(register, which, crew, cell, value):
    """The call as a line has it, and what it is answered."""
    if which < 3:
        return "O,%d" % crew, lambda: ",%d" % register.open(crew)
    if which < 7:
        return "R,%d,%d" % (crew, cell), lambda: fields(register.read(crew, cell))
    if which < 11:
        return "W,%d,%d%s" % (crew, cell, fields(value)), lambda: register.write(crew, cell, value) or ""
    if which < 13:
        return "C,%d" % crew, lambda: ",%d" % register.commit(crew)
    return "A,%d" % crew, lambda: ",%d" % register.abandon(crew)


def account(title, seed, sample, chooser):
    print(title)
    draws = Draws(seed)
    first = [sample(draws) for _ in range(CELLS)]
    register = Register(first, CREWS, ENTRIES, chooser)
    for _ in range(CALLS):
        which = draws.draw(0, 14)
        crew = draws.one_of_four()
        cell = draws.one_of_four()
        call, make = answer(register, which, crew, cell, sample(draws))
        try:
            print("%s +%s" % (call, make()))
        except Refused as refused:
            place = "" if refused.place is None else ",%d" % refused.place
            print("%s %d%s" % (call, refused.number, place))
    for cell in sorted(register.values):
        print("V" + fields(register.values[cell]))
    for entry in register.book:
        print("B,%d,%d,%d,%s" % entry)


def main():
    account("dials, stride 8", 1, dial, Stride(8))
    account("dials, script", 2, dial, Script(NUMBERS))
    account("cards, stride 3", 3, card, Stride(3))
    account("cards, script", 4, card, Script(NUMBERS))


if __name__ == "__main__":
    main()
