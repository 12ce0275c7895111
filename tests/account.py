#!/usr/bin/env python3
"""The account of a schedule, worked out from docs/FORMAT.md alone.

It shares nothing with the program, so that the two can be compared.

    account.py PAPER < schedule     print the account on a paper of PAPER bytes
    account.py --cases FILE         print the expected output of a case file
    account.py --random SEED COUNT  print a case file of COUNT random cases

The case file and the expected output are described in CASES.md.
"""

import random
import sys

SCHEDULE_LIMIT = 65536
PAPER_SIZE = 65536
RESERVE = 64
MOST_DIGITS = 19

SIZES = ((1, 64), (1, 8), (1, 256))  # cells, crews, book entries
STRIDE = (1, 1000000)
MOST_SCRIPT = 256
VALUE = {
    b"D": ((0, 999999999),),  # dial
    b"C": ((1, 99999999), (0, 999999999), (1, 65535)),  # serial, litres, gateway
}


class BadLine(Exception):
    def __init__(self, line, field, cause):
        super().__init__(line, field, cause)
        self.text = b"11,%d,%d,%s" % (line, field, cause)


# Reading


def split_lines(data):
    lines = data.split(b"\n")
    if lines[-1] == b"":
        lines.pop()
    return lines


def number(field):
    """The number in a field, or None if the field is no number."""
    if not 1 <= len(field) <= MOST_DIGITS:
        return None
    value = 0
    for byte in field:
        if not 0x30 <= byte <= 0x39:
            return None
        value = 10 * value + (byte - 0x30)
    return value


def fields_of(lines, line, letter):
    """The fields of a wanted line, once its first letter is found right."""
    if line > len(lines):
        raise BadLine(line, 1, b"L")
    fields = lines[line - 1].split(b",")
    if fields[0] != letter:
        raise BadLine(line, 1, b"L")
    return fields


def numbers(fields, line, first, ranges):
    """The numbers from field `first` on; a range of None allows every number."""
    values = []
    for at, bounds in enumerate(ranges, start=first):
        value = number(fields[at - 1])
        if value is None:
            raise BadLine(line, at, b"N")
        if bounds is not None and not bounds[0] <= value <= bounds[1]:
            raise BadLine(line, at, b"K")
        values.append(value)
    return values


def read_head(lines):
    fields = fields_of(lines, 1, b"R")
    if len(fields) != 5:
        raise BadLine(1, 1, b"F")
    kind = fields[1]
    if kind not in VALUE:
        raise BadLine(1, 2, b"N")
    cells = numbers(fields, 1, 3, SIZES)[0]
    return kind, cells


def read_chooser(lines):
    fields = fields_of(lines, 2, b"P")
    count = len(fields)
    if count == 1:
        raise BadLine(2, 1, b"F")
    if fields[1] == b"S":
        if count != 3:
            raise BadLine(2, 1, b"F")
        numbers(fields, 2, 3, (STRIDE,))
    elif fields[1] == b"X":
        if not 1 <= count - 2 <= MOST_SCRIPT:
            raise BadLine(2, 1, b"F")
        numbers(fields, 2, 3, (None,) * (count - 2))
    else:
        raise BadLine(2, 2, b"N")


def read_cell(lines, line, ranges):
    fields = fields_of(lines, line, b"V")
    if len(fields) != 1 + len(ranges):
        raise BadLine(line, 1, b"F")
    return numbers(fields, line, 2, ranges)


def read_schedule(data):
    """The values of the cells in order; raises BadLine at the first bad line."""
    lines = split_lines(data)
    kind, cells = read_head(lines)
    read_chooser(lines)
    values = [read_cell(lines, 3 + at, VALUE[kind]) for at in range(cells)]
    after = 3 + cells
    if len(lines) >= after:  # no call is built: every line here is a wrong letter
        raise BadLine(after, 1, b"L")
    return values


# Writing


def account_lines(data):
    if len(data) > SCHEDULE_LIMIT:
        return [b"13"]
    try:
        values = read_schedule(data)
    except BadLine as bad:
        return [bad.text]
    return [b",".join([b"V"] + [b"%d" % part for part in cell]) for cell in values]


def account(data, paper):
    """(answer, output): the answer is 12 for a paper under 64 bytes, else None."""
    if paper < RESERVE:
        return 12, b""
    output = b""
    for line in account_lines(data):
        line += b"\n"
        if len(output) + len(line) + RESERVE > paper:
            return None, output + b"12\n"
        output += line
    return None, output


# Case files


def split_cases(text):
    """The cases of a case file, as pairs of paper and schedule."""
    if not text.startswith(b"#") or not text.endswith(b"\n"):
        raise ValueError("a case file begins with # and ends with a line feed")
    cases = []
    for piece in text[1:-1].split(b"\n#"):
        paper, feed, schedule = piece.partition(b"\n")
        if not feed or number(paper) is None:
            raise ValueError("a case begins with #, its paper and a line feed")
        cases.append((int(paper), schedule))
    return cases


def fits_case(schedule):
    """Whether a schedule can stand in a case file: no line begins with #."""
    return not (b"\n" + schedule).count(b"\n#")


def join_cases(cases):
    for _, schedule in cases:
        if not fits_case(schedule):
            raise ValueError("a line of a schedule begins with #")
    return b"".join(b"#%d\n%s\n" % case for case in cases)


def expected(cases):
    text = []
    for at, (paper, schedule) in enumerate(cases, start=1):
        answer, output = account(schedule, paper)
        text.append(b"#%d,%d\n" % (at, paper))
        text.append(output if answer is None else b"=%d\n" % answer)
    return b"".join(text)


# Random cases


def random_number(rng, bounds):
    low, high = bounds
    value = rng.choice((low, high, rng.randint(low, high), rng.randint(low, min(high, low + 9))))
    text = b"%d" % value
    if rng.random() < 0.15:
        text = text.rjust(rng.randint(len(text), MOST_DIGITS), b"0")
    return text


def random_valid(rng):
    kind = rng.choice((b"C", b"D"))
    cells = rng.choice((1, 1, 2, 2, 3, 4, 5, 8, rng.randint(1, 64)))
    head = [b"R", kind, random_number(rng, (cells, cells))]
    head += [random_number(rng, bounds) for bounds in SIZES[1:]]
    if rng.random() < 0.5:
        chooser = [b"P", b"S", random_number(rng, STRIDE)]
    else:
        count = rng.choice((1, 2, 3, 6, 6, 20, MOST_SCRIPT))
        chooser = [b"P", b"X"]
        chooser += [random_number(rng, (0, rng.choice((9, 10**6, 10**19 - 1)))) for _ in range(count)]
    lines = [head, chooser]
    for _ in range(cells):
        lines.append([b"V"] + [random_number(rng, bounds) for bounds in VALUE[kind]])
    return lines


def flat(lines):
    return b"\n".join(b",".join(line) for line in lines)


LIKELY_BYTES = b"RPVCDSXOWA,,0123456789\n\n\r -+.x\x00\xff"
LIKELY_NUMBERS = (
    b"0", b"00", b"8", b"9", b"64", b"65", b"256", b"257", b"1000000", b"1000001", b"65535", b"65536",
    b"99999999", b"100000000", b"999999999", b"1000000000", b"4294967296", b"4294967297",
    b"9223372036854775807", b"9223372036854775809", b"9999999999999999999", b"0000000000000000001",
)
LIKELY_FIELDS = LIKELY_NUMBERS + (
    b"", b"-1", b"+1", b" 1", b"1 ", b"1\r", b"x", b"C", b"D", b"S", b"X", b"Q", b"SS",
    b"00000000000000000001", b"18446744073709551617",
)
LIKELY_LINES = (
    b"", b"\r", b"O,1", b"R,1,1", b"W,1,1,5", b"W,1,1,5,6,7", b"C,1", b"A,1", b"V,0", b"V,1,0,1",
    b"P", b"P,", b"P,Q", b"P,Q,1,2", b"P,SS,1", b"P,S", b"P,X", b"P,X,", b"P,S,1", b"R,D,1,1,2",
    b"R", b"V", b"x",
)


def damage_lines(rng, lines):
    """One change to the lines or fields of a schedule."""
    at = rng.randrange(min(len(lines), rng.choice((2, 4, 70))))
    line = lines[at]
    field = rng.randrange(len(line))
    change = rng.randrange(11)
    if change == 0:
        del line[field]
    elif change == 1:
        line.insert(field, line[field])
    elif change == 2:
        line[field] = rng.choice(LIKELY_FIELDS)
    elif change == 3:
        line[-1] = rng.choice(LIKELY_FIELDS)
    elif change == 4:
        del lines[at]
    elif change == 5:
        lines.insert(at, list(line))
    elif change == 6:
        lines.insert(rng.choice((at, len(lines))), rng.choice(LIKELY_LINES).split(b","))
    elif change == 7:
        lines[at] = rng.choice(LIKELY_LINES).split(b",")
    elif change == 8:
        line.append(rng.choice(LIKELY_FIELDS))
    else:
        places = [k for k, text in enumerate(line) if number(text) is not None]
        if places:
            line[rng.choice(places)] = rng.choice(LIKELY_NUMBERS)
    lines[:] = [kept for kept in lines if kept]


def damage_bytes(rng, data):
    """One change to the bytes of a schedule."""
    if not data:
        return data
    at = rng.randrange(min(len(data), rng.choice((12, 30, 9000))))
    byte = bytes([rng.choice(LIKELY_BYTES) if rng.random() < 0.8 else rng.randrange(256)])
    change = rng.randrange(4)
    if change == 0:
        return data[:at] + byte + data[at + 1:]
    if change == 1:
        return data[:at] + byte + data[at:]
    if change == 2:
        return data[:at] + data[at + 1:]
    return data[:at]


def random_schedule(rng):
    lines = random_valid(rng)
    feed = rng.choice((b"", b"\n"))
    style = rng.random()
    if style < 0.25:
        return flat(lines) + feed
    if style < 0.65:
        for _ in range(rng.choice((1, 1, 1, 2, 3))):
            if lines:
                damage_lines(rng, lines)
        return flat(lines) + feed
    data = flat(lines) + feed
    if style < 0.70:
        return data.replace(b"\n", b"\r\n")
    for _ in range(rng.choice((1, 1, 1, 2, 3))):
        data = damage_bytes(rng, data)
    return data


def random_paper(rng, schedule):
    style = rng.random()
    if style < 0.55:
        return PAPER_SIZE
    if style < 0.65:
        return rng.randrange(0, 100)
    needed = RESERVE + len(account(schedule, PAPER_SIZE)[1])
    if style < 0.85:
        return needed + rng.randint(-2, 1)
    return rng.randint(RESERVE, needed)


def random_cases(seed, count):
    """Cases by chance, the same for the same seed. No schedule is over the limit."""
    rng = random.Random(seed)
    cases = []
    while len(cases) < count:
        schedule = random_schedule(rng)
        if fits_case(schedule):
            cases.append((random_paper(rng, schedule), schedule))
    return cases


def main(arguments):
    out = sys.stdout.buffer
    if len(arguments) == 2 and arguments[0] == "--cases":
        with open(arguments[1], "rb") as file:
            out.write(expected(split_cases(file.read())))
    elif len(arguments) == 3 and arguments[0] == "--random":
        out.write(join_cases(random_cases(int(arguments[1]), int(arguments[2]))))
    elif len(arguments) == 1 and arguments[0].isdigit():
        answer, output = account(sys.stdin.buffer.read(), int(arguments[0]))
        out.write(output)
        if answer is not None:
            print("refusal %d: the paper is under %d bytes" % (answer, RESERVE), file=sys.stderr)
    else:
        sys.exit(__doc__)


if __name__ == "__main__":
    main(sys.argv[1:])
