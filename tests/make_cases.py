#!/usr/bin/env python3
"""Writes the case file, its expected output and CASES.md.

    make_cases.py CASES_FOLDER            write them anew
    make_cases.py --check CASES_FOLDER    write the cases alone, and leave CASES.md as it is

Every case stands below with the answer worked out from docs/FORMAT.md by
hand. The answer written to CASES_FOLDER/stdout comes from account.py; the
two must agree, or nothing is written.
"""

import os
import sys

import account

FULL = 65536

HEAD = b"R,D,1,1,2\n"  # one dial
CARD = b"R,C,1,1,2\n"  # one card
STEP = b"P,S,1\n"
DIAL = HEAD + STEP  # ready for the one dial
SLOT = CARD + STEP  # ready for the one card
GOOD = DIAL + b"V,0\n"  # a whole schedule of one dial

NINES = b"9" * 19
ZEROS = b"0" * 19
LONG = b"0" * 19 + b"1"  # twenty digits


def bad(line, field, cause):
    return b"11,%d,%d,%s\n" % (line, field, cause.encode())


def script(count, text=b"3"):
    return b"P,X," + b",".join([text] * count) + b"\n"


THREE = b"R,D,3,1,2\nP,S,1\nV,7\nV,12345\nV,0\n"
MANY_DIALS = b"R,D,64,8,256\nP,S,1000000\n" + b"".join(b"V,%d\n" % (k * k) for k in range(1, 65))
MANY_CARDS = b"R,C,64,8,256\nP,S,17\n" + b"".join(
    b"V,%d,%d,%d\n" % (20000000 + k, 1000 * k, 300 + k) for k in range(1, 65)
)
MANY_ZEROS = b"R,D,64,1,1\nP,S,1\n" + b"V,0\n" * 64
LAST_OF_MANY_BAD = b"R,D,64,1,1\nP,S,1\n" + b"V,0\n" * 63 + b"V,1000000000\n"
LAST_NUMBER_BAD = HEAD + b"P,X," + b"3," * 255 + b"x\nV,0\n"


def filled(total, start=GOOD, end=b""):
    return start + b"x" * (total - len(start) - len(end)) + end


# Each group: title, rule, then cases of paper, schedule, answer by hand, what it shows.
GROUPS = [
    (
        "Good registers of dials",
        "Every line keeps the rules, so a `V` line is printed for every cell.",
        [
            (FULL, GOOD, b"V,0\n", "smallest dial, final line feed present"),
            (FULL, GOOD[:-1], b"V,0\n", "the same without the final line feed: same account"),
            (FULL, DIAL + b"V,999999999\n", b"V,999999999\n", "largest dial"),
            (FULL, b"R,D,1,1,1\nP,S,1\nV,5\n", b"V,5\n", "smallest sizes and stride"),
            (FULL, b"R,D,1,8,256\nP,S,1000000\nV,5\n", b"V,5\n", "most crews, largest book, largest stride"),
            (FULL, THREE, b"V,7\nV,12345\nV,0\n", "three dials, printed in the order filled, not by size"),
            (FULL, MANY_DIALS, b"".join(b"V,%d\n" % (k * k) for k in range(1, 65)), "64 dials, the squares of 1 to 64, all sizes at their largest"),
            (FULL, DIAL + b"V,0000000000000000007\n", b"V,7\n", "19 digits with leading zeros: a number, printed without them"),
            (FULL, DIAL + b"V," + ZEROS + b"\n", b"V,0\n", "19 zeros are the number 0"),
            (FULL, DIAL + b"V,00", b"V,0\n", "`00` on a last line without line feed"),
            (
                FULL,
                b"R,D,0000000000000000001,0000000000000000008,0000000000000000256\nP,S,0000000000001000000\nV,0000000000999999999\n",
                b"V,999999999\n",
                "leading zeros to 19 digits in each size, the stride and the dial",
            ),
            (FULL, HEAD + b"P,X,0\nV,4\n", b"V,4\n", "script of one number, 0"),
            (FULL, HEAD + b"P,X,5,0,12,7\nV,4\n", b"V,4\n", "script of four numbers"),
            (FULL, HEAD + script(256) + b"V,4\n", b"V,4\n", "script of 256 numbers, 258 fields: the most"),
            (FULL, HEAD + b"P,X,9999999999999999999,0000000000000000000,9223372036854775808\nV,4\n", b"V,4\n", "script numbers of 19 digits have no range, 9,223,372,036,854,775,808 (2^63) and above included"),
            (FULL, HEAD + script(256, NINES) + b"V,4\n", b"V,4\n", "256 script numbers of 19 nines, the longest good chooser line"),
        ],
    ),
    (
        "Good registers of cards",
        "A card prints its serial, reading and gateway.",
        [
            (FULL, SLOT + b"V,1,0,1\n", b"V,1,0,1\n", "smallest value in each field"),
            (FULL, SLOT + b"V,99999999,999999999,65535", b"V,99999999,999999999,65535\n", "largest value in each field, no final line feed"),
            (FULL, SLOT + b"V,0000000000000000001,0000000000000000000,0000000000000065535\n", b"V,1,0,65535\n", "leading zeros to 19 digits in each field"),
            (
                FULL,
                b"R,C,3,2,16\nP,X,1,2\nV,20417733,184250,311\nV,00417734,9020,311\nV,20417735,61920,12",
                b"V,20417733,184250,311\nV,417734,9020,311\nV,20417735,61920,12\n",
                "three cards with a script chooser; a serial with leading zeros loses them",
            ),
            (FULL, MANY_CARDS, b"".join(b"V,%d,%d,%d\n" % (20000000 + k, 1000 * k, 300 + k) for k in range(1, 65)), "64 cards"),
        ],
    ),
    (
        "Head, cause L",
        "The first field of line 1 must be the one byte `R`.",
        [
            (FULL, b"", bad(1, 1, "L"), "empty input: line 1 is missing"),
            (FULL, b"\n", bad(1, 1, "L"), "one line feed: line 1 is there and empty"),
            (FULL, b"\n" + GOOD, bad(1, 1, "L"), "an empty line before the head"),
            (FULL, b"\r\n", bad(1, 1, "L"), "a lone carriage return is a letter not allowed"),
            (FULL, b"RR,D,1,1,2\n", bad(1, 1, "L"), "first field of two bytes"),
            (FULL, b"r,D,1,1,2\n", bad(1, 1, "L"), "small letter"),
            (FULL, b" R,D,1,1,2\n", bad(1, 1, "L"), "a space before the letter"),
            (FULL, b",R,D,1,1\n", bad(1, 1, "L"), "empty first field, though five fields"),
            (FULL, b"R\r,D,1,1,2\n", bad(1, 1, "L"), "carriage return within the first field"),
            (FULL, b"\xef\xbb\xbf" + GOOD, bad(1, 1, "L"), "a byte order mark makes the first field four bytes"),
            (FULL, b"P,S,1\n", bad(1, 1, "L"), "a chooser line first"),
            (FULL, b"V,0\n", bad(1, 1, "L"), "a cell line first"),
            (FULL, b"O,1\n", bad(1, 1, "L"), "a call line first"),
            (FULL, b"R;D;1;1;2\n", bad(1, 1, "L"), "semicolons part no fields: the first field has nine bytes"),
            (FULL, b"x", bad(1, 1, "L"), "one letter no stage knows, no line feed"),
        ],
    ),
    (
        "Head, cause F",
        "The head has five fields.",
        [
            (FULL, b"R\n", bad(1, 1, "F"), "one field"),
            (FULL, b"R,", bad(1, 1, "F"), "two fields, the second empty"),
            (FULL, b"R,D,1,1\n", bad(1, 1, "F"), "four fields"),
            (FULL, b"R,D,1,1,2,3\n" + STEP + b"V,0\n", bad(1, 1, "F"), "six fields"),
            (FULL, b"R,D,1,1,2,\n" + STEP + b"V,0\n", bad(1, 1, "F"), "a comma at the end opens a sixth field"),
        ],
    ),
    (
        "Head, cause N",
        "Field 2 must be `C` or `D`; a number has 1 to 19 ASCII digits and nothing else.",
        [
            (FULL, b"R,E,1,1,2\n", bad(1, 2, "N"), "kind not named"),
            (FULL, b"R,d,1,1,2\n", bad(1, 2, "N"), "kind in a small letter"),
            (FULL, b"R,CD,1,1,2\n", bad(1, 2, "N"), "kind of two bytes"),
            (FULL, b"R,,1,1,2\n", bad(1, 2, "N"), "empty kind"),
            (FULL, b"R,D,,1,2\n", bad(1, 3, "N"), "empty count of cells"),
            (FULL, b"R,D,1,,2\n", bad(1, 4, "N"), "empty count of crews"),
            (FULL, b"R,D,1,1,\n", bad(1, 5, "N"), "empty book size"),
            (FULL, b"R,D,x,1,2\n", bad(1, 3, "N"), "a letter for the cells"),
            (FULL, b"R,D,1, 1,2\n", bad(1, 4, "N"), "a space before the crews"),
            (FULL, b"R,D,1,-1,2\n", bad(1, 4, "N"), "a minus sign"),
            (FULL, b"R,D,1,1,+2\n", bad(1, 5, "N"), "a plus sign"),
            (FULL, b"R,D,1,1,2 \n", bad(1, 5, "N"), "a space after the book size"),
            (FULL, GOOD.replace(b"\n", b"\r\n"), bad(1, 5, "N"), "carriage returns at every line's end: the first falls in field 5"),
            (FULL, b"R,D," + LONG + b",1,2\n", bad(1, 3, "N"), "20 digits in the cells, though the value would be 1"),
            (FULL, b"R,D,1," + LONG + b",2\n", bad(1, 4, "N"), "20 digits in the crews"),
            (FULL, b"R,D,1,1," + LONG + b"\n", bad(1, 5, "N"), "20 digits in the book size"),
            (FULL, b"R,D,18446744073709551617,1,2\n", bad(1, 3, "N"), "20 digits, 2^64 + 1"),
        ],
    ),
    (
        "Head, cause K",
        "Ranges: cells 1 to 64, crews 1 to 8, book entries 1 to 256.",
        [
            (FULL, b"R,D,0,1,2\n", bad(1, 3, "K"), "no cells"),
            (FULL, b"R,D,65,1,2\n", bad(1, 3, "K"), "65 cells"),
            (FULL, b"R,C,1,0,2\n", bad(1, 4, "K"), "no crews"),
            (FULL, b"R,C,1,9,2\n", bad(1, 4, "K"), "nine crews"),
            (FULL, b"R,D,1,1,0\n", bad(1, 5, "K"), "no book entries"),
            (FULL, b"R,D,1,1,257\n", bad(1, 5, "K"), "257 book entries"),
            (FULL, b"R,D," + NINES + b",1,2\n", bad(1, 3, "K"), "19 nines: a number, out of range"),
            (FULL, b"R,D,9223372036854775809,1,2\n", bad(1, 3, "K"), "2^63 + 1 is a number of 19 digits, out of range"),
            (FULL, b"R,D,4294967297,1,2\n" + STEP + b"V,0\n", bad(1, 3, "K"), "2^32 + 1 is not 1"),
            (FULL, b"R,D,1,257,2\n" + STEP + b"V,0\n", bad(1, 4, "K"), "257 crews are not 1"),
        ],
    ),
    (
        "Head, order of tests",
        "L, then F, then field by field N before K.",
        [
            (FULL, b"RR,E\n", bad(1, 1, "L"), "L before F and N"),
            (FULL, b"R,E,1,1\n", bad(1, 1, "F"), "F before the kind's N: only the chooser line skips F"),
            (FULL, b"R,D,x,0\n", bad(1, 1, "F"), "F before N and K"),
            (FULL, b"R,E,x,0,2\n", bad(1, 2, "N"), "field 2 before fields 3 and 4"),
            (FULL, b"R,D,x,0,2\n", bad(1, 3, "N"), "N at field 3 before K at field 4"),
            (FULL, b"R,D,0,x,2\n", bad(1, 3, "K"), "K at field 3 before N at field 4: fields from left to right"),
            (FULL, b"R,D,1,9,x\n", bad(1, 4, "K"), "K at field 4 before N at field 5"),
            (FULL, b"R,D,65,9,257\n", bad(1, 3, "K"), "three sizes out of range: the leftmost is told"),
            (FULL, b"R,D," + b"9" * 20 + b",1,2\n", bad(1, 3, "N"), "20 nines: N before K within a field"),
            (FULL, b"R,D,0,1,2\nP,Q\nx\n", bad(1, 3, "K"), "three bad lines: nothing follows the first"),
        ],
    ),
    (
        "Chooser, cause L",
        "The first field of line 2 must be the one byte `P`.",
        [
            (FULL, HEAD[:-1], bad(2, 1, "L"), "the head alone, no line feed: line 2 is missing"),
            (FULL, HEAD, bad(2, 1, "L"), "the head alone with its line feed: line 2 is still missing"),
            (FULL, HEAD + b"\n" + STEP + b"V,0\n", bad(2, 1, "L"), "empty line 2"),
            (FULL, HEAD + b"\r\n", bad(2, 1, "L"), "a lone carriage return"),
            (FULL, HEAD + HEAD + STEP + b"V,0\n", bad(2, 1, "L"), "the head twice"),
            (FULL, HEAD + b"V,0\n", bad(2, 1, "L"), "a cell line with no chooser before it"),
            (FULL, HEAD + b"PP,S,1\n", bad(2, 1, "L"), "first field of two bytes"),
            (FULL, HEAD + b"p,S,1\n", bad(2, 1, "L"), "small letter"),
            (FULL, HEAD + b"O,1\n", bad(2, 1, "L"), "a call line"),
        ],
    ),
    (
        "Chooser, cause F",
        "`S` takes three fields, `X` 3 to 258; a bare `P` is F.",
        [
            (FULL, HEAD + b"P\n", bad(2, 1, "F"), "a bare `P`"),
            (FULL, HEAD + b"P,S\n", bad(2, 1, "F"), "no stride"),
            (FULL, HEAD + b"P,S,1,2\n", bad(2, 1, "F"), "two strides"),
            (FULL, HEAD + b"P,S,1,\n", bad(2, 1, "F"), "a comma after the stride"),
            (FULL, HEAD + b"P,X\n", bad(2, 1, "F"), "a script without a list"),
            (FULL, HEAD + script(257) + b"V,4\n", bad(2, 1, "F"), "257 numbers, 259 fields: one too many"),
        ],
    ),
    (
        "Chooser, cause N",
        "Field 2 must be `S` or `X`, tested without F; the rest are numbers.",
        [
            (FULL, HEAD + b"P,", bad(2, 2, "N"), "empty letter; two fields, F is skipped"),
            (FULL, HEAD + b"P,Q\n", bad(2, 2, "N"), "letter not named, two fields, F is skipped"),
            (FULL, HEAD + b"P,Q,1,2\n", bad(2, 2, "N"), "letter not named, four fields, F is skipped"),
            (FULL, HEAD + b"P,SS,1\n", bad(2, 2, "N"), "letter of two bytes"),
            (FULL, HEAD + b"P,x,1\n", bad(2, 2, "N"), "small letter"),
            (FULL, HEAD + b"P,S\r\n", bad(2, 2, "N"), "`S` with a carriage return is not `S`: N, not F"),
            (FULL, HEAD + b"P,S,\n", bad(2, 3, "N"), "empty stride"),
            (FULL, HEAD + b"P,S,-1\n", bad(2, 3, "N"), "a sign in the stride"),
            (FULL, HEAD + b"P,S,1\r\nV,0\n", bad(2, 3, "N"), "a carriage return in the stride"),
            (FULL, HEAD + b"P,S," + LONG + b"\n", bad(2, 3, "N"), "20 digits in the stride"),
            (FULL, HEAD + b"P,X,\n", bad(2, 3, "N"), "a list of one empty field"),
            (FULL, HEAD + b"P,X,x\n", bad(2, 3, "N"), "a letter for the first number"),
            (FULL, HEAD + b"P,X,1,\n", bad(2, 4, "N"), "a comma at the end opens an empty field 4"),
            (FULL, HEAD + b"P,X,1,,3\n", bad(2, 4, "N"), "two commas: field 4 is empty"),
            (FULL, HEAD + b"P,X,1,2,-3\n", bad(2, 5, "N"), "a sign in the third number"),
            (FULL, HEAD + b"P,X,1," + LONG + b"\n", bad(2, 4, "N"), "20 digits in a script number"),
            (FULL, HEAD + b"P,X,1,y,3,z\n", bad(2, 4, "N"), "two bad numbers: the leftmost is told"),
            (FULL, LAST_NUMBER_BAD, bad(2, 258, "N"), "the 256th number is bad: field 258"),
        ],
    ),
    (
        "Chooser, cause K",
        "The stride's range is 1 to 1,000,000; script numbers have none.",
        [
            (FULL, HEAD + b"P,S,0\n", bad(2, 3, "K"), "stride 0"),
            (FULL, HEAD + b"P,S,1000001\n", bad(2, 3, "K"), "stride 1,000,001"),
            (FULL, HEAD + b"P,S," + NINES + b"\n", bad(2, 3, "K"), "stride of 19 nines"),
            (FULL, HEAD + b"P,S,18446744073709551\n", bad(2, 3, "K"), "stride of 17 digits"),
        ],
    ),
    (
        "Chooser, order of tests",
        "As for the head, except that an unknown letter skips F.",
        [
            (FULL, HEAD + b"PP,Q\n", bad(2, 1, "L"), "L before N at field 2"),
            (FULL, HEAD + b"P,S,x,0\n", bad(2, 1, "F"), "F before N"),
            (FULL, HEAD + b"P,S,0,0\n", bad(2, 1, "F"), "F before K"),
            (FULL, HEAD + script(257, b"x"), bad(2, 1, "F"), "257 fields that are no numbers: F before N"),
            (FULL, HEAD + b"P,Q,x\n", bad(2, 2, "N"), "field 2 before field 3"),
            (FULL, HEAD + b"P,S," + b"9" * 20 + b"\n", bad(2, 3, "N"), "N before K within the stride"),
            (FULL, HEAD + b"P,S,0\nx\n", bad(2, 3, "K"), "two bad lines: nothing follows the first"),
        ],
    ),
    (
        "Cells, cause L",
        "As many lines as cells, each with the one byte `V` in its first field.",
        [
            (FULL, DIAL, bad(3, 1, "L"), "the first cell is missing"),
            (FULL, b"R,D,2,1,2\nP,S,1\nV,0", bad(4, 1, "L"), "the second of two cells is missing, no final line feed"),
            (FULL, b"R,C,3,1,2\nP,S,1\nV,1,0,1\nV,2,0,1\n", bad(5, 1, "L"), "the third of three cards is missing"),
            (FULL, DIAL + b"\n", bad(3, 1, "L"), "an empty line in the place of the cell"),
            (FULL, b"R,D,2,1,2\nP,S,1\nV,0\n\nV,0\n", bad(4, 1, "L"), "an empty line between two cells"),
            (FULL, DIAL + b"\r\n", bad(3, 1, "L"), "a lone carriage return"),
            (FULL, DIAL + b"O,1\n", bad(3, 1, "L"), "a call among the cells"),
            (FULL, b"R,D,2,1,2\nP,S,1\nV,0\nR,1,1\n", bad(4, 1, "L"), "a read before the last cell"),
            (FULL, DIAL + STEP + b"V,0\n", bad(3, 1, "L"), "a second chooser line"),
            (FULL, DIAL + b"VV,0\n", bad(3, 1, "L"), "first field of two bytes"),
            (FULL, DIAL + b"v,0\n", bad(3, 1, "L"), "small letter"),
        ],
    ),
    (
        "Cells, cause F",
        "A dial's line has two fields, a card's four.",
        [
            (FULL, DIAL + b"V\n", bad(3, 1, "F"), "a dial without its field"),
            (FULL, DIAL + b"V,0,0\n", bad(3, 1, "F"), "a dial with two fields"),
            (FULL, DIAL + b"V,0,\n", bad(3, 1, "F"), "a dial with a comma at the end"),
            (FULL, DIAL + b"V,1,0,1\n", bad(3, 1, "F"), "a card in a register of dials"),
            (FULL, DIAL + b"V,1\x0bV,2\n", bad(3, 1, "F"), "a vertical tab ends no line: three fields"),
            (FULL, SLOT + b"V\n", bad(3, 1, "F"), "a card without fields"),
            (FULL, SLOT + b"V,5\n", bad(3, 1, "F"), "a dial in a register of cards"),
            (FULL, SLOT + b"V,1,0\n", bad(3, 1, "F"), "a card with two fields"),
            (FULL, SLOT + b"V,1,0,1,1\n", bad(3, 1, "F"), "a card with four fields"),
        ],
    ),
    (
        "Cells, cause N",
        "Every field after the `V` is a number.",
        [
            (FULL, DIAL + b"V,\n", bad(3, 2, "N"), "empty dial: two fields, so not F"),
            (FULL, DIAL + b"V,x\n", bad(3, 2, "N"), "a letter"),
            (FULL, DIAL + b"V,-1\n", bad(3, 2, "N"), "a sign"),
            (FULL, DIAL + b"V,1.5\n", bad(3, 2, "N"), "a point"),
            (FULL, DIAL + b"V,1 000\n", bad(3, 2, "N"), "a space within the digits"),
            (FULL, DIAL + b"V,0\r\n", bad(3, 2, "N"), "a carriage return at the line's end"),
            (FULL, DIAL + b"V,1\x002\n", bad(3, 2, "N"), "a byte 0 within the digits"),
            (FULL, DIAL + b"V,\xd9\xa3\n", bad(3, 2, "N"), "a digit that is not ASCII"),
            (FULL, DIAL + b"V,/:\n", bad(3, 2, "N"), "the bytes just below `0` and just above `9`"),
            (FULL, DIAL + b"V,1\x0b2\n", bad(3, 2, "N"), "a vertical tab within the digits"),
            (FULL, DIAL + b"V," + LONG + b"\n", bad(3, 2, "N"), "20 digits, though the value would be 1"),
            (FULL, b"R,D,2,1,2\nP,S,1\nV,0\nV,y\n", bad(4, 2, "N"), "in the second of two dials: no `V` line is printed"),
            (FULL, SLOT + b"V,,0,1\n", bad(3, 2, "N"), "empty serial"),
            (FULL, SLOT + b"V,1,,1\n", bad(3, 3, "N"), "empty reading"),
            (FULL, SLOT + b"V,1,0,\n", bad(3, 4, "N"), "empty gateway"),
            (FULL, SLOT + b"V," + LONG + b",0,1\n", bad(3, 2, "N"), "20 digits in the serial"),
            (FULL, SLOT + b"V,1," + LONG + b",1\n", bad(3, 3, "N"), "20 digits in the reading"),
            (FULL, SLOT + b"V,1,0," + LONG + b"\n", bad(3, 4, "N"), "20 digits in the gateway"),
            (FULL, SLOT + b"V,1,61 920,1\n", bad(3, 3, "N"), "a space within the reading"),
            (FULL, SLOT + b"V,1,0,1\r\n", bad(3, 4, "N"), "a carriage return in the gateway"),
        ],
    ),
    (
        "Cells, cause K",
        "Dial 0 to 999,999,999; serial 1 to 99,999,999, reading 0 to 999,999,999, gateway 1 to 65,535.",
        [
            (FULL, DIAL + b"V,1000000000\n", bad(3, 2, "K"), "a dial one over its largest"),
            (FULL, DIAL + b"V," + NINES, bad(3, 2, "K"), "a dial of 19 nines"),
            (FULL, DIAL + b"V,4294967296\n", bad(3, 2, "K"), "2^32 is not 0"),
            (FULL, LAST_OF_MANY_BAD, bad(66, 2, "K"), "the 64th dial out of range: line 66"),
            (FULL, SLOT + b"V,0,0,1\n", bad(3, 2, "K"), "serial 0"),
            (FULL, SLOT + b"V,100000000,0,1\n", bad(3, 2, "K"), "serial one over its largest"),
            (FULL, SLOT + b"V,1,1000000000,1\n", bad(3, 3, "K"), "reading one over its largest"),
            (FULL, SLOT + b"V,1,0,0\n", bad(3, 4, "K"), "gateway 0"),
            (FULL, SLOT + b"V,1,0,65536\n", bad(3, 4, "K"), "gateway one over its largest"),
            (FULL, SLOT + b"V,1,0,65537\n", bad(3, 4, "K"), "gateway 2^16 + 1 is not 1"),
            (FULL, b"R,C,2,1,2\nP,S,1\nV,1,0,1\nV,1,0,0\n", bad(4, 4, "K"), "in the second of two cards: no `V` line is printed"),
        ],
    ),
    (
        "Cells, order of tests",
        "L, then F, then field by field N before K.",
        [
            (FULL, SLOT + b"VV,x\n", bad(3, 1, "L"), "L before F and N"),
            (FULL, SLOT + b"V,x,0\n", bad(3, 1, "F"), "F before N"),
            (FULL, DIAL + b"V,1000000000,0\n", bad(3, 1, "F"), "F before K"),
            (FULL, DIAL + b"V," + b"9" * 20 + b"\n", bad(3, 2, "N"), "20 nines: N before K within a field"),
            (FULL, SLOT + b"V,x,1000000000,0\n", bad(3, 2, "N"), "N at field 2 before K at fields 3 and 4"),
            (FULL, SLOT + b"V,0,x,1\n", bad(3, 2, "K"), "K at field 2 before N at field 3"),
            (FULL, SLOT + b"V,1,x,0\n", bad(3, 3, "N"), "N at field 3 before K at field 4"),
            (FULL, SLOT + b"V,1,1000000000,x\n", bad(3, 3, "K"), "K at field 3 before N at field 4"),
            (FULL, DIAL + b"V,x\nO,1\n", bad(3, 2, "N"), "a bad cell before a bad call: nothing follows the first"),
        ],
    ),
    (
        "Calls: every line is a wrong first letter",
        "No call is built, so no first letter is allowed after the last cell.",
        [
            (FULL, GOOD + b"O,1\n", bad(4, 1, "L"), "a well formed open; no `V` line is printed"),
            (FULL, GOOD + b"R,1,1\n", bad(4, 1, "L"), "a well formed read"),
            (FULL, GOOD + b"W,1,1,5\n", bad(4, 1, "L"), "a well formed write"),
            (FULL, GOOD + b"C,1\n", bad(4, 1, "L"), "a well formed commit"),
            (FULL, GOOD + b"A,1", bad(4, 1, "L"), "a well formed abandon, no final line feed"),
            (FULL, GOOD + b"V,0\n", bad(4, 1, "L"), "one cell too many"),
            (FULL, SLOT + b"V,1,0,1\nV,2,0,1\n", bad(4, 1, "L"), "one card too many"),
            (FULL, GOOD + b"P,S,1\n", bad(4, 1, "L"), "a chooser line"),
            (FULL, GOOD + b"R,D,1,1,2\n", bad(4, 1, "L"), "a second head"),
            (FULL, GOOD + b"\n", bad(4, 1, "L"), "two line feeds at the end make an empty line"),
            (FULL, GOOD + b"\r", bad(4, 1, "L"), "a lone carriage return, no line feed"),
            (FULL, GOOD + b"x\n", bad(4, 1, "L"), "a letter no stage knows"),
            (FULL, GOOD + b"O,1\nO,1\nC,1\n", bad(4, 1, "L"), "three calls: nothing follows the first"),
            (FULL, MANY_ZEROS + b"O,1\n", bad(67, 1, "L"), "after 64 cells the first call stands on line 67"),
        ],
    ),
    (
        "Paper under 64 bytes: the answer is 12, no byte is written",
        "Tested before anything else.",
        [
            (0, GOOD, b"=12\n", "no paper at all"),
            (1, GOOD, b"=12\n", "one byte"),
            (63, GOOD, b"=12\n", "one byte under the reserve, good schedule"),
            (63, b"", b"=12\n", "one byte under the reserve, bad schedule: tested first"),
        ],
    ),
    (
        "Paper full at the edge of a `V` line",
        "A line is written if bytes used + its length + 64 is not over the paper.",
        [
            (64, GOOD, b"12\n", "64 bytes: the reserve alone, 0 + 4 + 64 = 68 is over 64"),
            (66, GOOD, b"12\n", "68 is over 66"),
            (67, GOOD, b"12\n", "68 is over 67: one byte short"),
            (68, GOOD, b"V,0\n", "68 just fits"),
            (69, GOOD, b"V,0\n", "one byte to spare"),
            (67, THREE, b"12\n", "lines of 4, 8 and 4 bytes: the first needs 68"),
            (68, THREE, b"V,7\n12\n", "the first fits, 4 + 8 + 64 = 76 is over 68"),
            (75, THREE, b"V,7\n12\n", "76 is over 75; the third line would need only 72 but nothing follows `12`"),
            (76, THREE, b"V,7\nV,12345\n12\n", "the second just fits, 12 + 4 + 64 = 80 is over 76"),
            (79, THREE, b"V,7\nV,12345\n12\n", "80 is over 79: one byte short at the last line"),
            (80, THREE, b"V,7\nV,12345\nV,0\n", "80 just fits"),
            (81, THREE, b"V,7\nV,12345\nV,0\n", "one byte to spare"),
            (90, SLOT + b"V,99999999,999999999,65535\n", b"12\n", "the longest card line has 27 bytes: 91 is over 90"),
            (91, SLOT + b"V,99999999,999999999,65535\n", b"V,99999999,999999999,65535\n", "91 just fits"),
            (68, DIAL + b"V,0000000000000000007\n", b"V,7\n", "the printed line counts, 4 bytes, not the line read"),
            (200, MANY_ZEROS, b"V,0\n" * 34 + b"12\n", "34 lines of 4 bytes use 136 and fit, 136 + 64 = 200; the 35th needs 204"),
            (319, MANY_ZEROS, b"V,0\n" * 63 + b"12\n", "the 64th needs 252 + 4 + 64 = 320: one byte short"),
            (320, MANY_ZEROS, b"V,0\n" * 64, "320 just fits"),
        ],
    ),
    (
        "Paper full at the edge of an `11` line",
        "The same rule; the `11` line is the only line.",
        [
            (64, b"", b"12\n", "`11,1,1,L` has 9 bytes: 73 is over 64"),
            (66, b"", b"12\n", "73 is over 66"),
            (67, b"", b"12\n", "73 is over 67"),
            (72, b"", b"12\n", "73 is over 72: one byte short"),
            (73, b"", bad(1, 1, "L"), "73 just fits"),
            (74, b"", bad(1, 1, "L"), "one byte to spare"),
            (73, LAST_OF_MANY_BAD, b"12\n", "`11,66,2,K` has 10 bytes: 74 is over 73"),
            (74, LAST_OF_MANY_BAD, bad(66, 2, "K"), "74 just fits: the cells read before the bad line use no paper"),
            (74, LAST_NUMBER_BAD, b"12\n", "`11,2,258,N` has 11 bytes: 75 is over 74"),
            (75, LAST_NUMBER_BAD, bad(2, 258, "N"), "75 just fits"),
        ],
    ),
    (
        "Schedules at 65,536 bytes and over",
        "Tested after the paper and before any line. The filler is one line of `x`.",
        [
            (FULL, filled(65536), bad(4, 1, "L"), "65,536 bytes are read: the line of `x` at the calls stage is bad"),
            (FULL, filled(65537), b"13\n", "65,537 bytes: `13` alone"),
            (67, filled(65537, b"R,D,0,1,2\n", b"\n"), b"13\n", "65,537 bytes, the last a line feed, which counts; the bad head is never read; 3 + 64 = 67 just fits"),
            (66, filled(65537), b"12\n", "`13` itself does not fit: 67 is over 66"),
            (63, filled(65537), b"=12\n", "paper under 64: tested before the schedule's size"),
        ],
    ),
]

INTRO = """\
# The cases

`stdin` of the cases folder holds {count} cases, `stdout` the expected output.

**Case file.** A case begins with a line `#paper`, the paper's size in decimal.
Then come the schedule's bytes and one line feed that is not part of the
schedule. The file is split at every `#` at the start of a line; no schedule
has a line that begins with `#`. So a schedule with its own final line feed is
followed by an empty line, and an empty schedule is `#65536` and an empty line.

**Expected output.** For each case a line `#k,paper`, k counting from 1, then
the account's bytes. Where the paper is under 64 bytes the answer is the line
`=12` and no account.

**Where the answers come from.** `make_cases.py` holds every case with an
answer worked out by hand from [FORMAT.md](../docs/FORMAT.md). `account.py`
works out the same answers from the schedule's bytes. The two agree on all
{count} cases; where they did not, `make_cases.py` would write nothing. The
answers of the cases marked * are lines repeated or counted out by a formula
({formula}); all others were written out in full by hand.

After a change: `python3 tests/make_cases.py crates/schedule_cases`. More cases, not kept:
`tests/compare.sh SEED COUNT` compares random ones with the program.

Below, by group: the rule, then for each case its number, the bad line if there
is one, what it shows, its answer. In a bad line `\\r` is a carriage return and
`\\x` with two digits another byte. The paper has 65,536 bytes unless the line
begins with another size.
"""


def by_formula(answer):
    return answer.count(b"\n") > 10


def shown(answer):
    lines = answer.decode().splitlines()
    if len(lines) > 4:
        return "`%s` … `%s` (%d lines)" % (lines[0], lines[-1], len(lines))
    return " ".join("`%s`" % line for line in lines)


def bad_line(schedule, answer):
    """The line that an 11 line names, where it is there, not empty and short."""
    if not answer.startswith(b"11,"):
        return ""
    at = int(answer.split(b",")[1]) - 1
    lines = account.split_lines(schedule)
    if at >= len(lines) or not 1 <= len(lines[at]) <= 40:
        return ""
    return "`%s`: " % repr(lines[at])[2:-1]


def main(folder, with_notes):
    cases, hand, notes, marked = [], [], [], []
    for title, rule, group in GROUPS:
        notes.append("\n## %s\n\n%s\n" % (title, rule))
        for paper, schedule, answer, note in group:
            cases.append((paper, schedule))
            hand.append(b"#%d,%d\n%s" % (len(cases), paper, answer))
            star = ""
            if by_formula(answer):
                star = "*"
                marked.append(str(len(cases)))
            size = "" if paper == FULL else "Paper %d: " % paper
            text = "%s%s%s" % (size, bad_line(schedule, answer), note)
            notes.append("- %d%s: %s → %s" % (len(cases), star, text, shown(answer)))

    wrong = 0
    for at, case in enumerate(cases, start=1):
        worked = account.expected([case]).replace(b"#1,", b"#%d," % at, 1)
        if worked != hand[at - 1]:
            wrong += 1
            print("case %d: by hand %r, by account.py %r" % (at, hand[at - 1], worked), file=sys.stderr)
    if wrong:
        sys.exit("%d cases differ; nothing is written" % wrong)

    text = account.join_cases(cases)
    if account.split_cases(text) != cases:
        sys.exit("the case file does not read back; nothing is written")
    with open(os.path.join(folder, "stdin"), "wb") as file:
        file.write(text)
    with open(os.path.join(folder, "stdout"), "wb") as file:
        file.write(account.expected(cases))
    if with_notes:
        here = os.path.dirname(os.path.abspath(__file__))
        with open(os.path.join(here, "CASES.md"), "w", encoding="utf-8") as file:
            file.write(INTRO.format(count=len(cases), formula=", ".join(marked)))
            file.write("\n".join(notes) + "\n")
    print("%d cases, all agree" % len(cases))


if __name__ == "__main__":
    if len(sys.argv) == 2 and sys.argv[1] != "--check":
        main(sys.argv[1], True)
    elif len(sys.argv) == 3 and sys.argv[1] == "--check":
        main(sys.argv[2], False)
    else:
        sys.exit(__doc__)
