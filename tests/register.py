#!/usr/bin/env python3
"""The register, worked out from docs/RULES.md alone.

It shares nothing with the program, so that the two can be compared. A new
entry of the day book goes after those of equal place; the rules leave that
spot open, so a comparison has to sort equal places first.
"""

TOP = 2**62


class Refused(Exception):
    """A refused call: its number, and the place where it names one."""

    def __init__(self, number, place=None):
        super().__init__(number, place)
        self.number = number
        self.place = place


class Stride:
    def __init__(self, step):
        self.step = step

    def choose(self, low, high):
        if high - low < 2:
            return low
        if low + self.step < high:
            return low + self.step
        return low + (high - low) // 2


class Script:
    def __init__(self, numbers):
        self.numbers = list(numbers)

    def choose(self, low, high):
        if high - low < 2:
            return low
        if not self.numbers:
            return low + 1
        number = self.numbers.pop(0)
        return number if low < number < high else low + 1


class Job:
    def __init__(self, number, low):
        self.number = number
        self.low = low
        self.high = TOP
        self.read = set()
        self.written = {}


class Register:
    """A started register; cells and crews are numbered from 1."""

    def __init__(self, values, crews, entries, chooser):
        self.values = dict(enumerate(values, start=1))
        self.crews = crews
        self.entries = entries
        self.chooser = chooser
        self.written_place = dict.fromkeys(self.values, 0)
        self.read_place = dict.fromkeys(self.values, 0)
        self.jobs = {}
        self.highest = 0
        self.book = []  # (job, crew, place, "C" or "A"), in ascending place

    def crew(self, crew):
        if not 1 <= crew <= self.crews:
            raise Refused(1)

    def job(self, crew, cell=None):
        self.crew(crew)
        if cell is not None and cell not in self.values:
            raise Refused(2)
        if crew not in self.jobs:
            raise Refused(4)
        return self.jobs[crew]

    def open(self, crew):
        self.crew(crew)
        if crew in self.jobs:
            raise Refused(3)
        if TOP - self.highest < 2:
            raise Refused(5)
        if len(self.book) + len(self.jobs) == self.entries:
            raise Refused(6)
        number = len(self.book) + len(self.jobs) + 1
        self.jobs[crew] = Job(number, self.highest)
        return number

    def read(self, crew, cell):
        job = self.job(crew, cell)
        if cell in job.written:
            return job.written[cell]
        low = max(job.low, self.written_place[cell])
        if job.high - low < 2:
            raise Refused(7, self.end(crew, job.low, "A"))
        job.low = low
        job.read.add(cell)
        return self.values[cell]

    def write(self, crew, cell, value):
        self.job(crew, cell).written[cell] = value

    def others_that_read(self, crew, cells):
        return [job for other, job in self.jobs.items() if other != crew and job.read & cells]

    def commit(self, crew):
        job = self.job(crew)
        cells = set(job.written)
        bounds = [job.low]
        bounds += [self.written_place[cell] for cell in cells]
        bounds += [self.read_place[cell] for cell in cells]
        bounds += [other.low + 1 for other in self.others_that_read(crew, cells)]
        low = max(bounds)
        if job.high - low < 2:
            raise Refused(8, self.end(crew, job.low, "A"))
        readers = self.others_that_read(crew, cells)
        place = self.end(crew, low, "C")
        for cell, value in job.written.items():
            self.values[cell] = value
            self.written_place[cell] = place
        for other in readers:
            other.high = min(other.high, place)
        return place

    def abandon(self, crew):
        return self.end(crew, self.job(crew).low, "A")

    def end(self, crew, low, mark):
        job = self.jobs.pop(crew)
        place = self.chooser.choose(low, job.high)
        for cell in job.read:
            self.read_place[cell] = max(self.read_place[cell], place)
        self.highest = max(self.highest, place)
        at = sum(1 for entry in self.book if entry[2] <= place)
        self.book.insert(at, (job.number, crew, place, mark))
        return place
