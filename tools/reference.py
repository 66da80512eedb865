#!/usr/bin/env python3
"""A second `wordeq`: tables on standard input, the listing or the refusal on standard output, status 0 or 1.

Written from docs/ alone (TEXT, SYSTEMS, CHOICES, GUARANTEE, WITNESS), for the expected values of tests and examples.
It is outside what is proved: nothing of Pinfolwad rests on it. It takes no arguments and says nothing on standard error.
"""

import re
import sys

MOST_BYTES = 32_768
UNLISTED = (0, 1_000_000)
CAP = 1_000_000
FIRST_MADE = 26

NAMES = [b"left right", b"variable least most", b"do name with"]
NUMBER = re.compile(rb"0|[1-9][0-9]{0,6}")


class Refused(Exception):
    """A number, and a detail where the number has one; the line is added by whoever reads it."""

    def __init__(self, number, detail="-"):
        super().__init__(number)
        self.number = number
        self.detail = detail


# Places: letters are their numbers, the variable v is -1 - v.


def place_of(byte):
    if ord("a") <= byte <= ord("z"):
        return byte - ord("a")
    if ord("A") <= byte <= ord("Z"):
        return -1 - (byte - ord("A"))
    raise Refused(1)


def place_of_variable(variable):
    return -1 - variable


def variable_name(variable):
    return chr(ord("A") + variable)


def letter_name(letter):
    return chr(ord("a") + letter) if letter < FIRST_MADE else f"#{letter}"


class Check:
    """What stands: equations, rules and pops."""

    def __init__(self):
        self.equations = []
        self.of_system = set()
        self.rules = []
        self.lengths = [1] * FIRST_MADE
        self.left = {v: [] for v in range(26)}
        self.right = {v: [] for v in range(26)}

    def places(self):
        return sum(len(side) for equation in self.equations for side in equation)

    def count(self, place):
        return sum(side.count(place) for equation in self.equations for side in equation)

    def change(self, effect):
        self.equations = [tuple(effect(side) for side in equation) for equation in self.equations]

    def load(self, left, right):
        equation = tuple([place_of(byte) for byte in side] for side in (left, right))
        if len(self.equations) == 32:
            raise Refused(2)
        if self.places() + sum(len(side) for side in equation) > 1_024:
            raise Refused(3)
        self.equations.append(equation)
        self.of_system |= {-1 - place for side in equation for place in side if place < 0}

    def must_be_live(self, variable):
        if self.count(place_of_variable(variable)) == 0:
            raise Refused(11, variable_name(variable))

    def must_be_known(self, *letters):
        if any(letter >= len(self.lengths) for letter in letters):
            raise Refused(12)

    def erase(self, variable):
        self.must_be_live(variable)
        gone = place_of_variable(variable)
        self.change(lambda side: [place for place in side if place != gone])

    def pop(self, variable, letter, row, noted):
        self.must_be_live(variable)
        self.must_be_known(letter)
        if sum(len(pops) for all_pops in (self.left, self.right) for pops in all_pops.values()) == 1_024:
            raise Refused(23)
        there = place_of_variable(variable)
        if self.places() + self.count(there) > 2_048:
            raise Refused(21)
        self.change(lambda side: [new for place in side for new in (row if place == there else [place])])
        noted[variable].append(letter)

    def pop_left(self, variable, letter):
        self.pop(variable, letter, [letter, place_of_variable(variable)], self.left)

    def pop_right(self, variable, letter):
        self.pop(variable, letter, [place_of_variable(variable), letter], self.right)

    def make(self, rule, length, effect):
        if len(self.rules) == 512:
            raise Refused(22)
        if length > 1_000_000_000_000:
            raise Refused(24)
        made = len(self.lengths)
        self.rules.append(rule)
        self.lengths.append(length)
        self.change(lambda side: effect(side, made))

    def pair(self, a, b):
        self.must_be_known(a, b)
        if a == b:
            raise Refused(13)

        def effect(side, made):
            new, i = [], 0
            while i < len(side):
                both = side[i : i + 2] == [a, b]
                new.append(made if both else side[i])
                i += 2 if both else 1
            return new

        self.make(("pair", a, b), self.lengths[a] + self.lengths[b], effect)

    def block(self, a, n):
        self.must_be_known(a)
        if not 2 <= n <= 1_000_000:
            raise Refused(14)

        def effect(side, made):
            new, i = [], 0
            while i < len(side):
                end = i
                while end < len(side) and side[end] == a:
                    end += 1
                if end == i:
                    new.append(side[i])
                    i += 1
                else:
                    new += [made] if end - i == n else side[i:end]
                    i = end
            return new

        self.make(("block", a, n), self.lengths[a] * n, effect)

    def word(self, variable):
        return self.left[variable] + self.right[variable][::-1]

    def length(self, variable):
        return sum(self.lengths[letter] for letter in self.word(variable))

    def close(self, limits):
        for variable in range(26):
            if self.count(place_of_variable(variable)) > 0:
                raise Refused(31, variable_name(variable))
        for number, (left, right) in enumerate(self.equations, 1):
            if left != right:
                raise Refused(32, str(number))
        for variable in sorted(self.of_system):
            least, most = limits.get(variable, UNLISTED)
            if not least <= min(self.length(variable), CAP) <= most:
                raise Refused(33, variable_name(variable))

    def listing(self):
        yield "letter make first second"
        for made, (make, first, second) in enumerate(self.rules, FIRST_MADE):
            last = letter_name(second) if make == "pair" else str(second)
            yield f"{letter_name(made)} {make} {letter_name(first)} {last}"
        yield ""
        yield "variable length word"
        for variable in sorted(self.of_system):
            word = ",".join(letter_name(letter) for letter in self.word(variable))
            yield f"{variable_name(variable)} {self.length(variable)} {word or '-'}"


# Fields


def read_side(field):
    if field == b"":
        raise Refused(43)
    return b"" if field == b"-" else field


def read_variable(field):
    if len(field) != 1 or not b"A" <= field <= b"Z":
        raise Refused(43)
    return field[0] - ord("A")


def read_number(field):
    if not NUMBER.fullmatch(field):
        raise Refused(43)
    return int(field)


def read_letter(field):
    if len(field) == 1 and b"a" <= field <= b"z":
        return field[0] - ord("a")
    if not field.startswith(b"#"):
        raise Refused(43)
    number = read_number(field[1:])
    if not FIRST_MADE <= number <= 537:
        raise Refused(43)
    return number


def read_unused(field):
    if field != b"-":
        raise Refused(43)


# Lines of values, one function for each table


def equation_line(check, limits, fields):
    left, right = [read_side(field) for field in fields]
    check.load(left, right)


def limits_line(check, limits, fields):
    variable = read_variable(fields[0])
    least, most = [read_number(field) for field in fields[1:]]
    if variable in limits:
        raise Refused(43)
    if least > most or most > 1_000_000:
        raise Refused(82)
    limits[variable] = (least, most)


def choice_line(check, limits, fields):
    do, name, what = fields
    if do == b"left":
        check.pop_left(read_variable(name), read_letter(what))
    elif do == b"right":
        check.pop_right(read_variable(name), read_letter(what))
    elif do == b"erase":
        read_unused(what)
        check.erase(read_variable(name))
    elif do == b"pair":
        check.pair(read_letter(name), read_letter(what))
    elif do == b"block":
        check.block(read_letter(name), read_number(what))
    else:
        raise Refused(43)


TABLES = [(2, equation_line), (3, limits_line), (3, choice_line)]


def lines_of(text):
    lines = text.split(b"\n")
    return lines if lines[-1] else lines[:-1]


class Reading:
    """Reads line by line; `number` is the line that is looked at, from 1."""

    def __init__(self, text):
        self.lines = lines_of(text)
        self.number = 0

    def at_end(self):
        return self.number >= len(self.lines)

    def next_line(self):
        self.number += 1
        return self.lines[self.number - 1] if self.number <= len(self.lines) else None

    def names(self, wanted):
        if self.next_line() != wanted:
            raise Refused(41)

    def values(self, check, limits, table):
        wanted, judge = TABLES[table]
        while not self.at_end():
            line = self.next_line()
            if line == b"" and table < 2:
                return
            fields = line.split(b" ")
            if len(fields) != wanted:
                raise Refused(42)
            judge(check, limits, fields)


def printed(text):
    """The exit status and the text that is printed."""
    check, limits, reading = Check(), {}, Reading(text)
    at_a_line = False
    try:
        if len(text) > MOST_BYTES:
            raise Refused(44)
        at_a_line = True
        for table, names in enumerate(NAMES):
            reading.names(names)
            reading.values(check, limits, table)
        at_a_line = False
        check.close(limits)
        status, rows = 0, check.listing()
    except Refused as why:
        line = reading.number if at_a_line else 0
        status, rows = 1, ["refusal line detail", f"{why.number} {line} {why.detail}"]
    return status, "".join(row + "\n" for row in rows).encode()


def main():
    status, text = printed(sys.stdin.buffer.read(MOST_BYTES + 1))
    sys.stdout.buffer.write(text)
    sys.exit(status)


if __name__ == "__main__":
    main()
