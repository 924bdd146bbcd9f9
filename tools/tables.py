"""Reads the tables that `tdf run` writes: a head `%time label ..`, and rows of a time and a cell for each label, `*` where it is unknown."""
import sys
from fractions import Fraction


class BadTable(Exception):
    """What is wrong with a table, and where."""


class Table:
    """The labels, the times of the rows, and of each label its cells: fractions, or None where a cell is unknown."""

    def __init__(self, name, labels, times, columns):
        self.name, self.labels, self.times, self.columns = name, labels, times, columns

    def column(self, label):
        if label not in self.labels:
            raise BadTable(f"{self.name}: there is no column {label}; there are {' '.join(self.labels)}")
        return self.columns[self.labels.index(label)]


class Numbers(dict):
    """The numbers of the words read so far: the same words come again and again."""

    def __missing__(self, word):
        value = None if word == "*" else number_of(word)
        self[word] = value
        return value


def number_of(word):
    """The number of a word. Most are digits with a point, which this reads faster than Fraction does."""
    whole, _, places = word.partition(".")
    if whole.isdecimal() and (places.isdecimal() or not places) and word.isascii() and not word.endswith("."):
        return Fraction(int(whole + places), 10 ** len(places))
    return Fraction(word)


def lines_of(path):
    """The lines of a file, or of standard input where it is `-`, and the name for messages."""
    name = "standard input" if path == "-" else path
    try:
        if path == "-":
            return name, sys.stdin.read().splitlines()
        with open(path, encoding="utf-8") as it:
            return name, it.read().splitlines()
    except OSError as fault:
        raise BadTable(f"{name}: {fault.strerror}") from None
    except UnicodeDecodeError:
        raise BadTable(f"{name}: not a text file") from None


def read_table(path):
    """The table in a file; a BadTable says what is wrong with it."""
    name, lines = lines_of(path)
    head = lines[0].split() if lines else []
    if head[:1] != ["%time"]:
        raise BadTable(f"{name} line 1: not the head of a table: `%time` and labels")
    labels = head[1:]
    if len(set(labels)) < len(labels):
        raise BadTable(f"{name} line 1: two columns have the same label")
    times, rows, numbers = [], [], Numbers()
    for number, line in enumerate(lines[1:], 2):
        words = line.split()
        if len(words) != len(head):
            raise BadTable(f"{name} line {number}: {len(words)} cells, where the head has {len(head)}")
        try:
            cells = [numbers[it] for it in words]
        except (ValueError, ZeroDivisionError):
            raise BadTable(f"{name} line {number}: a cell is not a number or `*`") from None
        if cells[0] is None or (times and cells[0] <= times[-1]):
            raise BadTable(f"{name} line {number}: its time is not later than the one before")
        times.append(cells[0])
        rows.append(cells[1:])
    columns = [list(it) for it in zip(*rows)] if rows else [[] for _ in labels]
    return Table(name, labels, times, columns)


def decimal(value):
    """A fraction as a decimal number, with all its digits where they end and 12 where they don't."""
    if value is None:
        return "*"
    rest, places = value.denominator, 0
    while rest % 10 == 0:
        rest //= 10
        places += 1
    twos = fives = 0
    while rest % 2 == 0:
        rest //= 2
        twos += 1
    while rest % 5 == 0:
        rest //= 5
        fives += 1
    if rest != 1 or places + max(twos, fives) > 64:
        return f"{float(value):.12g}"
    places += max(twos, fives)
    digits = str(abs(value.numerator) * 10**places // value.denominator).zfill(places + 1)
    text = digits[: len(digits) - places] + ("." + digits[len(digits) - places :] if places else "")
    return ("-" if value < 0 else "") + (text.rstrip("0").rstrip(".") if "." in text else text)
