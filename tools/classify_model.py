#!/usr/bin/env python3
"""A model of the program classify: the same text in, the same text out (docs/classify.md).

It is brute force. A telegram's answer is the first rule in order whose box holds every value by
(v - s) mod 2^w < n, and never comes from digits; the digits are printed by the codes' definitions.
"""
import re
import sys

# (width, kind) of each field: port, then hops
FIELDS = ((16, "plain"), (4, "fence"))

# Unicode's White_Space, which separates words
WHITE = re.compile("[\t-\r \x85\xa0\u1680\u2000-\u200a\u2028\u2029\u202f\u205f\u3000]+")
DIGITS = re.compile(r"[0-9]+\Z")

REASONS = {
    1: "the row is not on the chip",
    2: "a setting is outside its limits",
    5: "the code has more than 8 fields or 255 digits",
    8: "the count of fields is not the code's",
    9: "a value or low end exceeds the field, or a length is 0 or above its count of values",
    10: "the code does not accept the span",
}


class Fault(Exception):
    """What is wrong with a line."""


def refused(number, place, layer):
    return "refused by %d, place %d, layer %d: %s" % (number, place, layer, REASONS[number])


# --- reading ---------------------------------------------------------------------------------------------------

def decimal(word, most):
    """The number that a word of digits writes, or None where it is no such word or too large."""
    if not DIGITS.match(word):
        return None
    value = int(word)
    return value if value <= most else None


def number(word):
    value = decimal(word, 65535)
    if value is None:
        raise Fault("'%s' is not a number from 0 to 65535" % word)
    return value


def side(word, field):
    """None for any, else (low end, length)."""
    if word == "any":
        return None
    highest = 2 ** FIELDS[field][0] - 1 if field < len(FIELDS) else 65535
    no_side = Fault("'%s' is not a side: any, V, L..H or L+N" % word)
    if ".." in word:
        low, high = (decimal(part, 65535) for part in word.split("..", 1))
        if low is None or high is None:
            raise no_side
        if low > highest or high > highest:
            raise Fault("'%s' leaves the field, whose highest value is %d" % (word, highest))
        return low, (high - low) % (highest + 1) + 1
    if "+" in word:
        low, length = word.split("+", 1)
        low, length = decimal(low, 65535), decimal(length, 2 ** 32 - 1)
    else:
        low, length = decimal(word, 65535), 1
    if low is None or length is None:
        raise no_side
    return low, length


def words_of(text):
    return [word for word in WHITE.split(text.split("#", 1)[0]) if word]


class Input:
    def __init__(self):
        self.rows, self.rules, self.telegrams, self.faults = None, [], [], []

    def take(self, line, text):
        words = words_of(text)
        if not words:
            return
        kind, rest = words[0], words[1:]
        if kind == "rows":
            count = decimal(rest[0], 256) if len(rest) == 1 else None
            if not count:
                raise Fault("rows is 1 to 256")
            if self.rows is not None:
                raise Fault("rows stands twice")
            self.rows = count
        elif kind == "rule":
            head = []
            for i in range(3):
                if i >= len(rest):
                    raise Fault("a rule has a number, a rank, a class and a side for each field")
                head.append(number(rest[i]))
            sides = [side(word, i) for i, word in enumerate(rest[3:])]
            for rule in self.rules:
                if rule["number"] == head[0]:
                    raise Fault("number %d is in use already, in line %d" % (head[0], rule["line"]))
            self.rules.append(dict(number=head[0], rank=head[1], klass=head[2], sides=sides, line=line))
        elif kind == "telegram":
            self.telegrams.append((line, [number(word) for word in rest]))
        else:
            raise Fault("'%s' is not rows, rule or telegram" % kind)


# --- the codes -------------------------------------------------------------------------------------------------

def accepts(field, low, length):
    width, kind = FIELDS[field]
    if kind == "plain":
        return length in [2 ** j for j in range(width + 1)] and low % length == 0
    return low + length <= 2 ** width


def box_refusal(sides):
    if len(sides) != len(FIELDS):
        return refused(8, 0, 1)
    for i, span in enumerate(sides):
        count = 2 ** FIELDS[i][0]
        if span is not None and not (span[0] < count and 1 <= span[1] <= count):
            return refused(9, i, 1)
    for i, span in enumerate(sides):
        if span is not None and not accepts(i, *span):
            return refused(10, i, 1)
    return None


def values_refusal(values):
    if len(values) != len(FIELDS):
        return refused(8, 0, 1)
    for i, value in enumerate(values):
        if value >= 2 ** FIELDS[i][0]:
            return refused(9, i, 1)
    return None


def digits_of(field, span):
    width, kind = FIELDS[field]
    if kind == "plain":
        if span is None:
            return "*" * width
        stars = span[1].bit_length() - 1
        return format(span[0], "0%db" % width)[:width - stars] + "*" * stars
    if span is None:
        return "*" * (2 ** width - 1)
    low, high = span[0], span[0] + span[1] - 1
    return "".join("1" if i <= low else "0" if i > high else "*" for i in range(1, 2 ** width))


def holds(span, field, value):
    return span is None or (value - span[0]) % 2 ** FIELDS[field][0] < span[1]


# --- the three parts of the output -----------------------------------------------------------------------------

def classify(data):
    lines = data.split(b"\n")
    if lines[-1] == b"":
        lines.pop()
    given, out = Input(), []
    for line, content in enumerate(lines, 1):
        try:
            given.take(line, content.decode("utf-8", errors="replace"))
        except Fault as fault:
            out.append("line %d: %s" % (line, fault))
    rows = 256 if given.rows is None else given.rows
    placed = []
    for rule in sorted(given.rules, key=lambda rule: (rule["rank"], rule["number"])):
        why = box_refusal(rule["sides"])
        if why is None and len(placed) == rows:
            why = refused(1, rows, 0)
        if why is not None:
            out.append("line %d: rule %d %s" % (rule["line"], rule["number"], why))
            continue
        digits = "0" + "".join(digits_of(i, span) for i, span in enumerate(rule["sides"]))
        out.append("row %d rule %d class %d digits %s" % (len(placed), rule["number"], rule["klass"], digits))
        placed.append(rule)
    for line, values in given.telegrams:
        name = " ".join(["telegram"] + [str(value) for value in values])
        why = values_refusal(values)
        if why is not None:
            out.append("line %d: %s %s" % (line, name, why))
            continue
        for rule in placed:
            if all(holds(span, i, value) for i, (span, value) in enumerate(zip(rule["sides"], values))):
                out.append("%s class %d rule %d" % (name, rule["klass"], rule["number"]))
                break
        else:
            out.append(name + " none")
    return "".join(line + "\n" for line in out)


if __name__ == "__main__":
    sys.stdout.buffer.write(classify(sys.stdin.buffer.read()).encode("utf-8"))
