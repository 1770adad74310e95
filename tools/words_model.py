#!/usr/bin/env python3
"""An independent model of the codes, written from docs/codes.md: answers the questions of the programs `words` and `short_words`.

    tools/words_model.py questions > crates/words/stdin                writes the questions about plain and fence codes
    tools/words_model.py short-questions > crates/short_words/stdin    writes those about the short code
    tools/words_model.py < crates/words/stdin                          answers them, as crates/words/stdout has them

It works on sets of values and on text, never on bits of a word, and shares nothing with the Rattle sources.
"""
import random
import re
import sys


def agreed(words):
    """Of some words: the digits on which all of them agree, and * where they do not."""
    return "".join(column[0] if len(set(column)) == 1 else "*" for column in zip(*words))


def joined(first, second):
    """At each digit the first word's, or the second's where the first's is *."""
    return "".join(b if a == "*" else a for a, b in zip(first, second))


# --- the codes: each is asked for its digits only when its settings are within their limits ------------------------

class Plain:
    highest = (255,)    # how high each number behind the code's name may be in a question

    def __init__(self, w):
        self.w = w

    def limits_ok(self):
        return 2 <= self.w <= 16

    def size(self):
        return self.w

    def value(self, v):
        return format(v, "0%db" % self.w)

    def side(self, s, n):
        return agreed([self.value(v) for v in range(s, s + n)])

    def accepts(self, s, n):
        return any(n == 2 ** j and s % n == 0 for j in range(self.w + 1))


class Fence:
    highest = (255,)

    def __init__(self, w):
        self.w = w

    def limits_ok(self):
        return 1 <= self.w <= 6

    def size(self):
        return 2 ** self.w - 1

    def value(self, v):
        return "".join("1" if v >= i else "0" for i in range(1, 2 ** self.w))

    def side(self, s, n):
        t = s + n - 1
        return "".join("1" if i <= s else "0" if i > t else "*" for i in range(1, 2 ** self.w))

    def accepts(self, s, n):
        return s + n - 1 <= 2 ** self.w - 1


class Short:
    highest = (255, 65535)

    def __init__(self, w, h):
        self.w, self.h = w, h

    def limits_ok(self):
        return 2 <= self.w <= 16 and self.h <= 128 and self.h in [2 ** k for k in range(1, self.w)]

    def leading(self):
        k = [2 ** j for j in range(self.w)].index(self.h)
        return self.w - k + 1

    def layers(self):
        return [i for i in range(1, self.h) if i != self.h // 2]

    def size(self):
        return self.leading() + len(self.layers())

    def value(self, v):
        bits = format(v ^ v // 2, "0%db" % self.w)
        return bits[:self.leading()] + "".join(str((v - i) // self.h % 2) for i in self.layers())

    def full(self, s):
        """The word of the span of length h from s on."""
        words = [self.value((s + j) % 2 ** self.w) for j in range(self.h)]
        leading = agreed([word[:self.leading()] for word in words])
        layers = words[0][self.leading():]
        return leading + "".join(d if i == s % self.h else "*" for i, d in zip(self.layers(), layers))

    def side(self, s, n):
        # of length h, the two are the same span
        return joined(self.full(s), self.full((s + n - self.h) % 2 ** self.w))

    def accepts(self, s, n):
        return 1 <= n <= self.h


CODES = {"plain": Plain, "fence": Fence, "short": Short}


# --- a question and its answer -------------------------------------------------------------------------------------

class NoQuestion(Exception):
    """The line is not a question."""


def number(word, highest):
    if not re.fullmatch("[0-9]+", word) or int(word) > highest:
        raise NoQuestion
    return int(word)


def side(word):
    """None for any, else (low end, length)."""
    if word == "any":
        return None
    if word.count("+") != 1:
        raise NoQuestion
    low, length = word.split("+")
    return number(low, 2 ** 16 - 1), number(length, 2 ** 32 - 1)


def read(line):
    """The codes of a question, whether it has values or sides, and these."""
    words, codes = line.split(), []
    while words and words[0] in CODES and len(codes) < 2:
        code = CODES[words[0]]
        settings = words[1:1 + len(code.highest)]
        if len(settings) < len(code.highest):
            raise NoQuestion
        codes.append(code(*[number(word, highest) for word, highest in zip(settings, code.highest)]))
        words = words[1 + len(settings):]
    if not codes or not words or words[0] not in ("value", "box"):
        raise NoQuestion
    if words[0] == "value":
        return codes, "value", [number(word, 2 ** 16 - 1) for word in words[1:]]
    return codes, "box", [side(word) for word in words[1:]]


def answer(line):
    try:
        codes, kind, given = read(line)
    except NoQuestion:
        return "not a question"
    if not all(code.limits_ok() for code in codes):
        return "no 2 0 1"
    if sum(code.size() for code in codes) > 255:
        return "no 5 0 2"
    if len(given) != len(codes):
        return "no 8 0 1"
    if kind == "value":
        for i, code in enumerate(codes):
            if given[i] > 2 ** code.w - 1:
                return "no 9 %d 1" % i
        return "".join(code.value(v) for code, v in zip(codes, given))
    for i, code in enumerate(codes):
        if given[i] is not None:
            s, n = given[i]
            if s > 2 ** code.w - 1 or n < 1 or n > 2 ** code.w:
                return "no 9 %d 1" % i
    for i, code in enumerate(codes):
        if given[i] is not None and not code.accepts(*given[i]):
            return "no 10 %d 1" % i
    return "".join("*" * code.size() if span is None else code.side(*span) for code, span in zip(codes, given))


# --- the questions -------------------------------------------------------------------------------------------------

def plain_and_fence_questions():
    dice = random.Random(20261118)
    limits = {"plain": (2, 16), "fence": (1, 6)}
    for w in range(0, 18):
        yield "plain %d value 0" % w
        yield "fence %d box any" % w
    for w in range(2, 17):
        top = 2 ** w
        for v in sorted({0, 1, 2, 3, top // 2 - 1, top // 2, top - 2, top - 1, top, 65535} | {dice.randrange(top) for _ in range(6)}):
            if v < 65536:
                yield "plain %d value %d" % (w, v)
        yield "plain %d box any" % w
        for j in range(w + 1):
            n = 2 ** j
            for s in sorted({0, top - n, n * dice.randrange(top // n)}):
                yield "plain %d box %d+%d" % (w, s, n)
            if j:
                yield "plain %d box %d+%d" % (w, n // 2, n)
        for s, n in ((0, 0), (0, 3), (1, 2), (top - 1, 2), (0, 2 * top), (0, 4294967295)):
            yield "plain %d box %d+%d" % (w, s, n)
        if top < 65536:
            yield "plain %d box %d+1" % (w, top)
    for w in range(1, 7):
        top = 2 ** w
        for v in range(top + 1):
            yield "fence %d value %d" % (w, v)
        spans = [(s, n) for s in range(top + 1) for n in range(0, top + 2)]
        if w > 3:
            spans = sorted(set(dice.sample(spans, 60)) | {(0, top), (1, top), (top - 1, 1), (0, 1), (0, 0)})
        for s, n in spans:
            yield "fence %d box %d+%d" % (w, s, n)
    for _ in range(400):
        pair = []
        for _ in range(2):
            name = dice.choice(["plain", "fence"])
            pair.append((name, dice.randint(*limits[name])))
        codes = " ".join("%s %d" % c for c in pair)
        if dice.randrange(2):
            yield codes + " value " + " ".join(str(min(65535, dice.randrange(2 ** w + (dice.randrange(8) == 0)))) for _, w in pair)
        else:
            sides = []
            for name, w in pair:
                n = 2 ** dice.randrange(w + 1)
                s = n * dice.randrange(2 ** w // n)
                sides.append(dice.choice(["any", "%d+%d" % (s, n), "%d+%d" % (s, n), "%d+%d" % (min(65535, s + dice.randrange(3)), n + dice.randrange(3))]))
            yield codes + " box " + " ".join(sides)
    yield "plain 16 fence 4 value 80"
    yield "plain 16 fence 4 value 80 3 1"
    yield "plain 16 fence 4 box any"
    yield "plain 16 fence 4 box 9+2 5+0"
    yield "plain 16 fence 4 box 9+2 any"
    yield "plain 17 fence 4 value 80 3"
    yield "plain 16 fence 7 value 80 3"


def short_values(dice, w, h):
    top = 2 ** w
    if top <= 16:
        return range(top + 1)
    borders = {0, 1, h // 2 - 1, h // 2, h // 2 + 1, h - 1, h, h + 1, 2 * h - 1, 2 * h}
    borders |= {top // 2 - 1, top // 2, top - 2, top - 1, top}
    return sorted(borders | {dice.randrange(top)})


def short_spans(dice, w, h):
    top = 2 ** w
    if top <= 16:
        return [(s, n) for s in range(top) for n in range(top + 2)] + [(top, 1)]
    # every length that is accepted, and one more
    spans = [(dice.randrange(top), n) for n in range(1, h + 2)]
    # where in a row of h values a span starts decides which of its digits stay
    residues = sorted({0, 1, h // 2 - 1, h // 2, h // 2 + 1, h - 1} & set(range(h)))
    spans += [(h * dice.randrange(top // h) + r, h) for r in residues]
    # past the highest value
    spans += [(top - 1, h), (top - h + 1, h), (top - 1, 2), (top - dice.randint(1, h - 1), dice.randint(1, h))]
    # lengths and low ends that are refused
    spans += [(0, 0), (dice.randrange(top), top), (0, top + 1)]
    if top < 65536:
        spans.append((top, 1))
    return spans


def short_dense_spans(dice, w, h):
    """Spans all over the field, more of them at its end and at whole and half multiples of h."""
    top = 2 ** w
    for _ in range(100):
        low = dice.choice([
            dice.randrange(top),
            top - 1 - dice.randrange(2 * h),
            h * dice.randrange(top // h) + dice.randrange(-2, 3),
            h * dice.randrange(top // h) + h // 2 + dice.randrange(-2, 3),
        ])
        yield low % top, dice.choice([1, 2, h // 2, h - 1, h, dice.randint(1, h), dice.randint(1, h)])


def short_joined(dice):
    """A question about two joined codes, of which at least one is short."""
    pair = ["short", dice.choice(["plain", "fence", "short"])]
    dice.shuffle(pair)
    texts, codes = [], []
    for name in pair:
        w = dice.randint(*{"plain": (2, 16), "fence": (1, 6), "short": (2, 16)}[name])
        settings = (w, 2 ** dice.randint(1, min(w - 1, 7))) if name == "short" else (w,)
        texts.append(" ".join([name] + [str(x) for x in settings]))
        codes.append((name,) + settings)
    text = " ".join(texts)
    if dice.randrange(3) == 0:
        return text + " value " + " ".join(str(min(65535, dice.randrange(2 ** code[1] + (dice.randrange(8) == 0)))) for code in codes)
    sides = []
    for code in codes:
        top = 2 ** code[1]
        if code[0] == "plain":
            n = 2 ** dice.randrange(code[1] + 1)
            s = n * dice.randrange(top // n)
        elif code[0] == "fence":
            s = dice.randrange(top)
            n = dice.randint(1, top - s)
        else:
            s, n = dice.randrange(top), dice.randint(1, code[2])
        off = "%d+%d" % (min(65535, s + dice.randrange(3)), n + dice.randrange(3))
        sides.append(dice.choice(["any", "%d+%d" % (s, n), "%d+%d" % (s, n), "%d+%d" % (s, n), off]))
    return text + " box " + " ".join(sides)


def short_questions():
    dice = random.Random(20261119)
    for w in range(0, 19):
        heights = {0, 3, 100, 65535, 2 ** w // 2, 2 ** w} | {2 ** k for k in range(9)}
        for h in sorted(heights):
            if h < 65536:
                yield "short %d %d value 0" % (w, h)
    for w in range(2, 17):
        for h in [2 ** k for k in range(1, min(w - 1, 7) + 1)]:
            name = "short %d %d" % (w, h)
            for v in short_values(dice, w, h):
                if v < 65536:
                    yield "%s value %d" % (name, v)
            yield name + " box any"
            spans = list(short_spans(dice, w, h))
            if (w, h) in ((16, 128), (16, 2), (8, 128)):
                spans += short_dense_spans(dice, w, h)
            for s, n in spans:
                yield "%s box %d+%d" % (name, s, n)
    for _ in range(200):
        yield short_joined(dice)
    yield "short 4 4 plain 4 box 5+4 any"
    yield "plain 16 short 11 64 value 80 420"
    yield "short 4 4 short 5 8 box 1+2 any"
    # the order of refusals: 2, 5, 8, 9, 10, each over all fields
    yield "short 16 128 short 17 128 value 0 0"
    yield "short 16 256 short 16 128 box any any"
    yield "short 16 128 short 16 128 value 0 0"
    yield "short 16 128 short 16 128 box any any"
    yield "short 8 128 short 8 128 value 0 0"              # 256 digits
    yield "short 16 128 short 16 64 value 65535 65535"     # 209 digits, the most that two codes have without refusal
    yield "short 16 128 fence 6 value 65535 63"
    yield "short 16 128 short 16 128 value 0"
    yield "short 16 128 short 16 128 box"
    yield "short 8 128 short 8 128 value 256 0"
    yield "short 8 128 short 8 128 box 0+0 0+129"
    yield "short 4 4 value"
    yield "short 4 4 value 16 16"
    yield "short 4 4 box 0+5 any"
    yield "short 4 4 plain 4 value 16 16"
    yield "plain 4 short 4 4 value 0 16"
    yield "short 4 4 plain 4 box 0+5 16+1"
    yield "short 4 4 short 4 4 box 0+5 0+17"
    yield "short 4 4 short 4 4 box 0+5 0+5"
    yield "plain 4 short 4 4 box 3+2 0+5"
    yield "plain 4 short 4 4 box 4+4 0+5"
    yield "short 4 4 box 0+4294967295"
    # no questions
    yield "short 4 value 5"
    yield "short 4 4"
    yield "short 4 x value 5"
    yield "short 4 70000 value 5"
    yield "short 300 4 value 5"
    yield "shorts 4 4 value 5"
    yield "short 4 4 box 5+"
    yield "short 4 4 4 value 5"


# The lists of questions, by the word that asks for them. The short code's has each question once.
QUESTIONS = {"questions": plain_and_fence_questions, "short-questions": lambda: dict.fromkeys(short_questions())}


def main():
    if sys.argv[1:]:
        for q in QUESTIONS[sys.argv[1]]():
            print(q)
    else:
        for line in sys.stdin:
            line = line.rstrip("\n")
            print("%s = %s" % (line, answer(line)))


if __name__ == "__main__":
    main()
