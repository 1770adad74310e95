#!/bin/sh
# Compares the program classify with its model on the examples and on random inputs, the same ones at each run.
#
#     tools/compare_classify.sh [COUNT]        300 random inputs where no count is given
#
# It runs crates/classify/out/classify, which `tools/try-classify` makes. An input on which the two differ is left in
# target/compare/, with what each of them wrote.
set -eu
cd "$(dirname "$0")/.."
count=${1:-300}
program=crates/classify/out/classify
dir=target/compare
if [ ! -x "$program" ]; then
    echo "there is no $program: run tools/try-classify first" >&2
    exit 2
fi
rm -rf "$dir"
mkdir -p "$dir"

python3 - "$count" "$dir" <<'END'
import random
import sys

count, folder = int(sys.argv[1]), sys.argv[2]
pick = random.Random(20)


def value(width):
    top = 2 ** width - 1
    return pick.choice([0, 1, top, top - 1, pick.randint(0, top), pick.randint(0, top), min(top, 2 ** pick.randint(0, width))])


def side(width):
    top = 2 ** width - 1
    kind = pick.randint(0, 9)
    if kind < 2:
        return "any"
    if kind < 3:
        return str(value(width))
    if kind < 7:  # what the codes mostly take
        if width == 16:
            j = pick.randint(0, 16)
            low = pick.randint(0, 2 ** (16 - j) - 1) << j
            return pick.choice(["%d..%d" % (low, low + 2 ** j - 1), "%d+%d" % (low, 2 ** j)])
        low = pick.randint(0, top)
        high = pick.randint(low, top)
        return pick.choice(["%d..%d" % (low, high), "%d+%d" % (low, high - low + 1)])
    if kind < 8:
        return "%d..%d" % (value(width), value(width))
    if kind < 9:
        return "%d+%d" % (value(width), pick.choice([0, 1, 2, 3, top, top + 1, top + 2, 2 ** 32 - 1, 2 ** 32]))
    return pick.choice(["%d..%d" % (value(16), value(16)), str(value(16)), "5..", "..5", "x", "1+", "+1", "1.5", "70000", "1...2", "any+1", "1..2+3"])


def number():
    return pick.choice([str(pick.randint(0, 20)), str(pick.randint(0, 65535)), "0", "65535"])


def maybe(word):
    """The word, or now and then what is no number."""
    return word if pick.randint(0, 39) else pick.choice(["65536", "-1", "+3", "x9", "1_0", "0x10", "\u0663", "99999999999999999999"])


def rule():
    words = ["rule", maybe(str(pick.randint(0, 40))), maybe(str(pick.randint(0, 4))), maybe(number()), side(16), side(4)]
    change = pick.randint(0, 29)
    if change == 0:
        words = words[:pick.randint(1, 5)]
    elif change == 1:
        words += [side(16) for _ in range(pick.randint(1, 3))]
    return words


def telegram():
    words = ["telegram", maybe(str(value(16))), maybe(str(value(4)))]
    change = pick.randint(0, 29)
    if change == 0:
        words = words[:pick.randint(1, 2)]
    elif change == 1:
        words.append(number())
    elif change == 2:
        words[2] = number()
    return words


def line():
    kind = pick.randint(0, 39)
    if kind < 17:
        words = rule()
    elif kind < 35:
        words = telegram()
    elif kind < 36:
        words = pick.choice([["rows", str(pick.randint(1, 30))], ["rows", maybe(str(pick.randint(0, 300)))], ["rows"], ["rows", "1", "1"]])
    elif kind < 37:
        words = [pick.choice(["rul", "Rows", "telegrams", "7", "any", "\u00e9t\u00e9", "rule,"]), "1"]
    else:
        words = []
    text = pick.choice(["", "", "", " ", "\t"]) + pick.choice([" ", " ", "  ", "\t", " \t "]).join(words)
    return text + pick.choice(["", "", "", " ", "\t", "\r", " # a comment", "# rule 1 1 1 any any", "#"])


for i in range(count):
    lines = [line() for _ in range(pick.choice([0, 1, 5, 30, 60, 120, 400 if i % 20 == 0 else 40]))]
    text = "\n".join(lines) + pick.choice(["\n", "\n", ""])
    with open("%s/%d.in" % (folder, i), "w", encoding="utf-8", newline="") as f:
        f.write(text)
END

for example in examples/*.txt; do
    cp "$example" "$dir/$(basename "$example" .txt).in"
done

different=0
total=0
for input in "$dir"/*.in; do
    base=${input%.in}
    total=$((total + 1))
    "$program" < "$input" > "$base.program" || echo "status $?" >> "$base.program"
    python3 tools/classify_model.py < "$input" > "$base.model"
    if cmp -s "$base.program" "$base.model"; then
        rm "$input" "$base.program" "$base.model"
    else
        different=$((different + 1))
        echo "different: $base.in, $base.program, $base.model"
    fi
done
echo "$total inputs, $different different"
[ "$different" -eq 0 ]
