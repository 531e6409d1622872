#!/usr/bin/env python3
"""Writes the stdin and stdout of crates/vectors from a folder of vector files and the edge cases below."""
import sys

folder = sys.argv[1]


def cases(name):
    for line in open(f"{folder}/{name}.txt"):
        line = line.rstrip("\n")
        if line and not line.startswith("#"):
            left, right = line.split(" => ")
            yield left, right


TOP = 2**64 - 1
# rows at the edges of reading, with what the rules say of them
EDGES = [
    ([], "1 0"),
    ([3], "1 1"),
    ([0, 2], "1 0"),
    ([17, 2], "1 17"),
    ([TOP, 2], f"1 {TOP}"),
    ([3, 0], "1 0"),
    ([3, 9], "1 9"),
    ([3, TOP], f"1 {TOP}"),
    ([17, 9], "1 17"),
    ([1, 1], "1 2"),
    ([1, 1, 0], "1 3"),
    ([1, 1, 0, 0], "1 states, 1 keys"),
    ([1, 1, 0, 2**32 - 1], "1 states, 1 keys"),
    ([1, 1, 0, 2**32], "2 0"),
    ([1, 1, 1, 0], "2 0"),
    ([1, 1, TOP, TOP], "2 0"),
    ([2, 2, 0, 0, 1, 0, 1, 0, 2, 0], "2 3"),
    ([2, 2, 0, 0, 1, 0, 1, TOP, 2, 0], "2 2"),
    ([1, 1, 0, 7, 9, 9, 9], "1 states, 1 keys"),
    ([16, 8] + [15, 1] * 128, "16 states, 8 keys"),
    ([16, 8] + [15, 1] * 127 + [16, 1], "2 127"),
    ([16, 8] + [15, 1] * 127 + [15], "1 257"),
]

PUMP = [3, 2, 1, 0, 0, 0, 2, 0, 0, 1, 2, 0, 0, 2]
ONE = [1, 1, 0, 2**32 - 1]
FULL = [16, 8] + [(s * 7 + x * 3 + 1) % 16 if i == 0 else s * x for s in range(16) for x in range(8) for i in (0, 1)]
# machines, bounds and rooms: the largest that fits, one more, the exact room and one less, the largest numbers
SURVIVORS = [
    (PUMP, 0, 100), (PUMP, 3, 100), (PUMP, 3, 50), (PUMP, 3, 49), (PUMP, 1364, 20000), (PUMP, 1365, 20000), (PUMP, 1365, 0),
    (PUMP, TOP, 10), (PUMP, 2**32, 10), (PUMP, 1431655764, 10), (PUMP, 1431655765, 10), (PUMP, 5, 0),
    (ONE, 0, 4), (ONE, 0, 3), (ONE, 1, 10), (ONE, 4095, 9000), (ONE, 4096, 9000), (ONE, TOP, 9000), (ONE, 2**32 - 1, 0), (ONE, 2**32, 0),
    (FULL, 0, 300), (FULL, 255, 66000), (FULL, 255, 65538), (FULL, 255, 65537), (FULL, 256, 66000),
    ([], 1, 5), ([3, 2, 1], 1, 5), ([1, 1, 1, 0], 1, 5),
]


def refused_row(row):
    if len(row) < 2:
        return (1, len(row))
    n, k = row[0], row[1]
    if not 1 <= n <= 16:
        return (1, n)
    if not 1 <= k <= 8:
        return (1, k)
    if len(row) < 2 + 2 * n * k:
        return (1, len(row))
    for j in range(n * k):
        if row[2 + 2 * j] >= n or row[3 + 2 * j] >= 2**32:
            return (2, j)
    return None


def checksum(row):
    c = 0
    for number in row:
        c = (c * 31 + number) % 2**32
    return c


def made(row, longest):
    """The survivor's row."""
    n, k = row[0], row[1]
    numbers = [(longest + 1) * n, k]
    for pressed in range(longest + 1):
        for s in range(n):
            for x in range(k):
                to, output = row[2 + 2 * (s * k + x)], row[3 + 2 * (s * k + x)]
                if pressed == longest and x == 0:
                    output = (output + 1) % 2**32
                numbers += [min(pressed + 1, longest) * n + to, output]
    return numbers


def survivor(row, longest, room):
    out = [7] * room
    refusal = refused_row(row)
    if refusal is None:
        states = (longest + 1) * row[0]
        needed = 2 + 2 * states * row[1]
        if states > 4096:
            refusal = (7, min(states, 2**32))
        elif needed > room:
            refusal = (8, needed)
    if refusal is not None:
        return f"{refusal[0]} {refusal[1]}, {checksum(out)}"
    out[:needed] = made(row, longest)
    return f"{states} states, {checksum(out)}"


def survived(row, extra):
    longest = max(len(test.replace("-", "")) for test in all_tests(row, extra))
    return " ".join(map(str, row)) + f" / {extra}", " ".join(map(str, made(row, longest)))


stdin, stdout = [], []


def section(name, lines):
    stdin.append(f"== {name}")
    for left, right in lines:
        stdin.append(left)
        stdout.append(right)


def reading():
    for row, answer in EDGES:
        yield " ".join(map(str, row)), answer
    for left, right in cases("refusals"):
        if right.split()[0] in "12":
            yield left.split(" / ")[0], right


def numbered_verdicts():
    """The cases of judging, with the number of the failed test: the place of its word among the tests of its row."""
    for left, right in cases("verdicts"):
        if right.startswith("refused"):
            _, number, _, place = right.split()
            right = f"{number} {place}"
        elif right.startswith("failed"):
            _, word, rest = right.split(" ", 2)
            row, extra, _ = left.split("/")
            right = f"failed {all_tests(list(map(int, row.split())), int(extra)).index(word)} {rest}"
        yield left, right


def all_tests(row, extra):
    """The tests of a minimal machine, straight from their definition."""
    n, k = row[0], row[1]
    move = lambda s, x: (row[2 + 2 * (s * k + x)], row[3 + 2 * (s * k + x)])

    def run(s, word):
        shown = []
        for x in word:
            s, output = move(s, x)
            shown.append(output)
        return s, shown

    # words in order, until every state and every pair has its first word
    access, apart, words = {}, {}, [()]
    while len(access) < n or len(apart) < n * (n - 1) // 2:
        for word in words:
            access.setdefault(run(0, word)[0], word)
            for s in range(n):
                for t in range(s):
                    if (s, t) not in apart and run(s, word)[1] != run(t, word)[1]:
                        apart[(s, t)] = word
        words = [word + (x,) for word in words for x in range(k)]
    ends = list(dict.fromkeys(apart[(s, t)] for s in range(n) for t in range(s))) or [()]
    fronts = [access[s] for s in range(n)]
    fronts += [word + (x,) for word in fronts for x in range(k)]
    between, layer = [()], [()]
    for _ in range(extra):
        layer = [word + (x,) for word in layer for x in range(k)]
        between += layer
    tests = dict.fromkeys(f + b + w for f in fronts for b in between for w in ends)
    return ["".join(map(str, test)) or "-" for test in tests]


section("read", reading())
section("minimize", cases("minimize"))
section("words", cases("words"))
section("tests", cases("tests"))
section("large", cases("large"))
section("refusals", cases("refusals"))
section("verdicts", numbered_verdicts())
section("survivor", ((" / ".join([" ".join(map(str, row)), str(longest), str(room)]), survivor(row, longest, room)) for row, longest, room in SURVIVORS))
section("survive", (survived(row, extra) for row in (PUMP, ONE) for extra in range(4)))
open("crates/vectors/stdin", "w").write("\n".join(stdin) + "\n")
open("crates/vectors/stdout", "w").write("\n".join(stdout) + "\n")
