#!/usr/bin/env python3
"""Decides by itself what crates/trial prints: makes the same machines and boards, and prints the same lines.

Minimality, the tests, the verdicts and equivalence are all worked out here from their definitions, by going through words.
"""
from itertools import product


class Random:
    def __init__(self, seed):
        self.state = seed

    def below(self, bound):
        self.state = (self.state * 6364136223846793005 + 1442695040888963407) % 2**64
        return (self.state >> 33) % bound


def random_machine(random, states, keys):
    machine = []
    for _ in range(states):
        moves = []
        for _ in range(keys):
            to = random.below(states)
            moves.append([to, random.below(2)])
        machine.append(moves)
    return machine


def split_state(random, machine):
    old = random.below(len(machine))
    machine.append([list(move) for move in machine[old]])
    for moves in machine:
        for move in moves:
            if move[0] == old and random.below(2) == 0:
                move[0] = len(machine) - 1


def change(random, machine):
    keys = len(machine[0])
    number = random.below(len(machine) * keys)
    move = machine[number // keys][number % keys]
    if random.below(2) == 0:
        move[0] = random.below(len(machine))
    else:
        move[1] = 1 - move[1]


def random_board(random, machine):
    if random.below(5) == 0:
        states = random.below(5) + 1
        return random_machine(random, states, len(machine[0]))
    more = random.below(5 - len(machine) + 1)
    board = [[list(move) for move in moves] for moves in machine]
    for _ in range(more):
        split_state(random, board)
    for _ in range(random.below(3)):
        change(random, board)
    return board


def run(machine, state, word):
    shown = []
    for key in word:
        state, output = machine[state][key]
        shown.append(output)
    return state, shown


def words(keys, longest):
    for length in range(longest + 1):
        yield from product(range(keys), repeat=length)


def access_words(machine):
    found = {}
    for word in words(len(machine[0]), len(machine)):
        found.setdefault(run(machine, 0, word)[0], word)
    return found


def first_separating(machine, s, t):
    for word in words(len(machine[0]), len(machine)):
        if run(machine, s, word)[1] != run(machine, t, word)[1]:
            return word
    return None


def is_minimal(machine):
    states = range(len(machine))
    return len(access_words(machine)) == len(machine) and all(first_separating(machine, t, s) is not None for s in states for t in range(s))


def tests(machine, extra):
    states = range(len(machine))
    keys = len(machine[0])
    access = [access_words(machine)[s] for s in states]
    separating = list(dict.fromkeys(first_separating(machine, t, s) for s in states for t in range(s))) or [()]
    fronts = access + [word + (key,) for word in access for key in range(keys)]
    return list(dict.fromkeys(a + b + c for a in fronts for b in words(keys, extra) for c in separating))


def verdict(machine, suite, board):
    for number, test in enumerate(suite):
        expected, shown = run(machine, 0, test)[1], run(board, 0, test)[1]
        for key in range(len(test)):
            if shown[key] != expected[key]:
                return number, key, shown[key], expected[key]
    return None


def equivalent(machine, board):
    """No pair of states that a word reaches shows different outputs for a key."""
    reached = {(0, 0)}
    waiting = [(0, 0)]
    while waiting:
        s, t = waiting.pop()
        for (to, output), (other_to, other_output) in zip(machine[s], board[t]):
            if output != other_output:
                return False
            if (to, other_to) not in reached:
                reached.add((to, other_to))
                waiting.append((to, other_to))
    return True


def main():
    random = Random(2024)
    machines = pairs = passed = failed = later = disagreements = total = 0
    for _ in range(1000):
        states = random.below(3) + 1
        keys = random.below(3) + 1
        machine = random_machine(random, states, keys)
        if not is_minimal(machine):
            continue
        machines += 1
        suites = [tests(machine, extra) for extra in range(4)]
        for _ in range(8):
            board = random_board(random, machine)
            same = equivalent(machine, board)
            for extra in range(3):
                pairs += 1
                found = verdict(machine, suites[extra], board)
                passed += found is None
                failed += found is not None
                for number in found or (1,):
                    total = (total * 31 + number) % 2**32
                larger = len(board) > len(machine) + extra
                if same and found is not None or not same and found is None and not larger:
                    disagreements += 1
                if larger and found is None and verdict(machine, suites[extra + 1], board) is not None:
                    later += 1
    print(f"{machines} minimal machines, {pairs} pairs")
    print(f"{passed} passed, {failed} failed")
    print(f"{later} passed and would fail with one extra state more")
    print(f"{total} is the sum of the verdicts")
    print(f"{disagreements} disagreements")


if __name__ == "__main__":
    main()
